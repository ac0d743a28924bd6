import { drag } from "d3-drag";
import { event as d3event, select } from "d3-selection";
import { zoom, zoomIdentity, zoomTransform } from "d3-zoom";
import { svg } from "../dom.js";
import { bend, curve, halfHeight, halfWidth, keyOf, linesOf, LINES_AT, rim, shownName } from "./geometry.js";
import { describe } from "./describe.js";
import { routed } from "./route.js";

/** @typedef {import("../text/printed.js").Graph} Graph  @typedef {import("../text/printed.js").Edge} Edge */
/** @typedef {{x: number, y: number}} Point */
/**
 * What an answer shows in the drawing: classes of vertices, edges drawn over, and another graph on the observed vertices
 * in the place of the drawn one, whose edges alone are shown. An edge that is `plain` has no heads.
 * @typedef {{vertices?: Map<string, string>, edges?: (Edge & {cls: string, plain?: boolean})[], graph?: Graph | null}} Marks
 */
/**
 * @typedef {object} Listeners
 * @property {() => void} [moved] a vertex was dragged to its new place
 * @property {(name: string, el: Element, withShift?: boolean) => void} [vertex] one was clicked, or chosen by Enter
 * @property {(from: string, to: string) => void} [joined] a line was dragged from one to another
 * @property {(edge: Edge, at: Point) => void} [edge]
 * @property {(at: Point) => void} [empty] the ground was clicked twice
 * @property {(name: string, e: KeyboardEvent) => void} [key]
 * @property {(name: string | null) => void} [hover] the pointer or the focus came to one, or left it
 * @property {(classes: Set<string>) => void} [shows] what the legend has to explain now
 * @property {(names: string[]) => void} [framed] a frame was drawn round these
 */

const HEADS = ["edge", "open", "hedge", "chosen", "difference", "left", "causal", "biasing", "both"];
const MOST_ANIMATED = 30;
const FRAMES_MS = 260;
const MANY_EDGES = 300; // beyond it few bends are tried
const FEW_BENDS = 6;

/** The drawing of one diagram in an SVG element. Only what changed is drawn anew. */
export class Diagram {
  /** @type {Graph} */ graph = { vertices: [], edges: [] };
  /** @type {Map<string, Point>} */ places = new Map();
  /** @type {Map<string, Point>} where a movement ends */ target = this.places;
  /** @type {Marks} */ marks = {};
  /** @type {Set<string>} chosen to be changed together */ selected = new Set();
  /** @type {Set<string>} those that lead to one vertex */ ancestors = new Set();
  /** @type {Set<string>} those that one vertex leads to */ descendants = new Set();
  /** @type {Map<string, string>} classes of edges, by their keys */ colours = new Map();
  /** Whether dragging the ground draws a frame. */ isFraming = false;
  #halves = new Map(); // of the shapes' widths
  #talls = new Map(); // and of their heights
  #bends = new Map(); // by an edge's key, the control point of its curve
  #arranged = ""; // the places and widths for which the bends were chosen
  #shown = { vertices: new Map(), edges: new Map(), over: [] };
  #attributes = new WeakMap();
  #zoom;
  #isFitted = false; // whether the view is as it was fitted, to a drawing as it was then
  #size = { width: 0, height: 0 }; // of the pane, when the view was chosen
  #frame;
  #ghost = null; // the edge being drawn: {from, both}

  /** @param {SVGSVGElement} element @param {Listeners} on */
  constructor(element, on = {}) {
    this.element = element;
    this.on = on;
    this.id = element.id;
    element.replaceChildren(svg("defs", {}, HEADS.map((name) => head(this.id, name))));
    this.layers = Object.fromEntries(["edges", "over", "vertices"].map((name) => [name, svg("g", { class: name })]));
    this.ghostLine = svg("path", { class: "ghost" });
    this.frame = svg("rect", { class: "frame" });
    this.view = svg("g", { class: "view" }, this.layers.edges, this.layers.over, this.ghostLine, this.layers.vertices, this.frame);
    element.append(this.view);
    this.#listen();
  }

  #listen() {
    const { element, view, on } = this;
    const isOurs = (e) => Boolean(on.framed) && (e.shiftKey || this.isFraming) && e.target === element;
    this.#zoom = zoom().scaleExtent([0.15, 4])
      .filter(() => !d3event.ctrlKey && !d3event.button && !(isOurs(d3event) && d3event.type !== "wheel"))
      .on("zoom", () => {
        view.setAttribute("transform", d3event.transform);
        this.#isFitted = false;
      });
    element.addEventListener("pointerdown", (e) => isOurs(e) && e.button === 0 && this.#frameFrom(e));
    select(element).call(this.#zoom).on("dblclick.zoom", null);
    element.addEventListener("dblclick", (e) => e.target === element && on.empty?.(this.#at(e)));
    element.addEventListener("pointermove", (e) => this.#ghost && this.#drawGhost(this.#at(e)));
  }

  /** Draws a frame from here until the pointer goes up, and chooses what stands in it. */
  #frameFrom(down) {
    const p = this.#at(down), { element } = this;
    const sides = (e) => {
      const q = this.#at(e);
      return { x: Math.min(p.x, q.x), y: Math.min(p.y, q.y), width: Math.abs(p.x - q.x), height: Math.abs(p.y - q.y) };
    };
    const move = (e) => this.#set(this.frame, { ...sides(e), class: "frame on" });
    const up = (e) => {
      for (const [kind, listener] of [["pointermove", move], ["pointerup", up]]) element.removeEventListener(kind, listener);
      this.#set(this.frame, { class: "frame" });
      const { x, y, width, height } = sides(e), isIn = ([, v]) => v.x >= x && v.x <= x + width && v.y >= y && v.y <= y + height;
      this.on.framed([...this.places].filter(isIn).map(([name]) => name));
    };
    down.preventDefault();
    element.setPointerCapture?.(down.pointerId);
    element.addEventListener("pointermove", move);
    element.addEventListener("pointerup", up);
  }

  #drag() {
    let far, joins;
    return drag().clickDistance(4)
      .subject((name) => ({ ...this.places.get(name) }))
      .on("start", () => {
        far = false;
        joins = Boolean(this.on.joined) && (this.joining || isOnRim(d3event.sourceEvent));
      })
      .on("drag", (name) => {
        far ||= Math.hypot(d3event.x - d3event.subject.x, d3event.y - d3event.subject.y) > 4;
        if (far && joins) this.#dragEdge(name, pointOf(d3event.sourceEvent));
        else if (far) this.#moveTo(name, { x: d3event.x, y: d3event.y });
      })
      .on("end", (name) => {
        if (far && joins) this.#dropEdge(name, pointOf(d3event.sourceEvent));
        if (!far || joins) return;
        this.target = this.places;
        this.on.moved();
      });
  }

  #dragEdge(name, at) {
    if (this.#ghost?.from !== name) this.ghost(name, this.joining === "both");
    this.#drawGhost(this.#at(at));
  }

  #dropEdge(name, at) {
    this.ghost(null);
    const over = document.elementFromPoint(at.clientX, at.clientY)?.closest(".vertex");
    const to = over && this.layers.vertices.contains(over) ? select(over).datum() : null;
    if (to && to !== name) this.on.joined(name, to);
  }

  /** Moves a vertex, and those that are chosen with it. */
  #moveTo(name, point) {
    const from = this.places.get(name), names = this.selected.has(name) ? [...this.selected] : [name];
    for (const other of names) {
      const p = this.places.get(other);
      if (p) this.places.set(other, { x: p.x + point.x - from.x, y: p.y + point.y - from.y });
    }
    const at = (e) => names.includes(e.a) || names.includes(e.b);
    for (const e of this.graph.edges) if (at(e)) this.#bends.delete(keyOf(e));
    this.#bendMissing();
    this.#render();
  }

  /** A point of the window in the drawing's coordinates. */
  #at({ clientX, clientY }) {
    const m = this.view.getScreenCTM().inverse();
    return { x: m.a * clientX + m.e, y: m.d * clientY + m.f };
  }

  /** Shows a graph, moving vertices that were there before to their new places. */
  draw(/** @type {Graph} */ graph, /** @type {Map<string, Point>} */ places) {
    const from = this.places;
    this.graph = graph;
    this.target = places;
    this.#halves = new Map(graph.vertices.map((v) => [v.name, halfWidth(v)]));
    this.#talls = new Map(graph.vertices.map((v) => [v.name, halfHeight(v)]));
    cancelAnimationFrame(this.#frame);
    const isFar = ([name, p]) => from.has(name) && Math.hypot(from.get(name).x - p.x, from.get(name).y - p.y) > 1;
    if (isStill() || graph.vertices.length > MOST_ANIMATED || ![...places].some(isFar)) return this.#place(places);
    const start = performance.now();
    const step = (now) => {
      const t = Math.min(1, Math.max(0, (now - start) / FRAMES_MS));
      this.#place(t < 1 ? between(from, places, t * (2 - t)) : places);
      if (t < 1) this.#frame = requestAnimationFrame(step);
    };
    step(start);
  }

  #place(places) {
    this.places = places;
    const arranged = JSON.stringify([...places].map(([name, p]) => [name, p.x, p.y, this.#halves.get(name)]));
    if (arranged !== this.#arranged) this.#bends = new Map();
    this.#arranged = arranged;
    this.#bendMissing();
    this.#render();
  }

  mark(/** @type {Marks} */ marks) {
    this.marks = marks;
    this.#render();
  }

  /** Shows something beside the marks of an answer. @param {{selected?: Set<string>, ancestors?: Set<string>, colours?: Map<string, string>}} what */
  show(what) {
    Object.assign(this, what);
    this.#render();
  }

  /** An edge's curve without its ends, for files: where it begins, is drawn to, and ends. */
  curveOf(e) {
    return { from: this.places.get(e.a), to: this.places.get(e.b), bend: this.#bends.get(keyOf(e)) };
  }

  /** The pixels at the top, on which buttons lie, and at the bottom. */
  #covered() {
    const tools = this.element.parentElement?.querySelector(":scope > .tools")?.offsetHeight ?? 0;
    return { top: Math.max(45, tools + 20), bottom: 24 };
  }

  /** The pixels that a drawing may take. */
  room() {
    const { width, height } = this.element.getBoundingClientRect(), { top, bottom } = this.#covered();
    return { width: Math.max(1, width - 60), height: Math.max(1, height - top - bottom) };
  }

  /** Fits the view to the drawing. */
  fit() {
    this.element.removeAttribute("viewBox");
    const box = this.element.getBoundingClientRect();
    if (!box.width) return;
    select(this.element).call(this.#zoom.transform, this.#fitting(box));
    this.#isFitted = true;
    this.#size = box;
  }

  #fitting(box) {
    if (!this.target.size) return zoomIdentity;
    const { left, right, top, bottom } = this.bounds(this.target);
    const room = this.room(), k = Math.min(1.3, room.width / (right - left), room.height / (bottom - top));
    const x = box.width / 2 - (k * (left + right)) / 2, y = this.#covered().top + room.height / 2 - (k * (top + bottom)) / 2;
    return zoomIdentity.translate(x, y).scale(k);
  }

  /** Whether the drawing is seen as it was fitted. */
  get isFitted() {
    return this.#isFitted;
  }

  /** Follows the pane's size: what was fitted, and wasn't changed since, is fitted again; else the middle stays where it is. */
  resized() {
    const box = this.element.getBoundingClientRect(), { width, height } = this.#size;
    if (!box.width) return;
    if (this.#isFitted) return this.fit();
    const t = zoomTransform(this.element), moved = [(box.width - width) / 2 + t.x, (box.height - height) / 2 + t.y];
    if (width) select(this.element).call(this.#zoom.transform, zoomIdentity.translate(...moved).scale(t.k));
    this.#size = box;
  }

  /** Says that the drawing is changed by hand, so that the view stays as it is. */
  stay() {
    this.#isFitted = false;
  }

  /** Shows the view again that the screen had before it was fitted to paper. */
  backFromPaper() {
    const was = this.#isFitted;
    this.element.removeAttribute("viewBox");
    select(this.element).call(this.#zoom.transform, zoomTransform(this.element));
    this.#isFitted = was;
  }

  /** Fits the view to whatever size the paper gives; `backFromPaper` is for the screen again. */
  fitToPaper() {
    const { left, right, top, bottom } = this.bounds();
    if (!this.places.size) return;
    this.view.removeAttribute("transform");
    this.element.setAttribute("viewBox", [left - 10, top - 10, right - left + 20, bottom - top + 20].join(" "));
  }

  /** The rectangle that all vertices and arcs lie in. */
  bounds(places = this.places) {
    const xs = [], ys = [];
    for (const [name, p] of places) {
      const half = this.#halves.get(name) ?? 0;
      xs.push(p.x - half, p.x + half);
      ys.push(p.y - 36, p.y + 36);
    }
    for (const e of this.graph.edges) {
      const c = this.#bends.get(keyOf(e));
      if (!c || !places.has(e.a) || !places.has(e.b) || places !== this.places) continue;
      const top = curve(places.get(e.a), c, places.get(e.b), 0.5);
      xs.push(top.x);
      ys.push(top.y - 8, top.y + 8);
    }
    return { left: Math.min(...xs), right: Math.max(...xs), top: Math.min(...ys), bottom: Math.max(...ys) };
  }

  zoomBy(factor) {
    select(this.element).call(this.#zoom.scaleBy, factor);
  }

  panBy(x, y) {
    select(this.element).call(this.#zoom.translateBy, x, y);
  }

  /** The middle of what is seen, in the drawing's coordinates. */
  middle() {
    const box = this.element.getBoundingClientRect();
    return this.#at({ clientX: box.left + box.width / 2, clientY: box.top + box.height / 2 });
  }

  /** What is seen, but for what buttons cover, in the drawing's coordinates. */
  seen() {
    const box = this.element.getBoundingClientRect(), { top, bottom } = this.#covered();
    const from = this.#at({ clientX: box.left + 10, clientY: box.top + top }), to = this.#at({ clientX: box.right - 10, clientY: box.bottom - bottom });
    return { left: from.x, right: to.x, top: from.y, bottom: to.y };
  }

  /** Moves the view, where a vertex isn't in it, as little as it takes. */
  reveal(name) {
    const p = this.target.get(name), { left, right, top, bottom } = this.seen(), half = this.#halves.get(name) ?? 0;
    if (!p) return;
    const by = (low, high, least, most) => (low < least ? least - low : high > most ? most - high : 0);
    const x = by(p.x - half, p.x + half, left, right), tall = this.#talls.get(name) ?? 0, y = by(p.y - tall, p.y + tall, top, bottom);
    if (x || y) this.panBy(x, y);
  }

  focus(name) {
    this.#shown.vertices.get(name)?.group.focus();
  }

  /** Draws a line from a vertex to the pointer until the next choice of a vertex; null ends it. */
  ghost(from, both) {
    this.#ghost = from && { from, both };
    this.element.classList.toggle("connecting", Boolean(from));
    this.ghostLine.removeAttribute("d");
  }

  #drawGhost(at) {
    const { from, both } = this.#ghost, p = this.places.get(from), q = rim(p, this.#halves.get(from), at, 2, this.#talls.get(from));
    const end = `url(#${this.id}-edge)`;
    this.#set(this.ghostLine, {
      class: both ? "ghost both" : "ghost", "marker-end": end, "marker-start": both ? end : null,
    });
    this.ghostLine.setAttribute("d", `M${q.x},${q.y}L${at.x},${at.y}`);
  }

  /** Chooses the bends of the edges that have none. */
  #bendMissing() {
    const { graph, places } = this, arcs = [];
    const round = [...places].map(([name, p]) => ({ name, ...p, half: this.#halves.get(name) ?? 0, tall: this.#talls.get(name) }));
    for (const e of graph.edges) {
      const key = keyOf(e), p = places.get(e.a), q = places.get(e.b);
      if (!p || !q) continue;
      if (!this.#bends.has(key)) {
        const others = round.filter((o) => o.name !== e.a && o.name !== e.b);
        this.#bends.set(key, bend(p, q, e.both, others, arcs, graph.edges.length > MANY_EDGES ? FEW_BENDS : undefined));
      }
      if (e.both) arcs.push(curve(p, this.#bends.get(key), q, 0.5));
    }
  }

  /** The path of an edge, between the rims of its ends. */
  #path(e) {
    const p = this.places.get(e.a), q = this.places.get(e.b), halo = (n) => (this.marks.vertices?.has(n) ? 6 : 0);
    const c = this.#bends.get(keyOf(e)) ?? bend(p, q, e.both, [], []);
    const s = rim(p, this.#halves.get(e.a), c, halo(e.a) + (e.both ? 3 : 1), this.#talls.get(e.a));
    const t = rim(q, this.#halves.get(e.b), c, halo(e.b) + 3, this.#talls.get(e.b));
    const at = ({ x, y }) => `${x.toFixed(1)},${y.toFixed(1)}`;
    return `M${at(s)}Q${at(c)} ${at(t)}`;
  }

  #render() {
    const { graph, marks, places } = this, isThere = (e) => places.has(e.a) && places.has(e.b);
    const marked = (marks.edges ?? []).filter(isThere), left = marks.graph?.edges.filter(isThere);
    const over = left ? [...undrawn(graph, left), ...marked] : routed(graph, marked);
    this.#renderEdges(new Set(over.filter((e) => !e.plain).map(keyOf)), left && new Set(left.map(keyOf)));
    this.#renderOver(over);
    this.#renderVertices();
    this.on.shows?.(new Set([
      ...(marks.vertices?.values() ?? []), ...over.map((e) => e.cls), ...(this.selected.size ? ["selected"] : []),
      ...(this.ancestors.size ? ["ancestor"] : []), ...(this.descendants.size ? ["descendant"] : []),
    ]));
  }

  /** @param {Set<string>} over those that are drawn over @param {Set<string>} [left] those that another graph has */
  #renderEdges(over, left) {
    const { graph, layers } = this, end = `url(#${this.id}-edge)`, seen = new Set();
    for (const edge of graph.edges) {
      const key = keyOf(edge), path = this.#path(edge);
      seen.add(key);
      const item = getOrMake(this.#shown.edges, key, () => this.#newEdge());
      item.edge = edge;
      const colour = left ? "" : this.colours.get(key);
      const classes = ["edge", edge.both && "both", colour, over.has(key) && "under", left && !left.has(key) && "cut"];
      this.#set(item.group, {
        class: classes.filter(Boolean).join(" "), "data-edge": `${edge.a}${edge.both ? "↔" : "→"}${edge.b}`,
      });
      this.#set(item.grip, { d: path });
      this.#set(item.second, { d: colour?.includes(" also") ? path : null });
      const tip = colour ? `url(#${this.id}-${colour.includes(" also") ? "both" : colour.split(" ")[0]})` : end;
      this.#set(item.line, { d: path, "marker-end": tip, "marker-start": edge.both ? tip : null });
      if (!item.group.parentNode) layers.edges.append(item.group);
    }
    dropOthers(this.#shown.edges, seen);
  }

  #newEdge() {
    const item = { edge: null, line: svg("path", { class: "line" }), second: svg("path", { class: "second" }), grip: svg("path", { class: "grip" }) };
    item.grip.addEventListener("click", (e) => this.on.edge?.(item.edge, { x: e.clientX, y: e.clientY }));
    item.group = svg("g", { "aria-hidden": "true" }, item.line, item.second, item.grip);
    return item;
  }

  #renderOver(over) {
    const lines = this.#shown.over;
    while (lines.length > over.length) lines.pop().remove();
    while (lines.length < over.length) lines.push(this.layers.over.appendChild(svg("path")));
    over.forEach((e, i) => {
      const end = e.plain ? null : `url(#${this.id}-${e.cls})`;
      this.#set(lines[i], {
        class: `${e.cls}${e.both ? " both" : ""}`, d: this.#path(e), "marker-end": end,
        "marker-start": e.both ? end : null,
      });
    });
  }

  #renderVertices() {
    const { graph, marks, places, layers } = this, seen = new Set(graph.vertices.map((v) => v.name));
    const kept = marks.graph && new Set(marks.graph.vertices.map((v) => v.name));
    for (const vertex of graph.vertices) {
      const { name, role } = vertex, p = places.get(name), half = this.#halves.get(name), tall = this.#talls.get(name);
      if (!p) continue;
      const item = getOrMake(this.#shown.vertices, name, () => this.#newVertex(name));
      const lead = role === "exposure" || role === "outcome";
      this.#set(item.group, {
        class: [
          "vertex", role, marks.vertices?.get(name), kept && !kept.has(name) && "gone", this.selected.has(name) && "selected",
          this.ancestors.has(name) && "ancestor", this.descendants.has(name) && "descendant",
        ].filter(Boolean).join(" "),
        transform: `translate(${p.x.toFixed(1)},${p.y.toFixed(1)})`,
        "aria-label": describe(vertex, graph, marks.vertices?.get(name), this.selected.has(name)),
      });
      this.#set(item.halo, box(half, tall, 5));
      this.#set(item.shape, box(half, tall, 0));
      this.#set(item.rim, box(half, tall, 1));
      for (const line of item.lines) this.#set(line, { x: lead ? 9 : 0 });
      this.#set(item.mark, { transform: `translate(${13 - half},0)`, d: MARKS[role] ?? "" });
    }
    dropOthers(this.#shown.vertices, seen);
    putInOrder(layers.vertices, graph.vertices.map((v) => this.#shown.vertices.get(v.name)?.group).filter(Boolean));
  }

  #newVertex(name) {
    const acts = Boolean(this.on.vertex), [text, lines] = written(name);
    const item = {
      halo: svg("rect", { class: "halo" }), shape: svg("rect", { class: "shape" }), rim: svg("rect", { class: "rim" }), mark: svg("path", { class: "mark" }),
      text, lines,
    };
    item.group = svg("g", acts ? { tabindex: 0, role: "button", "aria-haspopup": "menu" } : {},
      [item.halo, item.shape, this.on.joined && item.rim, item.mark, item.text, shownName(name) !== name && svg("title", {}, name)].filter(Boolean));
    const selection = select(item.group).datum(name);
    if (this.on.moved) selection.call(this.#drag());
    selection.on("click", () => d3event.defaultPrevented || this.on.vertex?.(name, item.group, d3event.shiftKey));
    for (const [kind, whom] of [["pointerenter", name], ["pointerleave", null], ["focus", name], ["blur", null]]) {
      item.group.addEventListener(kind, () => this.on.hover?.(whom));
    }
    item.group.addEventListener("keydown", (e) => {
      if (e.key !== "Enter" && e.key !== " ") return this.on.key?.(name, e);
      e.preventDefault();
      this.on.vertex?.(name, item.group);
    });
    return item;
  }

  /** Sets attributes where they changed. */
  #set(el, attributes) {
    const had = this.#attributes.get(el) ?? {};
    for (const [name, value] of Object.entries(attributes)) {
      if (had[name] === value) continue;
      if (value === null) el.removeAttribute(name);
      else el.setAttribute(name, value);
    }
    this.#attributes.set(el, { ...had, ...attributes });
  }
}

/** Edges of another graph that aren't drawn: those that stand for hidden vertices. */
function undrawn(graph, edges) {
  const drawn = new Set(graph.edges.map(keyOf));
  return edges.filter((e) => !drawn.has(keyOf(e))).map((e) => ({ ...e, cls: "left" }));
}

const MARKS = { exposure: "M0,-5.5L9,0L0,5.5z", outcome: "M1,-5.5h2.6v11h-2.6z" };

const box = (half, tall, grow) => ({
  x: -half - grow, y: -tall - grow, width: 2 * (half + grow), height: 2 * (tall + grow), rx: tall + grow,
});

/** The text of a name, and its lines. A blank between two is in the text, and takes no room. */
function written(name) {
  const lines = linesOf(name), dy = "0.35em";
  if (lines.length < 2) {
    const text = svg("text", { dy }, lines[0]);
    return [text, [text]];
  }
  const shown = lines.map((line, i) => svg("tspan", { y: LINES_AT[i], dy }, line.trimEnd())), blank = lines[0].slice(lines[0].trimEnd().length);
  return [svg("text", {}, shown[0], blank && svg("tspan", { "font-size": 0 }, blank), shown[1]), shown];
}

function head(id, name) {
  const size = { edge: 8, causal: 6, biasing: 6, both: 3.6 }[name] ?? 5;
  return svg("marker", {
    id: `${id}-${name}`, class: `head ${name}`, viewBox: "0 0 10 10", refX: 8.5, refY: 5,
    markerWidth: size, markerHeight: size, orient: "auto-start-reverse",
  }, svg("path", { d: "M0,1L9,5L0,9z" }));
}

/** Whether a mouse is on a vertex's rim: a finger is too broad for that. */
const isOnRim = (e) => e.type.startsWith("mouse") && e.target.classList.contains("rim");

/** Where a pointer is, or was when it went up. */
const pointOf = (e) => e.changedTouches?.[0] ?? e;

const isStill = () => matchMedia("(prefers-reduced-motion: reduce)").matches || document.hidden;

function between(from, to, s) {
  return new Map([...to].map(([name, p]) => {
    const f = from.get(name) ?? p;
    return [name, { x: f.x + (p.x - f.x) * s, y: f.y + (p.y - f.y) * s }];
  }));
}

function getOrMake(map, key, make) {
  if (!map.has(key)) map.set(key, make());
  return map.get(key);
}

/** Puts the children of a layer in this order, which is that of the Tab key; what has the focus keeps it. */
function putInOrder(layer, children) {
  const focused = document.activeElement;
  let next = null;
  for (const child of children.reverse()) {
    if (child.parentNode !== layer || child.nextSibling !== next) layer.insertBefore(child, next);
    next = child;
  }
  if (document.activeElement !== focused && layer.contains(focused)) focused.focus();
}

function dropOthers(map, kept) {
  for (const [key, item] of map) {
    if (kept.has(key)) continue;
    map.delete(key);
    item.group.remove(); // its focus goes, and whoever hears that may draw again
  }
}
