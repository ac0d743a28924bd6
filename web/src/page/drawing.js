import { byId } from "../dom.js";
import { Diagram } from "../diagram/diagram.js";
import { askText, openMenu } from "./menu.js";
import { hint, toast } from "./notices.js";

const ROLES = [
  { role: "exposure", text: "Exposure", key: "e" },
  { role: "outcome", text: "Outcome", key: "o" },
  { role: "adjusted", text: "Adjusted", key: "a" },
  { role: "latent", text: "Unmeasured (hidden)", key: "u" },
  { role: null, text: "No mark", key: "0" },
];
const ARROWS = { ArrowLeft: [-1, 0], ArrowRight: [1, 0], ArrowUp: [0, -1], ArrowDown: [0, 1] };
const STEP = 10;
const PAN = 60;
const HOVER_MS = 350;

const edgeText = (e) => `${e.a} ${e.both ? "↔" : "→"} ${e.b}`;

/** What the drawing does on clicks and keys: menus, new edges, and choosing of sets. */
export class Drawing {
  /** Where clicks choose a set: {label, toggle}. */ pick = null;
  /** @type {import("../ways.js").Ways | null} the ways of the graph that is drawn */ ways = null;
  #joining = ""; // whether clicks and drags draw edges: "one" for arrows, "both" for common hidden causes
  #drawn = null; // the edge that waits for its other end: {from, both}

  constructor() {
    this.diagram = new Diagram(byId("drawing"), {
      moved: () => this.acts.keepPlaces(),
      empty: (at) => this.add(at),
      edge: (edge, at) => this.#edgeMenu(edge, at),
      vertex: (name, el, withShift) => this.#choose(name, el, withShift),
      key: (name, e) => this.#key(name, e),
      hover: (name) => this.#hover(name),
      framed: (names) => this.select(names),
      shows: (classes) => {
        for (const item of document.querySelectorAll("#drawing-pane .legend [data-for]")) {
          item.hidden = !item.dataset.for.split(" ").some((cls) => classes.has(cls));
        }
      },
      joined: (a, b) => this.acts.addEdge({ a, b, both: this.#joining === "both" }),
    });
    for (const [id, kind] of [["arrow", "one"], ["arc", "both"]]) byId(id).onclick = () => this.#join(this.#joining === kind ? "" : kind);
    byId("select").onclick = () => this.#frame(!this.diagram.isFraming);
    byId("selected").onclick = (e) => this.#selectedMenu(e.currentTarget);
  }

  // ---- Several vertices at once

  /** Chooses vertices to be changed together. */
  select(names) {
    this.diagram.show({ selected: new Set(names) });
    byId("selected").hidden = !names.length;
    byId("selected").textContent = names.length === 1 ? "1 variable …" : `${names.length} variables …`;
    this.sayWaiting();
  }

  #toggle(name) {
    const { selected } = this.diagram;
    this.select(selected.has(name) ? [...selected].filter((other) => other !== name) : [...selected, name]);
  }

  /** Whether clicks choose several vertices. */
  #frame(isOn) {
    this.diagram.isFraming = isOn;
    byId("select").setAttribute("aria-pressed", String(isOn));
    if (isOn) this.endJoining();
    this.sayWaiting();
  }

  /** Ends the choosing of several. @returns {boolean} whether there was any */
  endSelection() {
    if (!this.diagram.selected.size && !this.diagram.isFraming) return false;
    this.select([]);
    this.#frame(false);
    return true;
  }

  /** Drops from the choice what left the diagram. */
  follow({ vertices }) {
    if (this.#pinned) this.unpin();
    const names = new Set(vertices.map((v) => v.name)), { selected } = this.diagram, left = [...selected].filter((name) => names.has(name));
    if (left.length < selected.size) this.select(left);
  }

  #selectedMenu(el) {
    const { acts } = this, names = [...this.diagram.selected], box = el.getBoundingClientRect();
    openMenu({ x: box.left, y: box.bottom + 6 }, names.join(", "), [
      ...ROLES.map(({ role, text, key }) => ({ text, key, act: () => acts.setRoles(names, role), cls: `role ${role ?? "plain"}` })),
      { text: "Delete", key: "Delete", act: () => acts.removeVertices(names), cls: "first" },
      { text: "Choose none", act: () => this.endSelection() },
    ], el);
  }

  // ---- Ancestors and descendants

  #waiting;
  #pinned = null; // the vertex whose causes and effects stay marked

  /** Shows what leads to the vertex under the pointer, which the program tells. */
  #hover(name) {
    clearTimeout(this.#waiting);
    if (this.#pinned) return;
    if (this.diagram.ancestors.size) queueMicrotask(() => this.diagram.show({ ancestors: new Set() }));
    if (name && this.ways) this.#waiting = setTimeout(() => this.#showAncestors(name), HOVER_MS);
  }

  async #showAncestors(name) {
    const ways = this.ways, mine = this.#waiting, found = await ways.before([name]);
    found.delete(name);
    if (this.ways === ways && this.#waiting === mine && found.size) this.diagram.show({ ancestors: found });
  }

  /** Marks what leads to a vertex and what it leads to, until it is ended. */
  async pin(name) {
    this.#pinned = this.#pinned === name ? null : name;
    const mine = this.#pinned, [ancestors, descendants] = mine && this.ways
      ? await Promise.all([this.ways.before([name]), this.ways.behind([name])]) : [new Set(), new Set()];
    for (const found of [ancestors, descendants]) found.delete(name);
    if (mine === this.#pinned) this.diagram.show({ ancestors, descendants });
  }

  /** @returns {boolean} whether causes and effects were marked */
  unpin() {
    if (!this.#pinned) return false;
    this.pin(this.#pinned);
    return true;
  }

  /** @param {import("./acts.js").Acts} acts */
  use(acts) {
    this.acts = acts;
  }

  /** Adds a vertex and asks for its name. */
  async add(at) {
    const name = await this.acts.addVertex(at), el = document.activeElement;
    if (name && el.classList.contains("vertex")) this.#askName(name, el, { givesWay: !at });
  }

  #choose(name, el, withShift) {
    if (!this.pick && !this.#drawn && (withShift || this.diagram.isFraming)) return this.#toggle(name);
    if (this.pick && this.acts.role(name) === "latent") return toast(`${name} is unmeasured; choose measured variables.`);
    if (this.pick) return this.pick.toggle(name);
    if (!this.#drawn && this.#joining) return this.#startEdge(name, this.#joining === "both");
    if (!this.#drawn) return this.#vertexMenu(name, el);
    const { from, both } = this.#drawn;
    this.endEdge();
    if (from !== name) this.acts.addEdge({ a: from, b: name, both });
  }

  #startEdge(from, both) {
    this.#drawn = { from, both };
    this.diagram.ghost(from, both);
    this.sayWaiting();
    this.diagram.focus(from);
  }

  /** Lets clicks on vertices draw edges, or ends that. */
  #join(kind) {
    this.endEdge();
    this.#joining = this.diagram.joining = kind;
    for (const [id, of] of [["arrow", "one"], ["arc", "both"]]) byId(id).setAttribute("aria-pressed", String(kind === of));
    this.diagram.element.classList.toggle("joining", Boolean(kind));
    if (kind) this.#frame(false);
    this.sayWaiting();
  }

  /** Ends the drawing of edges. @returns {boolean} whether they were drawn */
  endJoining() {
    if (!this.#joining) return false;
    this.#join("");
    return true;
  }

  /** Ends the edge that is drawn. @returns {boolean} whether there was one */
  endEdge() {
    if (!this.#drawn) return false;
    this.#drawn = null;
    this.diagram.ghost(null);
    this.sayWaiting();
    return true;
  }

  /** Says for what a click in the drawing stands now. */
  sayWaiting() {
    const { from, both } = this.#drawn ?? {};
    if (this.#drawn) hint(`Choose the other end of ${from} ${both ? "↔" : "→"} … (Esc ends this)`);
    else if (this.pick) hint(`Choose variables: ${this.pick.label} (Esc ends this)`);
    else if (document.body.classList.contains("faulty")) {
      hint("The drawing and the answers are those of the last text without a fault");
    } else if (this.#joining) hint(`${this.#joining === "both" ? "Common hidden cause ↔" : "Arrow →"}: click its beginning, then its end (Esc ends this)`);
    else if (this.diagram.isFraming) hint("Click variables, or drag a frame round them (Esc ends this)");
    else hint("");
  }

  #vertexMenu(name, el) {
    const { acts } = this, now = acts.role(name), at = below(el, 90);
    openMenu(at, name, [
      ...ROLES.map(({ role, text, key }) => ({
        text, key, act: () => acts.setRole(name, role), checked: now === role, cls: `role ${role ?? "plain"}`,
      })),
      { text: "Arrow from here →", key: "c", act: () => this.#startEdge(name, false), cls: "first" },
      { text: "Common hidden cause ↔", key: "b", act: () => this.#startEdge(name, true) },
      ...(acts.edgesOf(name).length ? [{ text: "Its edges …", key: "x", act: () => this.#edgesMenu(name, el) }] : []),
      { text: this.#pinned === name ? "Unmark causes and effects" : "Mark its causes and effects", key: "m", act: () => this.pin(name) },
      { text: "Rename …", key: "r", act: () => this.#askName(name, el), cls: "first" },
      { text: "Delete", key: "Delete", act: () => acts.removeVertex(name) },
    ], el);
  }

  #edgesMenu(name, el) {
    const at = below(el, 90), edges = this.acts.edgesOf(name);
    const fromHere = (e) => (e.both && e.b === name ? { ...e, a: e.b, b: e.a } : e);
    const item = (edge) => ({ text: edgeText(edge), act: () => this.#edgeMenu(edge, at, el) });
    if (edges.length) openMenu(at, `Edges of ${name}`, edges.map(fromHere).map(item), el);
  }

  #edgeMenu(edge, at, back) {
    const by = (...edges) => () => this.acts.replaceEdge(edge, ...edges);
    openMenu(at, edgeText(edge), [
      ...(edge.both ? [] : [{ text: "Turn round", act: by({ a: edge.b, b: edge.a, both: false }) }]),
      edge.both
        ? { text: "Make it an arrow →", act: by({ ...edge, both: false }) }
        : { text: "Make it a common hidden cause ↔", act: by({ ...edge, both: true }) },
      { text: "Delete", act: by() },
    ], back);
  }

  #askName(name, el, how = {}) {
    askText(below(el, 0), `Name of ${name}`, name, (fresh, isLeft) => this.acts.rename(name, fresh, { ...how, isLeft }), el);
  }

  #key(name, e) {
    if (e.ctrlKey || e.metaKey || e.altKey) return;
    const { acts } = this, el = e.currentTarget, role = ROLES.find(({ key }) => key === e.key), arrow = ARROWS[e.key];
    const { selected } = this.diagram, isOne = !selected.has(name) || selected.size < 2;
    if (role) isOne ? acts.setRole(name, role.role) : acts.setRoles([...selected], role.role);
    else if (e.key === "s") this.#toggle(name);
    else if (e.key === "c" || e.key === "b") this.#startEdge(name, e.key === "b");
    else if (e.key === "r") {
      e.preventDefault();
      this.#askName(name, el);
    } else if (e.key === "x") this.#edgesMenu(name, el);
    else if (e.key === "Delete" || e.key === "Backspace") isOne ? acts.removeVertex(name) : acts.removeVertices([...selected]);
    else if (e.key === "m") this.pin(name);
    else if (e.key === "n") this.add();
    else if (e.key === "f") this.diagram.fit();
    else if (e.key === "+" || e.key === "-") this.diagram.zoomBy(e.key === "+" ? 1.3 : 1 / 1.3);
    else if (arrow) {
      e.preventDefault();
      if (e.shiftKey) this.diagram.panBy(-PAN * arrow[0], -PAN * arrow[1]);
      else acts.moveBy(name, STEP * arrow[0], STEP * arrow[1]);
    }
  }
}

function below(el, left) {
  const box = el.getBoundingClientRect();
  return {
    x: box.left + (left ? box.width / 2 - left : 0), y: box.bottom + 8, beside: { x: box.right + 8, y: box.top - 150 },
  };
}
