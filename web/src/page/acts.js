import { freePlace, halfHeight, halfWidth } from "../diagram/geometry.js";
import { addEdge, addVertex, change, isName, isSame, removeVertex, rename, replaceEdge } from "../text/edit.js";
import { toast } from "./notices.js";

/** @typedef {import("../text/printed.js").Edge} Edge  @typedef {{x: number, y: number}} Point */

const LETTERS = [..."ABCDEFGHIJKLMNOPQRSTUVWXYZ", ...Array.from({ length: 64 }, (_, i) => `V${i + 1}`)];
const ROOM = 64; // half the width that is kept free for a name that isn't known yet

const edgeText = ({ a, b, both }) => `${a} ${both ? "↔" : "→"} ${b}`;

/** What can be done to the diagram. Each makes a new text, which the program may refuse. They are done one after another. */
export class Acts {
  #last = Promise.resolve();

  /**
   * @param {import("../draft.js").Draft} draft @param {import("../places.js").Places} places
   * @param {import("../diagram/diagram.js").Diagram} diagram
   */
  constructor(draft, places, diagram) {
    Object.assign(this, { draft, places, diagram });
  }

  get graph() {
    return this.draft.accepted.graph;
  }

  get #text() {
    return this.draft.accepted.text;
  }

  role(name) {
    return this.graph.vertices.find((v) => v.name === name)?.role ?? null;
  }

  edgesOf(name) {
    return this.graph.edges.filter((e) => e.a === name || e.b === name);
  }

  /** Comes when all that was begun is done. */
  settled() {
    return this.#last;
  }

  /**
   * Does one act when the earlier ones are done. It says why a text is refused, where it is; else it focuses a vertex.
   * @param {() => string | null} make the new text; null where there is nothing to do @returns {Promise<boolean>}
   */
  #propose(make, focus, how = { act: true }) {
    const done = this.#last.then(async () => {
      const text = make();
      if (text === null) return false;
      const refused = await this.draft.propose(text, how);
      if (refused) toast(refused);
      else if (focus) this.diagram.focus(focus);
      return !refused;
    });
    this.#last = done.catch(() => {});
    return done;
  }

  /** Gives several vertices a mark. */
  setRoles(names, role) {
    return this.#propose(() => change(this.#text, new Map(names.map((name) => [name, { role }]))));
  }

  /** Takes several vertices away. */
  removeVertices(names) {
    return this.#propose(() => {
      let text = this.#text, graph = this.graph;
      for (const name of names) {
        text = removeVertex(text, graph, name);
        graph = {
          vertices: graph.vertices.filter((v) => v.name !== name), edges: graph.edges.filter((e) => e.a !== name && e.b !== name),
        };
      }
      return text;
    }, this.graph.vertices.find((v) => !names.includes(v.name))?.name);
  }

  setRole(name, role) {
    return this.#propose(() => change(this.#text, new Map([[name, { role }]])), name);
  }

  /** Marks exactly these vertices as adjusted; those with other marks get this one. */
  setAdjusted(names) {
    const wish = (v) => (names.includes(v.name) ? "adjusted" : v.role === "adjusted" ? null : v.role);
    return this.#propose(() => {
      const changed = this.graph.vertices.filter((v) => wish(v) !== v.role);
      return change(this.#text, new Map(changed.map((v) => [v.name, { role: wish(v) }])));
    });
  }

  /** The other vertices as they are drawn. */
  #others(name) {
    const { target } = this.diagram;
    return this.graph.vertices.filter((v) => v.name !== name && target.has(v.name)).map((v) => ({ ...target.get(v.name), half: halfWidth(v), tall: halfHeight(v) }));
  }

  /** Adds a vertex with a fresh name, at a place or where there is room in view. @returns {Promise<string | null>} its name */
  async addVertex(at) {
    let name = null;
    const added = await this.#propose(() => {
      const taken = new Set(this.graph.vertices.map((v) => v.name));
      name = LETTERS.find((n) => !taken.has(n));
      const place = at ?? freePlace(ROOM, this.diagram.middle(), this.#others(), this.diagram.seen());
      return addVertex(this.places.write(this.#text), name, this.places.unit(place));
    });
    if (!added) return null;
    this.diagram.stay();
    this.diagram.reveal(name);
    this.diagram.focus(name);
    return name;
  }

  /**
   * Gives a vertex another name.
   * @param {{isLeft?: boolean, givesWay?: boolean}} how the user may be elsewhere already, where the focus stays; and a new vertex that
   *   stands where there was room gives way where its name is too long for that
   */
  rename(name, fresh, { isLeft = false, givesWay = false } = {}) {
    const stay = (why) => {
      if (why) toast(why);
      if (!isLeft) this.diagram.focus(name);
    };
    if (fresh === name) return stay();
    if (!isName(fresh)) return stay(fresh ? "A name can't have a quotation mark in it." : `A name can't be empty: ${name} keeps its own.`);
    return this.#propose(() => {
      const vertex = this.graph.vertices.find((v) => v.name === name);
      if (!vertex) return null;
      if (this.graph.vertices.some((v) => v.name === fresh)) {
        stay(`There is a variable named ${fresh} already, so this one stays ${name}.`);
        return null;
      }
      this.places.rename(name, fresh);
      const text = rename(this.#text, name, fresh);
      return givesWay ? this.#givingWay(text, name, { ...vertex, name: fresh }) : text;
    }, isLeft ? null : fresh);
  }

  /** The text in which a vertex stands where its name meets no other. */
  #givingWay(text, name, vertex) {
    const { target } = this.diagram, half = halfWidth(vertex), at = target.get(name), place = freePlace(half, at, this.#others(name), this.diagram.seen(), halfHeight(vertex));
    if (place.x === at.x && place.y === at.y) return text;
    return change(text, new Map([[vertex.name, { pos: this.places.unit(place) }]]));
  }

  /** Takes a vertex away; the focus goes to the one that stood behind it. */
  removeVertex(name) {
    const names = this.graph.vertices.map((v) => v.name), i = names.indexOf(name);
    return this.#propose(() => removeVertex(this.#text, this.graph, name), names[i + 1] ?? names[i - 1]);
  }

  /** Draws an edge. One that is there already is taken away, and an arrow that points back is turned round. */
  async addEdge(/** @type {Edge} */ edge) {
    const there = this.graph.edges.find((e) => isSame(e, edge)), back = { a: edge.b, b: edge.a, both: false };
    if (there) {
      if (await this.replaceEdge(there)) toast(`${edgeText(there)} was there, and is taken away. Undo brings it back.`);
    } else if (!edge.both && this.graph.edges.some((e) => isSame(e, back))) {
      if (await this.replaceEdge(back, edge)) toast(`${edgeText(back)} is turned round.`);
    } else await this.#propose(() => addEdge(this.#text, edge));
    this.diagram.focus(edge.b);
  }

  /** Puts edges in the place of one; none deletes it. */
  replaceEdge(/** @type {Edge} */ edge, ...by) {
    return this.#propose(() => replaceEdge(this.#text, this.graph, edge, by.filter((e) => !this.graph.edges.some((f) => isSame(e, f)))));
  }

  /** Writes the places of the drawing into the text. */
  keepPlaces(focus) {
    this.diagram.stay();
    return this.#propose(() => this.places.write(this.#text), focus);
  }

  /** Moves a vertex, and those that are chosen with it. */
  moveBy(name, dx, dy) {
    const { target, selected } = this.diagram;
    for (const other of selected.has(name) ? selected : [name]) {
      const p = target.get(other);
      target.set(other, { x: p.x + dx, y: p.y + dy });
    }
    return this.keepPlaces(name);
  }

  /** Drops the places of the text, so that a layout is computed; they come back by undo. */
  async arrange() {
    const text = this.#text, bare = change(text, new Map(this.graph.vertices.map((v) => [v.name, { pos: null }])));
    this.places.forget();
    if ((await this.#propose(() => bare, null, {})) && bare !== text) toast("Arranged anew. Undo brings the places of the text back.");
  }
}
