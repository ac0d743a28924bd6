import { apart, circle, scaleFor } from "./diagram/fitting.js";
import { halfHeight, halfWidth, outline, placeNear } from "./diagram/geometry.js";
import { change, positions } from "./text/edit.js";

/** @typedef {import("./text/printed.js").Graph} Graph  @typedef {{x: number, y: number}} Point */

const WAIT_MS = 25; // how long the drawing waits for a layout before it shows the new graph at its old places
const PATIENCE_MS = 1000; // a layout that takes longer is given up for a circle
const ASKED_MS = 8000; // the same for one that was asked for by Arrange
const STALE_MS = 300; // a layout of an older text that has taken as long is given up for a newer one
const NEAR = 2; // pixels
const USUAL_SCALE = 100; // pixels to a unit of `pos`
const MOST_SHOWN = 100; // texts whose drawing is kept

/** Where vertices stand: at the `pos` of the text, or else by a computed layout. What an act in the drawing doesn't move stays. */
export class Places {
  #scale = USUAL_SCALE;
  #isChosen = false; // whether the scale is that of an earlier drawing of the text
  #given = new Map(); // the places of the text that was drawn last
  #shown = new Map(); // by a text, its drawing: {scale, places}
  #isAnew = false; // whether the next drawing is computed, whatever was shown of its text
  #arranged = { key: "", places: new Map() };
  #patience = PATIENCE_MS;
  #turn = 0;

  /** @param {import("./runner.js").Runner} arranger @param {import("./diagram/diagram.js").Diagram} diagram */
  constructor(arranger, diagram) {
    this.arranger = arranger;
    this.diagram = diagram;
  }

  /** Begins with another diagram, at the scale at which its places were written here, or else at one that is chosen. */
  reset(scale) {
    this.#scale = scale ?? USUAL_SCALE;
    this.#isChosen = Boolean(scale);
    this.#given = new Map();
    this.#shown = new Map();
  }

  /** Lets a layout be computed anew, for the window as it is. */
  forget() {
    this.#arranged.key = "";
    this.#patience = ASKED_MS;
    this.#isAnew = true;
  }

  /** Places for a graph that has none in its text. @returns {Promise<Map<string, Point>>} */
  async arrange(graph) {
    const wanted = outline(graph), key = JSON.stringify([wanted.vertices.map((v) => v.name), wanted.edges, wanted.arcs]);
    if (this.#arranged.key !== key) {
      this.arranger.giveUpAfter(STALE_MS);
      const patience = this.#patience;
      this.#patience = PATIENCE_MS;
      const found = await this.arranger.arrange({ ...wanted, room: this.diagram.room() }, patience);
      const places = found ?? circle(graph.vertices.map((v) => v.name), halvesOf(graph));
      this.#arranged = { key, places };
    }
    return new Map([...this.#arranged.places].map(([name, p]) => [name, { ...p }]));
  }

  /**
   * Draws a graph at the places of its text. A computed layout that takes long comes when it's there.
   * @param {import("./draft.js").Shown} how
   */
  async draw(graph, text, { fit = false, act = false }) {
    const mine = ++this.#turn, given = positions(text), { diagram } = this, known = this.#known(text, fit);
    const draw = (places, fitted, isLate = false) => {
      if (mine !== this.#turn) return;
      this.#given = given;
      if (!isLate) this.#remember(text, places);
      diagram.draw(graph, places);
      if (fitted) diagram.fit();
      this.#dim(isLate);
    };
    if (known) {
      this.#scale = known.scale;
      return draw(copied(known.places), this.#isElsewhere(known.places));
    }
    if (given.size || act) {
      const isOther = !act && this.#isOther(given), places = isOther ? this.#fitted(graph, given) : this.#written(graph, given);
      return draw(places, fit || (isOther && this.#isElsewhere(places)));
    }
    const coming = this.arrange(graph).then((places) => draw(places, true));
    const isLate = await Promise.race([coming.then(() => false), new Promise((r) => setTimeout(r, WAIT_MS, true))]);
    if (!isLate || mine !== this.#turn) return coming;
    const there = graph.vertices.filter((v) => diagram.target.has(v.name)).length;
    if (fit || there < graph.vertices.length / 2) this.#dim(true);
    else draw(this.#written(graph, given), false, true);
    return coming;
  }

  /** Computes a layout anew for a pane of another size, where the text gives no places, and all is seen as it was fitted. */
  async useRoom(graph, text) {
    if (!graph.vertices.length || positions(text).size || !this.diagram.isFitted) return;
    this.#arranged.key = "";
    this.#isAnew = true;
    await this.draw(graph, text, { fit: false });
  }

  /** How a text was drawn before, as by an act that is taken back. */
  #known(text, fit) {
    const isAnew = this.#isAnew || fit;
    this.#isAnew = false;
    return isAnew ? null : this.#shown.get(text);
  }

  #remember(text, places) {
    this.#shown.delete(text);
    this.#shown.set(text, { scale: this.#scale, places: copied(places) });
    if (this.#shown.size > MOST_SHOWN) this.#shown.delete(this.#shown.keys().next().value);
  }

  /** Shows that the drawing isn't right yet. */
  #dim(isLate) {
    this.diagram.element.classList.toggle("late", isLate);
  }

  #point({ x, y }) {
    return { x: x * this.#scale, y: y * this.#scale };
  }

  /** Each vertex where it is, if its text has the place that it had; else at the place of the text, or near its neighbours. */
  #written(graph, given) {
    const { target } = this.diagram, places = new Map();
    for (const { name } of graph.vertices) {
      const p = given.get(name), stays = target.has(name) && (!p || isAt(p, this.#given.get(name)));
      if (stays) places.set(name, target.get(name));
      else if (p) places.set(name, this.#point(p));
    }
    return this.#completed(graph, places);
  }

  /** Places for those that have none, near their neighbours; in the order of the graph. */
  #completed(graph, places) {
    for (const { name } of graph.vertices) if (!places.has(name)) places.set(name, placeNear(name, graph.edges, places));
    return new Map(graph.vertices.map(({ name }) => [name, places.get(name)]));
  }

  /** Another text's places at a scale of their own, at which names don't overlap. */
  #fitted(graph, given) {
    const halves = halvesOf(graph), height = heightOf(graph), isChosen = this.#isChosen;
    this.#isChosen = false;
    if (!isChosen) this.#scale = scaleFor(given, halves, height, USUAL_SCALE, this.diagram.room());
    const { target } = this.diagram, of = (name) => (given.has(name) ? this.#point(given.get(name)) : target.get(name));
    const places = this.#completed(graph, new Map(graph.vertices.map(({ name }) => [name, of(name)]).filter(([, p]) => p)));
    return isChosen ? places : apart(places, halves, height);
  }

  /** Whether a text has other places than the one that was drawn last. */
  #isOther(given) {
    return [...given].filter(([name, p]) => isAt(p, this.#given.get(name))).length < given.size / 2;
  }

  /** Whether most vertices stand elsewhere than in the drawing. */
  #isElsewhere(places) {
    const isNear = ([name, p]) => Math.hypot(p.x - this.diagram.target.get(name)?.x, p.y - this.diagram.target.get(name)?.y) < NEAR;
    return [...places].filter(isNear).length < places.size / 2;
  }

  /** A vertex that gets another name stays where it is. */
  rename(name, fresh) {
    for (const places of [this.diagram.target, this.#given]) if (places.has(name)) places.set(fresh, places.get(name));
  }

  /** A point as `pos` writes it, to the pixel. */
  unit({ x, y }) {
    const digits = Math.max(2, Math.ceil(Math.log10(this.#scale)));
    return `${+(x / this.#scale).toFixed(digits)},${+(y / this.#scale).toFixed(digits)}`;
  }

  /** A text with every vertex's place in it. */
  write(text) {
    return change(text, new Map([...this.diagram.target].map(([name, p]) => [name, { pos: this.unit(p) }])));
  }

  /** The scale at which the text's places are drawn just as they are written; undefined where they are drawn otherwise. */
  scaleOf(text) {
    const given = positions(text), { target } = this.diagram;
    const isThere = ([name, p]) => !given.has(name) || Math.hypot(this.#point(given.get(name)).x - p.x, this.#point(given.get(name)).y - p.y) < NEAR;
    return given.size && [...target].every(isThere) ? this.#scale : undefined;
  }
}

const isAt = (p, q) => q !== undefined && p.x === q.x && p.y === q.y;

const copied = (places) => new Map([...places].map(([name, p]) => [name, { ...p }]));

const heightOf = ({ vertices }) => 2 * Math.max(0, ...vertices.map(halfHeight));

const halvesOf = ({ vertices }) => new Map(vertices.map((v) => [v.name, halfWidth(v)]));
