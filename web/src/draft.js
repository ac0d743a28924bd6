import { DIAGRAM } from "./names.js";
import { graphOf } from "./objects.js";

/** @typedef {import("./text/printed.js").Graph} Graph  @typedef {import("./faults.js").Fault} Fault */
/**
 * @typedef {object} Shown how a text came
 * @property {boolean} [fit] the drawing is fitted to its window
 * @property {boolean} [record] it's a step that can be taken back
 * @property {boolean} [typed] it was typed
 * @property {boolean} [act] it was made by an act in the drawing, where all else stays where it is
 */
/**
 * @typedef {object} DraftListeners
 * @property {(text: string, how: Shown) => void} text a text is shown
 * @property {(reading: import("./program.js").Reading) => void} asking its graph is asked for, and more may be
 * @property {(graph: Graph, text: string, how: Shown) => void} accepted
 * @property {(fault: Fault | null, text: string, how: Shown) => void} judged
 */

const GRAPH = ["graph", DIAGRAM];
const SLOW_MS = 3000;
const BURST_MS = 700;

/** The user's text, with the last one that the program accepted, and the steps that can be taken back. */
export class Draft {
  text = "";
  /** @type {{graph: Graph, text: string}} */ accepted = { graph: { vertices: [], edges: [] }, text: "" };
  isFaulty = false;
  #past = [];
  #future = [];
  #typedAt = 0;
  #turn = 0;
  #busy = false;
  #again = null;

  /** @param {import("./program.js").Program} program @param {DraftListeners} on */
  constructor(program, on) {
    this.program = program;
    this.on = on;
  }

  get canUndo() {
    return this.#past.length > 1;
  }

  get canRedo() {
    return this.#future.length > 0;
  }

  /** Shows a text, and brings the drawing and the answers up to it. @param {Shown} how */
  async show(text, how = {}) {
    const { record = true, typed = false } = how;
    if (record) this.#record(text, typed);
    this.text = text;
    this.on.text(text, how);
    const mine = ++this.#turn, reading = this.program.of(text);
    this.program.giveUpAfter(SLOW_MS);
    const asked = reading.read(GRAPH);
    this.on.asking(reading);
    const { object, fault } = await asked;
    if (mine !== this.#turn) return;
    this.isFaulty = Boolean(fault);
    if (!fault) this.accepted = { graph: graphOf(object), text };
    this.on.judged(fault, text, how);
    if (!fault) await this.on.accepted(this.accepted.graph, text, how);
  }

  #record(text, typed) {
    if (text === this.#past.at(-1)) return;
    if (typed && performance.now() - this.#typedAt < BURST_MS) this.#past.pop(); // one burst is one step back
    this.#past.push(text);
    this.#future.length = 0;
    this.#typedAt = typed ? performance.now() : 0;
  }

  /** Follows the typing as fast as answers come; what is typed meanwhile is asked for afterwards, once. */
  async follow(text) {
    this.#again = text;
    if (this.#busy) return;
    this.#busy = true;
    while (this.#again !== null) {
      const next = this.#again;
      this.#again = null;
      await this.show(next, { typed: true });
    }
    this.#busy = false;
  }

  /** Takes a text that an act in the drawing makes. @param {Shown} how @returns {Promise<string | null>} why it was refused */
  async propose(text, how = {}) {
    if (this.isFaulty) return "The text has a fault; mend it first, or undo.";
    const { fault } = await this.program.of(text).read(GRAPH);
    if (fault) return fault.sentence;
    await this.show(text, how);
    return null;
  }

  undo() {
    if (!this.canUndo) return;
    this.#future.push(this.#past.pop());
    this.show(this.#past.at(-1), { record: false });
  }

  redo() {
    if (!this.canRedo) return;
    this.#past.push(this.#future.pop());
    this.show(this.#past.at(-1), { record: false });
  }
}
