// What lies on directed ways of the diagram as it is drawn, hidden vertices included. The program decides it: by the third rule
// with nothing seen and nothing else set, setting z leaves y as it is exactly where no directed way leads from z to y.
import { listWord } from "./text/printed.js";
import { write } from "./text/edit.js";
import { DIAGRAM } from "./names.js";

/** @typedef {import("./text/printed.js").Graph} Graph  @typedef {import("./text/printed.js").Edge} Edge */
/** @typedef {(text: string, words: string[]) => Promise<import("./runner.js").Answer>} Ask */

/** The text of a graph without marks and places. @param {Graph} graph */
export const plainText = ({ vertices, edges }) => write({ vertices: vertices.map(({ name }) => ({ name, role: null })), edges }, new Map());

/** Asks for ways in one graph. Each question is asked once. */
export class Ways {
  #asked = new Map();

  /** @param {Ask} ask @param {Graph} graph */
  constructor(ask, graph) {
    Object.assign(this, { ask, graph, text: plainText(graph) });
  }

  /** Whether a directed way leads from one of the names to another vertex, or it is one of them. */
  leads(names, to) {
    if (names.includes(to)) return Promise.resolve(true);
    const key = JSON.stringify([names, to]);
    if (!this.#asked.has(key)) this.#asked.set(key, this.#leads(names, to));
    return this.#asked.get(key);
  }

  async #leads(names, to) {
    if (!names.length) return false;
    const words = ["rule", DIAGRAM, "--rule", "3", "--y", listWord([to]), "--z", listWord(names), "--do", "{}", "--given", "{}"];
    return (await this.ask(this.text, words)).status === 1;
  }

  /** Whether a directed way leads from a vertex to one of the names, or it is one of them. */
  async leadsToAny(from, names) {
    return (await Promise.all(names.map((name) => this.leads([from], name)))).some(Boolean);
  }

  #all(test) {
    const names = this.graph.vertices.map((v) => v.name);
    return Promise.all(names.map(test)).then((found) => new Set(names.filter((_, i) => found[i])));
  }

  /** The vertices that the names lead to, themselves included. */
  behind(names) {
    return this.#all((name) => this.leads(names, name));
  }

  /** The vertices that lead to one of the names, themselves included. */
  before(names) {
    return this.#all((name) => this.leadsToAny(name, names));
  }

  /** The vertices on directed ways from xs to ys, but for these. */
  async between(xs, ys) {
    const [behind, before] = await Promise.all([this.behind(xs), this.before(ys)]);
    return [...behind].filter((name) => before.has(name) && !xs.includes(name) && !ys.includes(name));
  }

  /** The arrows on directed ways from xs to ys. @returns {Promise<Edge[]>} */
  async arrows(xs, ys) {
    const [behind, before] = await Promise.all([this.behind(xs), this.before(ys)]);
    return this.graph.edges.filter((e) => !e.both && behind.has(e.a) && before.has(e.b));
  }
}
