// Which arrows of a diagram may point the other way in one that implies the same independences, and such a diagram. The page proposes it by
// the rules of Meek (UAI 11, 1995, 403); whether it is equivalent the program says.

/** @typedef {import("./text/printed.js").Graph} Graph  @typedef {import("./text/printed.js").Edge} Edge */

const keyOf = (a, b) => `${a}\n${b}`;

/** The arrows of a partly directed graph: for each joined pair the ways that are left. */
class Pattern {
  constructor(names) {
    this.names = names;
    this.left = new Set(); // (a, b) where a -> b isn't ruled out
  }

  has(a, b) {
    return this.left.has(keyOf(a, b));
  }

  joins(a, b) {
    return this.has(a, b) || this.has(b, a);
  }

  isDirected(a, b) {
    return this.has(a, b) && !this.has(b, a);
  }

  isLoose(a, b) {
    return this.has(a, b) && this.has(b, a);
  }

  /** Directs a -> b. */
  direct(a, b) {
    this.left.delete(keyOf(b, a));
  }

  copy() {
    const made = new Pattern(this.names);
    made.left = new Set(this.left);
    return made;
  }

  /** Directs what the directed arrows force (Meek's rules 1 to 4). */
  close() {
    for (let changed = true; changed; ) {
      changed = false;
      for (const b of this.names) {
        for (const c of this.names) {
          if (!this.isLoose(b, c) || !this.#isForced(b, c)) continue;
          this.direct(b, c);
          changed = true;
        }
      }
    }
    return this;
  }

  #isForced(b, c) {
    const { names } = this;
    const chain = names.some((a) => this.isDirected(a, b) && a !== c && !this.joins(a, c));
    const circle = names.some((a) => this.isDirected(b, a) && this.isDirected(a, c));
    if (chain || circle) return true;
    const into = names.filter((a) => this.isLoose(b, a) && this.isDirected(a, c));
    if (into.some((a, i) => into.slice(i + 1).some((d) => !this.joins(a, d)))) return true;
    return names.some((a) => this.isLoose(b, a) && names.some((d) => this.isDirected(a, d) && this.isDirected(d, c) && this.joins(b, d) && !this.joins(a, c)));
  }
}

/** The pattern of the class: unshielded colliders are directed, and what they force. @param {Graph} graph without bidirected edges */
function patternOf({ vertices, edges }) {
  const made = new Pattern(vertices.map(({ name }) => name));
  for (const { a, b } of edges) {
    made.left.add(keyOf(a, b));
    made.left.add(keyOf(b, a));
  }
  for (const e of edges) for (const f of edges) if (e.b === f.b && e.a !== f.a && !made.joins(e.a, f.a)) made.direct(e.a, e.b);
  return made.close();
}

/** The arrows that aren't directed in the class. @param {Graph} graph @returns {Edge[]} */
export function turnable(graph) {
  const pattern = patternOf(graph);
  return graph.edges.filter(({ a, b }) => pattern.isLoose(a, b));
}

/** A diagram of the class in which this arrow points the other way; null where none was found. @param {Graph} graph @returns {Graph | null} */
export function reversed(graph, { a, b }) {
  const pattern = patternOf(graph).copy();
  pattern.direct(b, a);
  pattern.close();
  for (const edge of graph.edges) {
    if (!pattern.isLoose(edge.a, edge.b)) continue;
    pattern.direct(edge.a, edge.b);
    pattern.close();
  }
  const edges = graph.edges.map((e) => (pattern.has(e.a, e.b) ? e : { a: e.b, b: e.a, both: false }));
  return edges.length === graph.edges.length ? { vertices: graph.vertices, edges } : null;
}
