// A drawing in words, for those who don't see it.

const ROLE_WORDS = { exposure: "exposure", outcome: "outcome", adjusted: "adjusted", latent: "unmeasured" };
const MARK_WORDS = {
  chosen: "chosen", from: "chosen", to: "chosen", bad: "refused", difference: "at the difference",
  "hedge-big": "in the hedge", "hedge-small": "in the hedge's smaller set",
  witness: "needed under both values of the exposure",
};

const list = (names) => names.join(", ");

/** @type {WeakMap<object, Map<string, {to: string[], from: string[], both: string[]}>>} */
const known = new WeakMap();

/** What each vertex of a graph is joined to. */
function neighbours(graph) {
  if (known.has(graph)) return known.get(graph);
  const all = new Map(graph.vertices.map((v) => [v.name, { to: [], from: [], both: [] }]));
  for (const { a, b, both } of graph.edges) {
    all.get(a)[both ? "both" : "to"].push(b);
    all.get(b)[both ? "both" : "from"].push(a);
  }
  known.set(graph, all);
  return all;
}

/** One vertex with its mark and its edges. */
export function describe({ name, role }, graph, mark, isSelected) {
  const { to, from, both } = neighbours(graph).get(name);
  const head = [name, ROLE_WORDS[role], MARK_WORDS[mark], isSelected && "selected"].filter(Boolean).join(", ");
  const rest = [
    to.length && `arrow to ${list(to)}`, from.length && `arrow from ${list(from)}`,
    both.length && `common hidden cause with ${list(both)}`,
  ].filter(Boolean);
  return rest.length ? `${head}; ${rest.join("; ")}` : head;
}

/** A whole diagram, in one sentence. */
export const summary = ({ vertices, edges }) =>
  `${vertices.length} variables, ${edges.filter((e) => !e.both).length} arrows, `
  + `${edges.filter((e) => e.both).length} common hidden causes`;
