// What the drawing shows of answers that name sets and edges.

/** @typedef {import("./diagram.js").Marks} Marks  @typedef {import("../text/printed.js").Edge} Edge  @typedef {import("../text/printed.js").Graph} Graph */

/** The vertices of a hedge. @returns {Map<string, string>} */
export const hedgeVertices = ({ larger, smaller }) =>
  new Map([[larger, "hedge-big"], [smaller, "hedge-small"]].flatMap(([names, cls]) => names.map((n) => [n, cls])));

/** Its bidirected edges. @returns {Edge[]} */
export const linksOf = ({ links }) => links.map(([a, b]) => ({ a, b, both: true }));

/** All of a hedge. @returns {Marks} */
export function hedgeMarks(hedge) {
  const edges = [...hedge.choices.map(({ vertex, child }) => ({ a: vertex, b: child, both: false })), ...linksOf(hedge)];
  return { vertices: hedgeVertices(hedge), edges: edges.map((e) => ({ ...e, cls: "hedge" })) };
}

/**
 * What an answer of `natural` names: the mediators; and a hedge, or what would be needed under both values of the exposure.
 * @param {any} object @param {Graph | null} graph on what is observed, for a witness and a district @returns {Marks}
 */
export function naturalMarks({ through, given, hedge, treatment, witness, district, direct_child: direct, indirect_child: indirect }, graph) {
  const chosen = new Map([...through, ...given].map((name) => [name, "chosen"]));
  if (hedge) return withVertices(hedgeMarks(hedge), chosen);
  if (witness) return { vertices: new Map([...chosen, [witness, "witness"]]), edges: arrowsFrom(graph, [treatment], [witness]) };
  if (!district) return { vertices: chosen };
  const inside = graph.edges.filter(({ a, b, both }) => both && district.includes(a) && district.includes(b));
  return { vertices: new Map([...chosen, ...district.map((name) => [name, "witness"])]), edges: [...arrowsFrom(graph, [treatment], [direct, indirect]), ...inside.map(asPath)] };
}

const withVertices = ({ vertices, edges }, more) => ({ vertices: new Map([...more, ...vertices]), edges });

const asPath = (edge) => ({ ...edge, cls: "open" });

/** The arrows from the exposures to these. */
const arrowsFrom = ({ edges }, xs, names) => edges.filter(({ a, b, both }) => !both && xs.includes(a) && names.includes(b)).map(asPath);
