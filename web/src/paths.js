// The edges on causal and on open biasing paths of the diagram as it is drawn. The program tells which arrows lie on directed ways, and what
// leads to the set that is adjusted for (ways.js); which edges lie on paths that are open is computed (walks.js).
import { keyOf } from "./diagram/geometry.js";
import { Walks } from "./walks.js";
import { Ways } from "./ways.js";

/** @typedef {import("./text/printed.js").Graph} Graph  @typedef {import("./text/printed.js").Edge} Edge  @typedef {import("./ways.js").Ask} Ask */

/**
 * The class of each edge that lies on such a path: "causal" or "biasing", and "causal also" where it lies on both; behind these words
 * " blocked" or " also-blocked" where the set that is marked adjusted blocks each of its paths of that kind.
 * @param {Ask} ask @param {Graph} graph @returns {Promise<Map<string, string>>}
 */
export async function pathClasses(ask, graph) {
  const marked = (role) => graph.vertices.filter((v) => v.role === role).map((v) => v.name);
  const [xs, ys, set] = ["exposure", "outcome", "adjusted"].map(marked);
  if (!xs.length || !ys.length) return new Map();
  const causal = await new Ways(ask, graph).arrows(xs, ys), left = await new Ways(ask, without(graph, set)).arrows(xs, ys);
  const first = causal.filter((e) => xs.includes(e.a)), rest = { ...graph, edges: graph.edges.filter((e) => !first.includes(e)) };
  const before = new Walks(rest, [], new Set()).edgesBetween(xs, ys);
  const now = set.length ? new Walks(rest, set, await new Ways(ask, rest).before(set)).edgesBetween(xs, ys) : before;
  const keys = (edges) => new Set(edges.map(keyOf));
  return classesOf(graph, keys(causal), keys(left), before, now);
}

function classesOf({ edges }, causal, left, before, now) {
  const classes = new Map();
  for (const key of edges.map(keyOf)) {
    const isCausal = causal.has(key), isBiasing = before.has(key) || now.has(key);
    const main = isCausal ? `causal${left.has(key) ? "" : " blocked"}` : `biasing${now.has(key) ? "" : " blocked"}`;
    if (isCausal || isBiasing) classes.set(key, isCausal && isBiasing ? `${main} also${now.has(key) ? "" : "-blocked"}` : main);
  }
  return classes;
}

const without = ({ vertices, edges }, names) => ({
  vertices: vertices.filter((v) => !names.includes(v.name)),
  edges: edges.filter((e) => !names.includes(e.a) && !names.includes(e.b)),
});
