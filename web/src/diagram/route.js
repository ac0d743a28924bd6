import { keyOf } from "./geometry.js";

/**
 * The drawn edges over which an edge of the projected diagram runs: from a to b, or between both, through hidden
 * vertices. For the drawing alone, and null where there are none: then the edge is drawn as an arc.
 * @param {import("../text/printed.js").Graph} graph the drawn one
 * @returns {import("../text/printed.js").Edge[] | null}
 */
export function route({ vertices, edges }, { a, b, both }) {
  const hidden = new Set(vertices.filter((v) => v.role === "latent").map((v) => v.name));
  if (!hidden.size) return null;
  const start = { at: a, up: both, before: null, edge: null }, reached = new Set(), queue = [start];
  for (const here of queue) {
    for (const next of steps(here, edges, both)) {
      if (next.at === b && !next.up) return trace(next);
      const key = `${next.up}${next.at}`;
      if (!hidden.has(next.at) || reached.has(key)) continue;
      reached.add(key);
      queue.push(next);
    }
  }
  return null;
}

/** Steps against the arrows, up to a hidden cause, and then along them. */
function steps(here, edges, both) {
  const to = (at, up, edge) => ({ at, up, before: here, edge });
  return edges.flatMap((edge) => {
    const found = [];
    if (edge.both) {
      if (here.up && edge.a === here.at) found.push(to(edge.b, false, edge));
      if (here.up && edge.b === here.at) found.push(to(edge.a, false, edge));
    } else {
      if (here.up && edge.b === here.at) found.push(to(edge.a, true, edge));
      if (edge.a === here.at && (!both || here.before)) found.push(to(edge.b, false, edge));
    }
    return found;
  });
}

function trace(end) {
  const path = [];
  for (let here = end; here.edge; here = here.before) path.unshift(here.edge);
  return path;
}

/** Marked edges, with those that aren't drawn replaced by the drawn ones that they stand for. */
export function routed(graph, marked) {
  const drawn = new Set(graph.edges.map(keyOf));
  return marked.flatMap((e) => {
    const through = e.plain || drawn.has(keyOf(e)) ? null : route(graph, e);
    return through ? through.map((f) => ({ ...f, cls: e.cls })) : [e];
  });
}
