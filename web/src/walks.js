// The paths between exposure and outcome in the diagram as it is drawn, the shorter first, and which edges lie on open ones. Whether a path
// is open is read off its vertices by the textbook's definition, with what the program tells of ways. What is found is compared with all paths,
// and with the program's answers, in tests.
import { keyOf } from "./diagram/geometry.js";
import { Flow } from "./flow.js";

/** @typedef {import("./text/printed.js").Graph} Graph  @typedef {import("./text/printed.js").Edge} Edge */
/** @typedef {{edge: Edge, from: string, to: string}} Step */
/** A step by numbers: whether it begins and whether it ends with a head. @typedef {{to: number, edge: number, out: boolean, in: boolean}} Numbered */

/** The steps from each vertex. @returns {Map<string, Step[]>} */
function stepsOf({ vertices, edges }) {
  const steps = new Map(vertices.map(({ name }) => [name, []]));
  for (const edge of edges) {
    steps.get(edge.a).push({ edge, from: edge.a, to: edge.b });
    steps.get(edge.b).push({ edge, from: edge.b, to: edge.a });
  }
  return steps;
}

const endsWithHead = ({ edge, to }) => edge.both || edge.b === to;
const beginsWithHead = ({ edge, from }) => edge.both || edge.b === from;

/** A diagram with a set that is given: which ways are open. */
export class Walks {
  /** @param {Graph} graph @param {string[]} set @param {Set<string>} before the vertices that lead to one of the set, themselves included */
  constructor(graph, set, before) {
    const numbers = new Map(graph.vertices.map(({ name }, i) => [name, i])), edgeNumbers = new Map(graph.edges.map((edge, i) => [edge, i]));
    const numbered = (step) => ({ to: numbers.get(step.to), edge: edgeNumbers.get(step.edge), out: beginsWithHead(step), in: endsWithHead(step) });
    this.graph = graph;
    this.numbers = numbers;
    this.inSet = graph.vertices.map(({ name }) => set.includes(name));
    this.leads = graph.vertices.map(({ name }) => before.has(name));
    /** @type {Numbered[][]} */
    this.steps = [...stepsOf(graph).values()].map((list) => list.map(numbered));
  }

  /** Whether a way may go through a vertex that it enters and leaves so: a collider leads to the set, and no other vertex is in it. */
  #passes(vertex, isIn, isOut) {
    return isIn && isOut ? this.leads[vertex] : !this.inSet[vertex];
  }

  /** What blocks a path: each vertex at which it doesn't pass, with the reason. @param {Step[]} path */
  blocks(path) {
    return path.slice(1).flatMap((next, i) => {
      const step = path[i], [isIn, isOut] = [endsWithHead(step), beginsWithHead(next)];
      return this.#passes(this.numbers.get(step.to), isIn, isOut) ? [] : [{ name: step.to, isCollider: isIn && isOut }];
    });
  }

  /** The edges on open paths from one of xs to one of ys, by their keys. @returns {Set<string>} */
  edgesBetween(xs, ys) {
    const { graph: { edges }, numbers } = this, found = new Set();
    for (const [x, y] of xs.flatMap((a) => ys.map((b) => [numbers.get(a), numbers.get(b)]))) {
      const flow = new Flow(this, x, y);
      this.steps.forEach((list, v) => list.forEach((step) => {
        if (numbers.get(edges[step.edge].a) === v && !found.has(step.edge) && flow.goesOver(v, step)) found.add(step.edge);
      }));
    }
    return new Set([...found].map((edge) => keyOf(edges[edge])));
  }
}

/**
 * All paths from x to a vertex of ys, the shorter first, as far as there is room for them.
 * @param {Graph} graph @param {number} most @param {{tries: number}} budget @returns {{paths: Step[][], isAll: boolean}}
 */
export function pathsBetween(graph, x, ys, most, budget) {
  const steps = stepsOf(graph), paths = [];
  for (let length = 1; length < graph.vertices.length; length++) {
    const seen = new Set([x]), path = [];
    let goesOn = false;
    const go = (at) => {
      if (ys.includes(at)) {
        if (path.length === length) paths.push([...path]);
        return;
      }
      if (path.length === length) return void (goesOn = true);
      for (const next of steps.get(at)) {
        if (paths.length >= most || --budget.tries < 0) return;
        if (seen.has(next.to)) continue;
        seen.add(next.to);
        path.push(next);
        go(next.to);
        path.pop();
        seen.delete(next.to);
      }
    };
    go(x);
    if (paths.length >= most || budget.tries < 0) return { paths, isAll: false };
    if (!goesOn) break;
  }
  return { paths, isAll: true };
}
