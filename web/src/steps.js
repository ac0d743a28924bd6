// The steps of a derivation, with the graphs of its rules, as the program's objects tell them. Nothing of it is made here.
import { keyOf } from "./diagram/geometry.js";
import { latex, partAt } from "./expression.js";
import { CERTIFICATE, DIAGRAM } from "./names.js";
import { graphOf, ruleGraphOf } from "./objects.js";

/**
 * @typedef {import("./cards/parts.js").Context} Context  @typedef {import("./expression.js").Expr} Expr
 * @typedef {import("./text/printed.js").Graph} Graph  @typedef {import("./text/printed.js").Edge} Edge
 * @typedef {{text: string, latex: string, tree: Expr}} Told an expression, as the program tells it
 * @typedef {{n: 1 | 2 | 3, y: string[], z: string[], doing: string[], given: string[]}} Rule
 * @typedef {{number: number, word: string, set: string[], part: number | null, before: string, after: string,
 *   whole: string | null, rule: Rule | null, trees: [Expr, Expr], graph: Graph | null}} Step its expressions in
 *   LaTeX and as `trees`, `whole` where it has more than `after`; and the rule for which it asks, with the graph in which it is asked
 * @typedef {{lemma: number | null, start: string, steps: Step[]}} Derived
 */

const STEPS = ["steps", DIAGRAM, CERTIFICATE];
const PROJECTED = ["graph", DIAGRAM, "--project"];

/** The derivation of a certificate, or null where the program tells none. @param {Context} ctx @param {string} certificate */
export async function derivationOf(ctx, certificate) {
  ctx.put(CERTIFICATE, certificate);
  const { object } = await ctx.read(STEPS);
  return object.answer === "explained" ? derivedIn(object, ctx.observed) : null;
}

/** The edges of the observed diagram that another graph lacks. @returns {Promise<Edge[]>} */
export async function lostEdges(ctx, /** @type {Graph} */ graph) {
  const left = new Set(graph.edges.map(keyOf)), { object } = await ctx.read(PROJECTED);
  return graphOf(object).edges.filter((edge) => !left.has(keyOf(edge)));
}

/** The derivation in an object of `steps`. @param {any} object @param {string[]} observed the observed vertices @returns {Derived[]} */
export const derivedIn = ({ parts }, observed) => parts.map(({ lemma, start, moves }) => ({
  lemma, start: start.latex, steps: moves.map((move, i) => stepOf(move, i, i ? moves[i - 1].after : start, observed)),
}));

/** The word and the argument of a move, and at which child of the expression, of the child and so on it is made. */
function placeOf([word, arg, inner], path = []) {
  return word === "at" ? placeOf(inner, [...path, arg]) : { word, arg, path };
}

/** What is shown of a move, by the whole expressions before and after it. @param {Told} before @returns {Step} */
function stepOf({ step, rule, after }, i, before, observed) {
  const { word, arg, path } = placeOf(step), trees = [partAt(before.tree, path), partAt(after.tree, path)];
  const [from, to] = path.length ? trees.map((tree) => latex(tree)) : [before.latex, after.latex];
  return {
    number: i + 1, word, set: Array.isArray(arg) ? arg : [], part: word === "cite" ? arg : null,
    before: from, after: to, whole: path.length ? after.latex : null, trees,
    rule: rule && { n: rule.number, y: rule.y, z: rule.z, doing: rule.do, given: rule.given },
    graph: rule && ruleGraphOf(observed, rule.graph),
  };
}
