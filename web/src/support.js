// Which condition of a formula no record meets: a fault of `evaluate` names a node of the formula, and a cell.
import { nodesOf } from "./expression.js";
import { levelsIn } from "./objects.js";
import { termText } from "./text/printed.js";

/** @typedef {import("./expression.js").Expr} Expr */
/**
 * What there are no records of: the term that is given it, as it is printed, with the levels; or no term, where the divisor of a
 * quotient is 0 at these levels.
 * @typedef {{term: string | null, at: import("./objects.js").Level[]}} Missing
 */

/** The names whose values an expression depends on. @param {Expr} e @param {Expr[]} definitions @returns {Set<string>} */
function namesIn(e, definitions) {
  if (e.term) return new Set([...e.term, ...e.do, ...e.given]);
  if (e.definition !== undefined) return namesIn(definitions[e.definition], definitions);
  const names = new Set((e.sum ? [e.of] : e.product ?? e.quotient).flatMap((part) => [...namesIn(part, definitions)]));
  e.sum?.forEach((name) => names.delete(name));
  return names;
}

/**
 * What a fault says that no record has; null where it names no condition.
 * @param {import("./faults.js").Fault} fault @param {{tree: Expr, definition_trees: Expr[]}} formula the one that was evaluated
 * @returns {Missing | null}
 */
export function missingOf({ definition, node: number, cell }, { tree, definition_trees: definitions }) {
  const node = nodesOf(definition === null ? tree : definitions[definition])[number];
  if (!node?.term && !node?.quotient) return null;
  const wanted = node.term ? new Set(node.given) : namesIn(node.quotient[1], definitions);
  return { term: node.term ? termText(node) : null, at: levelsIn(cell).filter(({ name }) => wanted.has(name)) };
}
