// The program's answers as objects of JSON (docs/formats.md), and what the page makes of their members.
import { nodesOf } from "./expression.js";
import { faultOf } from "./faults.js";
import { fractionOf } from "./statistics/fraction.js";
import { levelsText, nameText, setText } from "./text/printed.js";

/** @typedef {import("./text/printed.js").Graph} Graph  @typedef {import("./text/printed.js").Edge} Edge */
/** @typedef {{vertices: string[], marks: ("->" | "<-" | "<->")[]}} Path */
/** @typedef {{name: string, level: string}} Level */
/**
 * An answer: its object, which is empty where there is none, and what is refused, or null.
 * @typedef {{status: number, object: any, fault: import("./faults.js").Fault | null}} Said
 */

/** The answer to a question with `--json`. @param {import("./runner.js").Answer} answer @returns {Said} */
export function saidOf({ status, out, err }) {
  const object = out ? JSON.parse(out) : {}, isAnswer = status === 0 || status === 1;
  return { status, object, fault: isAnswer ? null : faultOf(object.fault, err) };
}

/** The graph of an object of `graph`. @returns {Graph} */
export function graphOf({ vertices, directed, bidirected }) {
  const edges = (pairs, both) => pairs.map(([a, b]) => ({ a, b, both }));
  return { vertices, edges: [...edges(directed, false), ...edges(bidirected, true)] };
}

/** The graph in which a rule is asked, whose vertices are the observed ones. @param {string[]} observed @returns {Graph} */
export const ruleGraphOf = (observed, graph) => graphOf({ vertices: observed.map((name) => ({ name, role: null })), ...graph });

/** The edges of a path. @param {Path} path @returns {Edge[]} */
export const edgesOf = ({ vertices, marks }) => marks.map((mark, i) => {
  const [a, b] = [vertices[i], vertices[i + 1]];
  return mark === "<-" ? { a: b, b: a, both: false } : { a, b, both: mark === "<->" };
});

// ---- Formulas

/** A formula as the program prints it: its equation, and a line for each definition. @returns {string[]} */
export const linesOf = ({ effect, formula, definitions = [] }) =>
  [`${effect} = ${formula}`, ...definitions.map((text, i) => `q${i} = ${text}`)];

/** All that it prints of a formula. */
export function textOf(formula) {
  const free = formula.free.length ? [`free ${setText(formula.free)}`] : [];
  return [...linesOf(formula), ...free].map((line) => `${line}\n`).join("");
}

/** The nodes of a formula and of its definitions. */
export const nodesIn = ({ tree, definition_trees: trees }) => [tree, ...trees].flatMap(nodesOf);

/** The names that sums run over, in their order. */
export const boundIn = (formula) => [...new Set(nodesIn(formula).flatMap((node) => node.sum ?? []))];

// ---- Models of a hedge

const bitText = ({ bit, vertex }) => `${bit}(${nameText(vertex)})`;

/** What a bit is the parity of, or an event is of. */
export const sumText = (terms) => terms.map((term) => (term.bit ? bitText(term) : `c${term.cause}`)).join(" + ");

/** The bits of two models, with what each is the parity of in the first and in the second. */
export function bitsOf({ first, second }) {
  const bits = new Map(), put = (model) => (bit) => bits.set(bitText(bit), { ...bits.get(bitText(bit)), [model]: sumText(bit.sum) });
  first.forEach(put("first"));
  second.forEach(put("second"));
  return bits;
}

// ---- Counts

const decoder = new TextDecoder();

/** The levels of a cell; one that isn't UTF-8 comes as a list of bytes. @returns {Level[]} */
export const levelsIn = (cell) =>
  cell.map(([name, level]) => ({ name, level: typeof level === "string" ? level : decoder.decode(Uint8Array.from(level)) }));

/**
 * Levels as they are printed, `T=A`; none is "". Among the treated `given` has the observed levels too, and `hadIt` says whether they are those that are set.
 * @typedef {{y: string, x: string, given: string, hadIt: boolean, text: string, value: number}} Cell
 */

/** The values of an effect. @returns {Cell[]} */
export const valuesOf = ({ cells }) => cells.map(({ y, x, given, observed = [], value, from, to }) => {
  const [yLevels, xLevels, among] = [y, x, [...given, ...observed]].map((part) => levelsText(levelsIn(part)));
  const number = value ? fraction(value) : (Number(from) + Number(to)) / 2, [had, set] = [observed, x].map((part) => levelsIn(part).map(({ level }) => level).join("\n"));
  return { y: yLevels, x: xLevels, given: among, hadIt: observed.length > 0 && had === set, text: value ?? `${from} … ${to}`, value: number };
});

/** That an effect is less than what was observed of it: both as they are printed. @param {string[]} names in the order of the vertices */
export function lessIn({ less }, names) {
  const [y, x, given] = [less.y, less.x, less.given].map(levelsIn), ordered = (levels) => levelsText(names.flatMap((name) => levels.filter((it) => it.name === name)));
  return { effect: `P(${ordered([...y, ...given])}|do(${levelsText(x)}))`, share: `P(${ordered([...x, ...y, ...given])})` };
}

/** @typedef {import("./statistics/fraction.js").Fraction & {text: string}} End  @typedef {{y: string, x: string, given: string, low: End, high: End}} Bound */

/** What an effect is at least and at most; the levels of strata stand with those of what is given. @returns {Bound[]} */
export const boundsOf = ({ cells }) => cells.map(({ y, x, given, strata = [], at_least: low, at_most: high }) => {
  const [yLevels, xLevels, among] = [y, x, [...given, ...strata]].map((part) => levelsText(levelsIn(part)));
  const end = (text) => ({ text, ...fractionOf(text) });
  return { y: yLevels, x: xLevels, given: among, low: end(low), high: end(high) };
});

function fraction(text) {
  const [p, q] = text.split("/").map(Number);
  return q === undefined ? p : p / q;
}

/** @typedef {{a: string, b: string, given: string[], difference?: string, cell?: Level[]}} Implication */

/** The pairs, and their largest differences where counts were given. @returns {Implication[]} */
export const impliedBy = ({ pairs }) =>
  pairs.map(({ x, y, given, difference, cell }) => ({ a: x, b: y, given, ...(cell ? { difference, cell: levelsIn(cell) } : {}) }));

// ---- Instruments

/** @typedef {{name: string, strata: string[]}} Instrument */

/** The instruments of an object, the variables that have more strata than it lists, and those that have none. @returns {{instruments: Instrument[], more: string[], none: string[]}} */
export function instrumentsIn({ instruments }) {
  const names = (list) => list.map(({ vertex }) => vertex);
  return {
    instruments: instruments.flatMap(({ vertex: name, strata }) => strata.map((set) => ({ name, strata: set }))),
    more: names(instruments.filter(({ more }) => more)), none: names(instruments.filter(({ strata }) => !strata.length)),
  };
}
