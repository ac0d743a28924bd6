import { button, h } from "../dom.js";
import { DIAGRAM } from "../names.js";
import { impliedBy } from "../objects.js";
import { holm, strataOf } from "../statistics/independence.js";
import { levelsText } from "../text/printed.js";
import { asksForTable, cellsOf, countWords, tableName, tableNotes } from "./table.js";
import { commandOf, fold, refused, sourceOf, verdict } from "./parts.js";

const WORDS = ["implications", DIAGRAM];
const MOST_ROWS = 200;
const SEED = 1;
const PERMUTATIONS = 1000;
const LEVEL = 0.05;
const MANY_CELLS = 5; // of the faults of counts: too many cells for the differences, which need all columns at once; a test needs a few

/** @typedef {import("../objects.js").Implication} Implication */

/** The pairs with their tests, where there is a table; what is refused is in `said`. @param {import("./parts.js").Context} ctx */
export async function impliedPairs(ctx) {
  const said = await ctx.read(WORDS);
  if (said.fault) return { ctx, said, pairs: [], rejected: [] };
  const { csv } = ctx.memory, pairs = impliedBy(said.object), isLacking = ({ a, b, given }) => csv.lacking.some((name) => [a, b, ...given].includes(name));
  const testable = csv ? pairs.filter((pair) => !isLacking(pair)) : [];
  const words = csv && pairs.length && !csv.lacking.length ? ["implications", DIAGRAM, tableName(csv.name), ...countWords(ctx)] : null;
  const counted = words && (await ctx.read(words)), isReadable = !counted?.fault || (counted.fault.stage === "counts" && counted.fault.number === MANY_CELLS);
  const tests = csv && isReadable && testable.length ? await testsOf(ctx, testable.slice(0, MOST_ROWS)) : null;
  const differences = counted?.status === 0 ? new Map(impliedBy(counted.object).map((pair) => [keyOf(pair), pair])) : new Map();
  const rows = pairs.map((pair) => ({ ...pair, ...differences.get(keyOf(pair)), test: tests?.get(keyOf(pair)) ?? null }));
  const found = { ctx, said, pairs: inOrder(rows), words, counted, tests, untested: pairs.length - testable.length };
  const rejected = rows.filter(({ test }) => test?.adjusted < LEVEL).map(({ a, b }) => ({ a, b, both: false, plain: true, cls: "rejected" }));
  return { ...found, rejected };
}

/** @param {import("./parts.js").Context} ctx */
async function answer(ctx) {
  const found = await impliedPairs(ctx);
  if (found.said.fault) return refused(ctx, WORDS, found.said);
  return { dot: "", view: () => view(found), marks: { edges: found.rejected } };
}

const keyOf = ({ a, b, given }) => JSON.stringify([a, b, given]);

/** The pairs by what their tests say, those without a test last. */
const inOrder = (rows) => (rows.some(({ test }) => test) ? [...rows].sort((one, other) => (one.test?.p ?? 2) - (other.test?.p ?? 2)) : rows);

const kept = new WeakMap(); // by a table, its tests of some pairs

/** The tests of the pairs over the table, with Holm's correction for all of them, by the pair. */
async function testsOf(ctx, pairs) {
  const table = cellsOf(ctx), key = JSON.stringify([pairs, table]), had = kept.get(ctx.memory.csv);
  if (had?.key === key) return had.tests;
  const { tests: list } = await ctx.compute({ compute: "tests", table, pairs, seed: SEED });
  if (!list) return null;
  const places = list.map((test, i) => i).filter((i) => list[i].p !== null), adjusted = holm(places.map((i) => list[i].p));
  places.forEach((place, i) => (list[place].adjusted = adjusted[i]));
  list.forEach((test, i) => (test.shown = differenceOf(table, pairs[i])));
  const tests = new Map(list.map((test, i) => [keyOf(pairs[i]), test]));
  kept.set(ctx.memory.csv, { key, tests });
  return tests;
}

/** The records at each level of what is given, by which a difference of counts is one of probabilities. */
function differenceOf(table, { a, b, given }) {
  const places = given.map((name) => table.names.indexOf(name));
  const named = (levels) => new Map(levels.map((level, i) => [given[i], table.levels[places[i]][level]]));
  return strataOf(table, a, b, given).map((stratum) => ({ at: named(stratum.given), size: stratum.rows.flat().reduce((p, q) => p + q, 0) }));
}

/** A difference of counts as one of probabilities: it is divided by the square of the records at its level. */
function asProbability({ difference, cell }, strata) {
  const stratum = strata.find(({ at }) => cell.every(({ name, level }) => !at.has(name) || at.get(name) === level));
  return stratum ? Number(difference) / stratum.size ** 2 : null;
}

function view(found) {
  const { ctx, said, pairs, words, counted } = found;
  return h("div", {}, head(found), pairs.length ? (ctx.memory.csv ? [tableNotes(ctx), dataPart(found)] : asksForTable(ctx)) : null,
    pairs.length ? h("div", { class: "scroll" }, table(found)) : null,
    counted?.status === 0 ? sourceOf(ctx, words, counted) : sourceOf(ctx, WORDS, said));
}

function head({ ctx, pairs, counted, tests, untested, rejected }) {
  if (!pairs.length) {
    return verdict("ask", "No independence to test", "No two variables are separated by any set, so the diagram demands no "
      + "independence of what is observed.");
  }
  const many = pairs.length === 1 ? "One independence" : `${pairs.length} independences`;
  if (!tests) {
    const isTested = ctx.memory.csv ? ` The table doesn't test this: ${counted?.fault?.sentence ?? "no pair has all its columns."}` : " A table can test this.";
    return verdict(ctx.memory.csv ? "ask" : "yes", many, `If the diagram is right, each pair is independent given the set beside it. No other pair is separated by any set.${isTested}`);
  }
  const { csv, table: { reading } } = ctx.memory, done = [...tests.values()].filter(({ p }) => p !== null).length;
  const left = (csv.incomplete && !reading.leavesOut ? " Missing values are counted as a level." : "") + (untested ? ` ${untested} more name a variable without a column.` : "");
  return rejected.length
    ? verdict("no", `${rejected.length} of ${done} tested independences ${rejected.length === 1 ? "is" : "are"} rejected`,
      `At the level ${LEVEL}, after Holm's correction: lines in the drawing join these pairs. So some assumption of the diagram doesn't fit the table.${left}`)
    : verdict("yes", `None of ${done} tested independences is rejected`, `At the level ${LEVEL}, after Holm's correction. This doesn't show that the diagram is right.${left}`);
}

function table({ ctx, pairs, tests }) {
  const hasDifference = pairs.some((pair) => pair.difference), names = [...(tests ? ["p"] : []), ...(hasDifference ? ["largest difference"] : [])];
  const columns = ["pair", ...names].map((text) => h("th", { scope: "col" }, text));
  const left = pairs.length - MOST_ROWS;
  return h("table", { class: "pairs" },
    h("caption", {}, left > 0 ? `The first ${MOST_ROWS} of ${pairs.length}; all are in the printed text` : null),
    h("thead", {}, h("tr", {}, columns)),
    h("tbody", {}, pairs.slice(0, MOST_ROWS).map((pair) => row(ctx, pair, Boolean(tests), hasDifference))));
}

export const part = (p) => (p === null || p === undefined ? "–" : p < 0.0001 ? "< 0.0001" : p.toFixed(4));

/** A pair; it is shown in the drawing while it has the pointer or the focus. */
function row(ctx, pair, hasTests, hasDifference) {
  const { a, b, given, difference, cell, test } = pair, at = cell && levelsText(cell);
  const classes = [[[a], "from"], [[b], "to"], [given, "chosen"]];
  const marks = { vertices: new Map(classes.flatMap(([names, cls]) => names.map((name) => [name, cls]))), edges: [{ a, b, both: false, plain: true, cls: "tested" }] };
  const show = () => ctx.mark(marks), hide = () => ctx.mark();
  const share = hasDifference && test ? asProbability(pair, test.shown) : null;
  const statistic = test?.p !== null && test ? `G² = ${test.statistic.toFixed(3)}, ${test.degrees} degrees of freedom, ${test.method}` : null;
  return h("tr", {
    tabindex: 0, onpointerenter: show, onfocus: show, onpointerleave: hide, onblur: hide, class: test?.adjusted < LEVEL ? "differs" : null,
    "aria-label": `${a} and ${b}${given.length ? ` given ${given.join(", ")}` : ""}${hasTests ? `: p ${part(test?.p)}` : ""}`
      + (difference ? `, largest difference ${difference} at ${at}` : ""),
  }, h("td", {}, h("b", {}, a), " and ", h("b", {}, b), h("small", {}, "given ", given.join(", ") || "nothing", " ", furtherButton(ctx, a, b))),
  hasTests ? h("td", { class: "number", title: statistic }, test ? part(test.p) : "no column", test && h("small", {}, `Holm ${part(test.adjusted)}`)) : null,
  hasDifference ? h("td", { title: `${difference} in counts, as the program prints it` },
    h("span", { class: "number" }, share === null ? difference : share.toFixed(4)), h("small", { class: "cell" }, at && ["at ", at.split(",").map((level, i) => [i ? [",", h("wbr")] : "", level])])) : null);
}

/** Shows the pair under Separate, with all sets that separate it. */
function furtherButton(ctx, a, b) {
  const go = () => {
    Object.assign(ctx.memory.sets, { x: [a], y: [b] });
    ctx.show("separation");
  };
  return button("sets", go, { title: "Which sets separate them", "aria-label": `which sets separate ${a} and ${b}` });
}

/** What a table says of the pairs, and how. */
function dataPart({ ctx, words, counted, tests }) {
  const change = h("p", {}, "In ", h("b", {}, ctx.memory.csv.name), " ",
    button("Another file or column of counts", () => ctx.show("data"), { data: { key: "to data" } }));
  return h("div", { class: "stack" }, change, counted?.fault && h("p", { class: "small-print" }, `${counted.fault.sentence} So the largest differences aren't printed.`, " ", h("code", {}, commandOf(words))),
    tests && h("p", { class: "small-print" }, "A small p speaks against the diagram; a large one doesn't speak for it. It is computed here, not proved."),
    (tests || counted) && fold(ctx, "how tested", "How the tests are made", () => howTested(tests, counted)));
}

const howTested = (tests, counted) => h("div", { class: "stack" },
  tests && h("p", { class: "small-print" }, "p is the chance of counts at least as far from the independence, if it holds, by the statistic G² with the chi-squared distribution, or where a "
    + `table is thin by ${PERMUTATIONS} shuffles (seed ${SEED}). Holm's correction is for all pairs that were tested.`),
  counted && h("p", { class: "small-print" }, "The largest difference, of all levels a, b and w, is P(a,b|w) − P(a|w)·P(b|w). The program prints it "
    + "in counts: N(a,b,w)·N(w) − N(a,w)·N(b,w). It is 0 where a model that fits the diagram matches the counts."));

/** @type {import("./parts.js").Card} */
export const implications = { id: "implications", title: "Implies", wantsVariables: true, about: "Which independences the diagram implies, and whether a table fits them", ahead: [WORDS], answer };
