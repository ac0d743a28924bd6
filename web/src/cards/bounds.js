// What an effect is at least and at most over a table, whether a formula gives it or not: by the exposure alone, by an instrument, or by a
// set that is adjusted for, some of whose strata lack records.
import { h, svg } from "../dom.js";
import { isWithoutRecords } from "../faults.js";
import { DIAGRAM } from "../names.js";
import { boundsOf, levelsIn, valuesOf } from "../objects.js";
import { rangeOf } from "../statistics/bootstrap.js";
import { digitsAbove, digitsBelow, minus, nearly } from "../statistics/fraction.js";
import { listWord, pathText, setText } from "../text/printed.js";
import { chosenContrast, contrastChoices, intervalText } from "./contrast.js";
import { DRAWS, SEED, drawsBox, keptDraws, orderOf } from "./draws.js";
import { instrumentsPart } from "./instruments.js";
import { fold, listed, pathMarks, sourceOf, verdict, withRole } from "./parts.js";
import { chosenSet } from "./sets.js";
import { countWords, tableName } from "./table.js";

const NUMBER_TOO_LARGE = 2; // of the evaluation faults
const MOST_DIGITS = 15; // of a fraction in the table

/**
 * The bounds that are asked for, by the options for their sets, and what was said.
 * @typedef {{ctx: import("./parts.js").Context, sets: string[], words: string[], said: import("../objects.js").Said, instrument: string[],
 *   strata: string[], set: string[] | null, points: import("../objects.js").Cell[], pickers: () => Node}} Asked
 */

/**
 * Asks for the bounds by the sets that are chosen, and for the values of a formula beside them.
 * @param {import("./parts.js").Context} ctx @param {string[]} given @param {string[][]} adjusting the admissible sets that may be chosen
 * @returns {Promise<Asked>}
 */
export async function askedBounds(ctx, given, adjusting = []) {
  const { set, row } = chosenAdmissible(ctx, given.length ? [] : adjusting);
  if (set) return { ...(await boundsBy(ctx, set)), pickers: row };
  const { instrument, strata, pickers } = chosenSets(ctx, given), sets = [...list("--given", given), ...list("--instrument", instrument), ...list("--strata", strata)];
  return { ...(await asked(ctx, sets, list("--given", given))), instrument, strata, set, pickers: () => h("div", { class: "stack" }, row(), pickers()) };
}

/** The same by a set that is adjusted for. @param {string[]} set @returns {Promise<Asked>} */
export async function boundsBy(ctx, set) {
  return { ...(await asked(ctx, ["--set", listWord(set)], [])), instrument: [], strata: [], set, pickers: () => null };
}

const list = (option, names) => (names.length ? [option, listWord(names)] : []);

async function asked(ctx, sets, condition) {
  const table = tableName(ctx.memory.csv.name), inDigits = ["bounds", DIAGRAM, table, ...sets, ...countWords(ctx)], exactly = [...inDigits, "--exact"];
  const exact = await ctx.read(exactly), isTooLarge = exact.fault?.stage === "evaluation" && exact.fault.number === NUMBER_TOO_LARGE;
  const [words, said] = isTooLarge ? [inDigits, await ctx.read(inDigits)] : [exactly, exact];
  const formula = await ctx.read(["evaluate", DIAGRAM, table, ...condition, "--short", ...countWords(ctx)]);
  return { ctx, sets, words, said, points: formula.status === 0 ? valuesOf(formula.object) : [] };
}

/** The admissible set by which bounds are asked for, chosen among these; null where none is. */
function chosenAdmissible(ctx, sets) {
  const { memory } = ctx, set = sets.find((one) => setText(one) === memory.boundSet) ?? null;
  const choose = (e) => {
    Object.assign(memory, { boundSet: e.target.value, armed: null });
    ctx.refresh();
  };
  const option = (text, value, isNow) => h("option", { value, selected: isNow }, text);
  const row = () => sets.length > 0 && h("label", { class: "count" }, "Adjusting for ", h("select", { id: "bound-set", data: { key: "bound-set" }, onchange: choose },
    option("no set", "", !set), sets.map((one) => option(one.join(", ") || "nothing", setText(one), one === set))));
  return { set, row };
}

/** The instrument and its strata, chosen among the vertices that the question doesn't name. */
function chosenSets(ctx, given) {
  const named = new Set([...withRole(ctx, "exposure"), ...withRole(ctx, "outcome"), ...given]), free = ctx.observed.filter((name) => !named.has(name));
  const instrument = chosenSet({ ...ctx, observed: free }, "instrument", "Instrument", []), has = instrument.names.length > 0;
  const rest = free.filter((name) => !instrument.names.includes(name)), strata = chosenSet({ ...ctx, observed: rest }, "strata", "Its strata", []);
  return {
    instrument: instrument.names, strata: has ? strata.names : [],
    pickers: () => free.length > 0 && h("div", { class: "stack" }, h("div", { class: "pickers" }, instrument.row(), has && rest.length > 0 && strata.row()),
      !has && h("p", { class: "small-print" }, ABOUT_INSTRUMENTS), !has && fold(ctx, "instruments", "Which variables are instruments", () => instrumentsPart(ctx))),
  };
}

const ABOUT_INSTRUMENTS = "An instrument, such as the arm of a trial that was drawn by lot, goes with the outcome through the exposure alone. With one the bounds may be "
  + "less wide. Press its row's name, then click variables in the drawing; or take them from the list.";

/** What the drawing shows of them. @param {Asked} asked */
export function boundsMarks({ said, instrument, strata, set }, given) {
  const { open, moved, forbidden } = said.object, sets = [...instrument, ...strata, ...(set ?? []), ...given].map((name) => [name, "chosen"]);
  return { edges: open ? pathMarks(open) : [], vertices: new Map([...sets, ...[moved, forbidden].filter(Boolean).map((name) => [name, "bad"])]) };
}

// ---- As they are told

/** @param {Asked} asked */
export function boundsPart(asked) {
  const { ctx, words, said, pickers } = asked;
  return h("div", { class: "stack", id: "bounds" }, pickers(), said.status === 0 ? boundsView(asked) : told(asked), sourceOf(ctx, words, said));
}

/** Why there are none. */
function told({ said: { object, fault }, strata, set }) {
  if (set && !fault && !object.crossed) return verdict("no", "Not admissible", "Bounds by this set aren't given. See Adjust for what it leaves open, or has too much.");
  if (fault) return isWithoutRecords(fault) ? verdict("no", "No bounds", "No record has ", levelsOf(fault.cell), ".") : verdict("ask", fault.sentence);
  if (object.crossed) return verdict("no", "No model of this diagram has these counts", crossedText(object.crossed));
  const why = object.moved
    ? ["The exposure acts on ", h("b", {}, object.moved), ". An instrument, its strata and what is given come before the exposure."]
    : ["This path to the outcome stays open, and doesn't go through the exposure: ", h("code", {}, pathText(object.open)), "."];
  return verdict("no", "No instrument", listed(object.instrument), object.instrument.length > 1 ? " are" : " is", " none for this effect",
    strata.length ? [", in the strata of ", listed(strata)] : "", ". ", why);
}

const levelsOf = (cell) => levelsIn(cell).map(({ name, level }, i) => [i ? " and " : "", h("b", {}, `${name} = ${level || "(empty)"}`)]);

/** The bounds that cross, as a sentence. */
function crossedText(crossed) {
  const [{ y, x, given, low, high }] = boundsOf({ cells: [crossed] });
  return [h("code", {}, cellText({ y, x, given })), " would be at least ", h("b", {}, low.text), " and at most ", h("b", {}, high.text),
    ", which can't be. So the diagram is wrong, or the sets aren't what they are taken for; or it is chance, where few records have these levels."];
}

/** A cell as it is printed. */
const cellText = ({ y, x, given }) => `P(${y}${x || given ? `|${[...(x ? [`do(${x})`] : []), ...(given ? [given] : [])].join(",")}` : ""})`;

/** @param {Asked} asked */
function boundsView(asked) {
  const { ctx, said: { object }, points, set } = asked, cells = boundsOf(object), difference = differencePart(ctx, cells);
  const content = (kept) => {
    difference?.tell(kept);
    return [h("div", { class: "scroll" }, boundsTable(cells, points, intervalsOf(cells, kept))), kept.isAsked && says(kept)].filter(Boolean);
  };
  return [
    set && h("p", {}, "Strata of ", set.length ? listed(set) : "nothing", " that have records of a value of the exposure count as usual; the others leave open what would have been seen there."),
    verdict("warn", "At least and at most", "Proved, over the shares of this table: in every model of the diagram that has them, the effect lies between these numbers. ",
      "They are no confidence interval, since a sample's shares aren't those of the population. Better bounds may be had."),
    drawsBox(drawsOf(asked), content, false), difference?.part,
  ];
}

// ---- Intervals

/** The draws of the table over which the same bounds are asked for. @param {Asked} asked */
const drawsOf = ({ ctx, sets }) => orderOf(ctx, (name, count) => ["bounds", DIAGRAM, name, ...sets, ...count]);

/** @typedef {import("./draws.js").Kept} Kept */

/** The interval of each cell, as soon as the draws are there. @param {Kept} kept */
const intervalsOf = (cells, { isReady, values }) => (isReady ? cells.map((_, i) => rangeOf(values.filter(Boolean).map((ends) => ends[i]))) : null);

const HEAD = "95% interval";
const INTERVAL = `for the whole range, computed in the page by the bootstrap, not proved: from the lower percentile (2.5%) of what it is at least to the upper percentile `
  + `(97.5%) of what it is at most, over ${DRAWS} draws of the table's records with replacement (seed ${SEED}).`;

/** How many draws are left out, as a sentence. @param {Kept} kept */
function leftOut({ values, isReady }) {
  const lost = values.filter((ends) => !ends).length;
  return isReady && lost ? ` Draws without bounds, as they cross or a condition has no record, are left out: ${lost}.` : "";
}

/** @param {Kept} kept */
const says = (kept) => h("p", { class: "small-print", id: "interval" }, `The ${HEAD} is ${INTERVAL} Each draw's bounds are the program's.`, leftOut(kept));

/**
 * A row for each cell, with a bar from low to high, a point where there is a formula, and the interval under the bar where there are draws.
 * @param {import("../objects.js").Bound[]} cells @param {import("../objects.js").Cell[]} points @param {([number, number] | null)[] | null} intervals
 */
function boundsTable(cells, points, intervals) {
  const hasCondition = cells.some((c) => c.given), pointOf = (c) => points.find(({ y, x, given }) => y === c.y && x === c.x && given === c.given);
  const range = ["from 0 to 1", intervals && h("small", {}, HEAD)];
  const head = ["when set", ...(hasCondition ? ["among"] : []), "outcome", "at least", range, "at most", ...(points.length ? ["by the formula"] : [])];
  const end = ({ text }, digits) => h("td", { class: "number", title: text }, digits, text.includes("/") && text.length <= MOST_DIGITS && h("small", {}, text));
  const row = (c, i) => h("tr", {}, h("td", {}, c.x || "–"), hasCondition && h("td", {}, c.given), h("td", {}, c.y),
    end(c.low, lowDigits(c)), h("td", {}, bar(c, pointOf(c), intervals?.[i]), intervals && h("small", {}, intervalText(intervals[i]))), end(c.high, highDigits(c)),
    points.length > 0 && h("td", { class: "number" }, pointOf(c)?.value.toFixed(4) ?? "–"));
  return h("table", { class: "bounds" }, h("thead", {}, h("tr", {}, head.map((text) => h("th", { scope: "col" }, text)))), h("tbody", {}, cells.map(row)));
}

const lowDigits = ({ low }) => digitsBelow(low), highDigits = ({ high }) => digitsAbove(high);

const WIDTH = 120;

/** A rail from 0 to 1, and on it a bar with its ends; a point; and whiskers to the ends of an interval. */
function bar(cell, point, interval) {
  const place = (value) => 3 + value * (WIDTH - 6), [a, b] = [cell.low, cell.high].map((end) => place(nearly(end))), [from, to] = (interval ?? []).map(place);
  return svg("svg", { viewBox: `0 0 ${WIDTH} 16`, class: "range", role: "img", "aria-label": `between ${lowDigits(cell)} and ${highDigits(cell)}` },
    svg("path", { class: "rail", d: `M${place(0)} 8H${place(1)}M${place(0)} 5V11M${place(1)} 5V11` }),
    interval && svg("path", { class: "whiskers", d: `M${from} 8H${to}M${from} 4V12M${to} 4V12` }),
    svg("path", { class: "bar", d: `M${a} 8H${b}` }), svg("path", { class: "ends", d: `M${a} 2V14M${b} 2V14` }),
    point && svg("circle", { cx: place(point.value), cy: 8, r: 3.5 }));
}

/** What the difference of two cells is at least and at most, by their ends; nothing where the exposure has one value. */
function differencePart(ctx, cells) {
  const choice = chosenContrast({ ctx, cells });
  if (!choice) return null;
  const at = (x) => cells.findIndex((c) => c.y === choice.y && c.x === x && c.given === choice.among), [i, j] = [at(choice.a), at(choice.b)];
  if (i < 0 || j < 0) return null;
  const [first, second] = [cells[i], cells[j]], line = h("p", { id: "bounded-difference" });
  const tell = ({ isReady, values }) => line.replaceChildren("The risk difference is at least ", h("b", {}, digitsBelow(minus(first.low, second.high))), " and at most ",
    h("b", {}, digitsAbove(minus(first.high, second.low))), ": the differences of these ends.",
    isReady ? ` ${HEAD}: ${intervalText(rangeOf(values.filter(Boolean).map((ends) => [ends[i][0] - ends[j][1], ends[i][1] - ends[j][0]])))}.` : "");
  return { part: h("div", { class: "stack" }, h("h3", {}, "Difference"), contrastChoices({ ctx, cells }, choice), line), tell };
}

/** The bounds for a report. @param {Asked} asked @returns {import("../report/gather.js").Part[]} */
export function boundsParts(asked) {
  const { said: { status, object, fault }, instrument, strata, set } = asked;
  if (fault) return [{ text: `No bounds: ${fault.sentence}` }];
  const by = set ? `adjusting for ${set.join(", ") || "nothing"}, where strata without records leave open what would have been seen there` : instrument.length ? `by the instrument ${instrument.join(", ")}${strata.length ? ` in the strata of ${strata.join(", ")}` : ""}` : "without an instrument";
  if (object.crossed) {
    const [{ y, x, given, low, high }] = boundsOf({ cells: [object.crossed] });
    return [{ text: `No model of this diagram has these counts: ${cellText({ y, x, given })} would be at least ${low.text} and at most ${high.text} (${by}).` }];
  }
  if (status === 1 && set) return [{ text: `No bounds: ${set.join(", ") || "nothing"} isn't admissible.` }];
  if (status === 1) return [{ text: `${instrument.join(", ")}: no instrument for this effect${object.open ? `; this path stays open: ${pathText(object.open)}` : ""}.` }];
  const cells = boundsOf(object), hasCondition = cells.some((c) => c.given), kept = keptDraws(drawsOf(asked)), intervals = intervalsOf(cells, kept);
  const about = intervals ? `This is proved. The ${HEAD} is ${INTERVAL}${leftOut(kept)}` : "This is proved; it is no confidence interval.";
  return [
    { text: `What the effect is at least and at most, ${by}: in every model of the diagram that has the shares of the table. ${about}` },
    { table: { head: ["when set", ...(hasCondition ? ["among"] : []), "outcome", "at least", "at most", ...(intervals ? [HEAD] : [])],
      rows: cells.map((c, i) => [c.x || "–", ...(hasCondition ? [c.given] : []), c.y, lowDigits(c), highDigits(c), ...(intervals ? [intervalText(intervals[i])] : [])]) } },
  ];
}
