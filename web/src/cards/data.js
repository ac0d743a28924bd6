import { button, h } from "../dom.js";
import { AS_JSON, DIAGRAM } from "../names.js";
import { levelsIn, saidOf, valuesOf } from "../objects.js";
import { isWithoutRecords, lacksMark } from "../faults.js";
import { write } from "../text/edit.js";
import { levelsText, setText } from "../text/printed.js";
import { askedBounds, boundsBy, boundsMarks, boundsPart } from "./bounds.js";
import { contrastPart } from "./contrast.js";
import { orderOf } from "./draws.js";
import { BOUNDS, TREATED, chosenFormula, withoutRecords, zeroPart } from "./formulas.js";
import { fold, listed, sourceOf, verdict, withRole } from "./parts.js";
import { dotPlot } from "./plot.js";
import { asksForTable, countWords, tableName, tableRow } from "./table.js";
import { byTwoValues, noValuesAmong } from "./treated.js";

const MOST_DIGITS = 15; // of a fraction in the table
const MOST_TRIED = 4; // sets whose formula is tried where another has no value

/**
 * What a report says of the table: the order of its draws, with the cells; or the bounds that were asked for, or that there are in place of a
 * value; null where there is no table.
 */
export async function measured(ctx) {
  if (!ctx.memory.csv) return null;
  const { way, ways } = await chosenFormula(ctx), said = way.by === BOUNDS ? null : await ctx.read(wordsOf(ctx, way, tableName(ctx.memory.csv.name), countWords(ctx)));
  if (said?.status === 1 && way.by === TREATED) return { way, none: noValuesAmong(said.object, ctx.observed) };
  if (!said || hasNoFormula(way, said)) return { way, asked: await askedBounds(ctx, way.given, minimalSets(ways)) };
  if (said.status !== 0) return { way, fault: said.fault, instead: said.fault && isWithoutRecords(said.fault) ? (await boundsInstead(ctx, { way, ways })) ?? (await boundsAnyway(ctx, way)) : null };
  const crude = way.given.length || way.by === TREATED ? [] : await crudeValues(ctx);
  return { way, order: contrastOrder({ ctx, way, crude }, valuesOf(said.object)) };
}

/** @param {import("./parts.js").Context} ctx */
async function answer(ctx) {
  if (!ctx.memory.csv) return { dot: "", view: () => invitation(ctx) };
  const choice = await chosenFormula(ctx), { way } = choice;
  if (way.by === BOUNDS) return bounded(ctx, choice, () => null);
  const words = wordsOf(ctx, way, tableName(ctx.memory.csv.name), countWords(ctx)), exactWords = [...words, "--exact"];
  const [bounds, exact] = await Promise.all([ctx.read(words), ctx.read(exactWords)]), isExact = exact.status === 0;
  const isTreated = way.by === TREATED;
  if (bounds.status === 1 && isTreated) return { dot: "no", view: () => noneAmong({ ctx, choice, words, bounds }) };
  if (hasNoFormula(way, bounds)) return bounded(ctx, choice, () => noFormula(way));
  const { fault } = bounds, hasValue = bounds.status === 0 || isExact;
  const without = !fault || hasValue ? null : await withoutRecords(ctx, way, fault);
  const crude = hasValue && !way.given.length && !isTreated ? await crudeValues(ctx) : [];
  const other = without && !way.given.length && !isTreated && (await otherWay(ctx, choice)), instead = without && (await boundsInstead(ctx, choice));
  const twoValues = isTreated ? (await ctx.read(way.question)).object.two_values : null;
  const found = { ctx, choice, way, words, exactWords, bounds, exact, fault, without, crude, other, instead, twoValues };
  const view = bounds.status === 1 ? notAdmissible : hasValue ? values : noValue;
  const marks = { vertices: new Map([...(way.set ?? instead?.set ?? []), ...way.given].map((name) => [name, "chosen"])) };
  return { dot: hasValue ? "yes" : "no", view: () => view(found), marks };
}

/** Whether the effect has no formula. A set that isn't admissible leaves that open. */
const hasNoFormula = ({ set }, { status }) => !set && status === 1;

/** The sets among these ways that the program lists. */
const minimalSets = (ways) => ways.filter(({ by, set }) => set && by === setText(set)).map(({ set }) => set);

/** The bounds by a set that is adjusted for, where some condition has no record: by the one that is chosen, or the first; null where there are none. */
async function boundsInstead(ctx, { ways, way }) {
  const [set] = way.set ? [way.set] : way.given.length || way.by === TREATED ? [] : minimalSets(ways), asked = set && (await boundsBy(ctx, set));
  return asked?.said.status === 0 ? asked : null;
}

/** The bounds without a set; of the treated none are known. */
const boundsAnyway = async (ctx, { by, given }) => (by === TREATED ? null : askedBounds(ctx, given));

/** The bounds in place of values. */
async function bounded(ctx, choice, told) {
  const { given } = choice.way, asked = await askedBounds(ctx, given, minimalSets(choice.ways));
  return { dot: asked.said.status === 0 ? "yes" : "no", view: () => h("div", {}, choices({ ctx, choice }), told(), boundsPart(asked)), marks: boundsMarks(asked, given) };
}

/** The values of the outcome among those that have each value of the exposure: as the program computes them where nothing else is drawn. */
async function crudeValues(ctx) {
  const [xs, ys] = ["exposure", "outcome"].map((role) => withRole(ctx, role));
  if (!xs.length || !ys.length) return [];
  const vertices = ctx.graph.vertices.filter(({ role }) => role === "exposure" || role === "outcome");
  const text = write({ vertices, edges: xs.flatMap((a) => ys.map((b) => ({ a, b, both: false }))) }, new Map());
  const said = saidOf(await ctx.askAbout(text, ["evaluate", DIAGRAM, tableName(ctx.memory.csv.name), ...countWords(ctx), AS_JSON]));
  return said.status === 0 ? valuesOf(said.object) : [];
}

/** The first way by another set whose formula has a value over the table; nothing where none has. */
async function otherWay(ctx, { ways, way }) {
  const tried = ways.filter((other) => other.set && other !== way).slice(0, MOST_TRIED);
  const said = await Promise.all(tried.map((other) => ctx.read(wordsOf(ctx, other, tableName(ctx.memory.csv.name), countWords(ctx)))));
  return tried.find((_, i) => said[i].status === 0);
}

/** The question for the effect over a table. */
const wordsOf = ({ memory }, way, table, count) => ["evaluate", DIAGRAM, table, ...way.words, ...count, ...(memory.zero && way.by !== TREATED ? ["--zero"] : [])];

// ---- What may come

const invitation = (ctx) => h("div", {},
  verdict("ask", "How large is the effect in your table?",
    "A column for each variable that the formula names, and if you like a column of counts."),
  asksForTable(ctx));

/** The table, and how the formula is found. */
const choices = ({ ctx, choice }) => [tableRow(ctx), choice.row()];

const noFormula = ({ given }) =>
  verdict("no", given.length ? "Not identifiable under this condition" : "Not identifiable", "See Effect for why. Below stands what it is at least and at most.");

function notAdmissible(found) {
  const { ctx, words, bounds } = found;
  return h("div", {}, choices(found), verdict("no", "Not admissible", "The table isn't read. See Adjust for what this set leaves open, or has too much."),
    sourceOf(ctx, words, bounds));
}

/** Why there are no values among the treated. */
function noneAmong(found) {
  const { ctx, words, bounds } = found, { title, why } = noValuesAmong(bounds.object, ctx.observed);
  return h("div", {}, choices(found), verdict("no", title, why), sourceOf(ctx, words, bounds));
}

function noValue(found) {
  const { ctx, way, words, bounds, fault, without, other, instead } = found, fine = without ? ctx.memory.csv.notes.filter(({ isFine, points }) => isFine && !points) : [];
  const many = fine.map(({ name, size }) => `${name} has ${size} different values`).join(", ");
  const use = (by) => () => {
    ctx.memory.by = by;
    ctx.refresh();
  };
  return h("div", {}, choices(found), fine.length
    ? verdict("no", `Group ${fine.map(({ name }) => name).join(" and ")} first`, `${many}, so most combinations have no row. `
      + "Cut them above. ", without)
    : lacksMark(fault) ? verdict("ask", fault.sentence) : verdict("no", "No value", without ?? fault.sentence, without && hasLoose(ctx) && " The buttons above leave out rows or join levels."),
  way.by === TREATED ? null : zeroPart(ctx, without),
  other ? h("p", {}, "The formula of adjusting for ", other.set.length ? listed(other.set) : "nothing", " has a value over this table. ",
    button("Use it", use(other.by), { id: "use" })) : null,
  without && way.by !== TREATED && h("p", {}, instead ? "Other bounds, as by an instrument: " : "Bounds need no such records: ", button("At least and at most", use(BOUNDS), { id: "use-bounds" })),
  sourceOf(ctx, words, bounds),
  instead && h("div", { class: "stack", id: "instead" }, h("h3", {}, "What the records still say"), boundsPart(instead)));
}

/** Whether rows have missing values, or levels differ in spelling, that count as they are. */
const hasLoose = ({ memory: { csv, table: { reading } } }) => (csv.incomplete > 0 && !reading.leavesOut) || (!reading.joins && csv.notes.some(({ spellings }) => spellings.length > 0));

// ---- The effect

/** The draws of the table over which values are contrasted. */
const contrastOrder = ({ ctx, way, crude }, cells) => ({ ...orderOf(ctx, (name, count) => wordsOf(ctx, way, name, count)), cells, crude, readsZeros: way.by !== TREATED });

function values(found) {
  const { ctx, way, words, exactWords, bounds, exact, twoValues } = found;
  const isExact = exact.status === 0, { object } = isExact ? exact : bounds, cells = valuesOf(object);
  const pinned = levelsIn(object.pinned).map((level) => levelsText([level])).join(", ");
  return h("div", {}, choices(found), way.by === TREATED ? null : zeroPart(ctx, false),
    twoValues ? byTwoValues(object, twoValues) : verdict("warn", "Plug-in values", "The formula's value with the table's proportions in it, without sampling error. "
      + "A small table can be far from the truth."),
    dotPlot(cells),
    pinned ? h("p", {}, "Pinned at its first level (in a population that fits the diagram the value doesn't "
      + "depend on it; in a sample it may): ", h("code", {}, pinned)) : null,
    h("div", { class: "scroll" }, valuesTable(cells, isExact)),
    contrastPart(contrastOrder(found, cells)),
    isExact ? sourceOf(ctx, exactWords, exact) : sourceOf(ctx, words, bounds),
    isExact && bounds.status === 0 ? fold(ctx, "bounds", "Bounds of 18 digits", () => sourceOf(ctx, words, bounds)) : null,
    isExact ? null : h("p", {}, exact.fault.sentence));
}

function valuesTable(cells, isExact) {
  const hasCondition = cells.some((c) => c.given), isShort = (c) => !c.text.includes("/") || c.text.length <= MOST_DIGITS, hasShort = !isExact || cells.some(isShort);
  const head = ["when set", ...(hasCondition ? ["among"] : []), "outcome", "value", ...(hasShort ? [isExact ? "exact" : "bounds that hold"] : [])];
  const row = (c) => h("tr", {}, h("td", {}, c.x || "–"), hasCondition && h("td", {}, c.given), h("td", {}, c.y),
    h("td", { class: "number" }, c.value.toFixed(4)), hasShort && h("td", { class: "number", title: c.text }, isShort(c) ? c.text : "…"));
  return h("table", { class: "values" },
    h("thead", {}, h("tr", {}, head.map((text) => h("th", { scope: "col" }, text)))),
    h("tbody", {}, cells.map(row)));
}

/** @type {import("./parts.js").Card} */
export const data = { id: "data", title: "Data", about: "The size of the effect in your table, with intervals", answer };
