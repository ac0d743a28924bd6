// What a report says: the diagram, the sets, the formula with its derivation, assumptions, tests and effects, all by the program's answers.
import { inWords } from "../cards/derivation.js";
import { contrastRows, intervalText, shown } from "../cards/contrast.js";
import { boundsParts } from "../cards/bounds.js";
import { measured } from "../cards/data.js";
import { TREATED } from "../cards/formulas.js";
import { impliedPairs, part } from "../cards/implications.js";
import { commandOf, withRole } from "../cards/parts.js";
import { chosenForm } from "../cards/forms.js";
import { ALL_KINDS, chosenKind } from "../cards/kind.js";
import { DIAGRAM } from "../names.js";
import { exprTex, formulaLines, naturalLines } from "../paper.js";
import { derivationOf } from "../steps.js";
import { listWord, pathText, termText } from "../text/printed.js";

/**
 * A part of a report: a paragraph, lines of LaTeX, a list, a table, steps of a derivation, or a text as it is.
 * @typedef {{text?: string, formula?: string[], list?: string[], table?: {head: string[], rows: string[][]}, steps?: {words: string, tex: string}[],
 *   code?: string, picture?: boolean}} Part
 */
/** @typedef {{title: string, sections: {title: string, parts: Part[]}[]}} Report */

const MOST_LISTED = 60;
const IDENTIFY = ["identify", DIAGRAM];

const names = (list) => list.join(", ") || "none";

/** @param {import("../cards/parts.js").Context} ctx @param {string} title @returns {Promise<Report>} */
export async function gather(ctx, title) {
  const sections = [
    { title: "Diagram", parts: diagramPart(ctx) },
    { title: "Assumptions", parts: assumptions(ctx) },
    { title: "Adjustment", parts: await adjustmentPart(ctx) },
    ...(await effectSections(ctx)),
    { title: "Independences", parts: await independences(ctx) },
    { title: "Values from the table", parts: await valuesPart(ctx) },
    { title: "Text of the diagram", parts: [{ code: ctx.text.trim() }] },
  ];
  return { title, sections: sections.filter(({ parts }) => parts.length) };
}

function diagramPart(ctx) {
  const role = (title, of) => (withRole(ctx, of).length ? [`${title}: ${names(withRole(ctx, of))}.`] : []);
  return [
    { picture: true },
    { list: [...role("Exposure", "exposure"), ...role("Outcome", "outcome"), ...role("Adjusted for", "adjusted"), ...role("Unmeasured", "latent")] },
  ];
}

function assumptions({ graph: { vertices, edges } }) {
  const arrows = edges.filter((e) => !e.both), arcs = edges.filter((e) => e.both);
  const joined = new Set(edges.flatMap(({ a, b }) => [JSON.stringify([a, b]), JSON.stringify([b, a])]));
  const left = vertices.flatMap((v, i) => vertices.slice(i + 1).filter((w) => !joined.has(JSON.stringify([v.name, w.name]))).map((w) => `${v.name} and ${w.name}`));
  const more = left.length > MOST_LISTED ? ` and ${left.length - MOST_LISTED} more pairs` : "";
  return [
    { text: `${vertices.length} variables, ${arrows.length} arrows and ${arcs.length} common hidden causes are drawn. What isn't drawn is assumed not to be.` },
    ...(left.length ? [{ text: `No arrow and no common hidden cause joins: ${left.slice(0, MOST_LISTED).join("; ")}${more}.` }] : []),
  ];
}

async function adjustmentPart(ctx) {
  const adjusted = withRole(ctx, "adjusted"), [said, tested] = await Promise.all([ctx.read(["adjust", DIAGRAM]), ctx.read(["adjust", DIAGRAM, "--set", listWord(adjusted)])]);
  if (said.fault) return [{ text: said.fault.sentence }];
  const { sets, more } = said.object, { open, forbidden } = tested.object;
  const judged = tested.status === 0 ? "is admissible." : open ? `isn't admissible: this path stays open: ${pathText(open)}.`
    : forbidden ? `isn't admissible: ${forbidden} lies on a way from the exposure to the outcome, or behind one.` : "isn't judged.";
  return [
    { text: sets.length ? `Minimal sets that meet the adjustment criterion${more ? " (there are more)" : ""}:` : "No set meets the adjustment criterion." },
    ...(sets.length ? [{ list: sets.map((set) => set.join(", ") || "nothing has to be adjusted for") }] : []),
    { text: `The set that is marked adjusted (${names(adjusted)}) ${judged}` },
    { code: commandOf(["adjust", DIAGRAM]) },
  ];
}

/** The total effect; and the one that is chosen under Effect, where that is another. */
async function effectSections(ctx) {
  const kind = await chosenKind(ctx, ALL_KINDS), given = ctx.observed.filter((name) => ctx.memory.sets.condition?.includes(name));
  const condition = given.length ? ["--given", listWord(given)] : [], among = given.length ? ` given ${names(given)}` : "";
  const total = { title: "Effect", parts: await identified(ctx, IDENTIFY) };
  if (kind.id === "treated") return [total, { title: `Effect among the treated${among}`, parts: await counterfactual(ctx, ["treated", DIAGRAM, ...condition], formulaLines) }];
  if (kind.id === "through") {
    const words = ["natural", DIAGRAM, "--through", listWord(kind.through), ...condition];
    return [total, { title: `Effects through ${names(kind.through)}${among}`, parts: await counterfactual(ctx, words, naturalLines) }];
  }
  if (!kind.isDirect && !given.length) return [total];
  const title = kind.isDirect ? `Direct effect, where ${names(kind.also)} ${kind.also.length > 1 ? "are" : "is"} set too${among}` : `Effect${among}`;
  return [total, { title, parts: await identified(ctx, [...IDENTIFY, ...kind.words, ...condition]) }];
}

const hedgeText = ({ larger, smaller }) => `The hedge: ${names(larger)} over ${names(smaller)}.`;

/** What `identify` says, with the derivation of its formula. */
async function identified(ctx, asked) {
  const { words, said } = await chosenForm(ctx, asked), { object } = said;
  if (said.fault) return [{ text: said.fault.sentence }];
  if (said.status === 1) {
    const why = object.given.length ? "no formula over what is observed equals it." : "two models fit the diagram, agree on all that is observed, and differ on it.";
    return [{ text: `${object.effect} isn't identifiable: ${why} ${hedgeText(object.hedge)}` }, { code: commandOf(words) }];
  }
  const derived = await derivationOf(ctx, (await ctx.ask([...words, "--certificate"])).out);
  const steps = (derived ?? []).flatMap(({ lemma, steps: list }) => list.map((step) => ({
    words: `${lemma === null ? "" : `For q${lemma}. `}${inWords(step)}`, tex: `${exprTex(step.trees[0])} = ${exprTex(step.trees[1])}`,
  })));
  return [
    { text: "The effect is identified: under the diagram it equals this formula." }, { formula: formulaLines(object) },
    ...(object.free.length ? [{ text: `The formula reads ${names(object.free)} at any one level: its value doesn't depend on it.` }] : []),
    ...(steps.length ? [{ text: "Derivation by the rules of do-calculus:" }, { steps }] : []),
    { code: commandOf(words) },
  ];
}

/** What is said of the treated, or of natural effects, whose formulas have no derivation. @param {(object: any) => string[]} linesOf */
async function counterfactual(ctx, words, linesOf) {
  const { status, object, fault } = await ctx.read(words), code = { code: commandOf(words) };
  if (fault) return [{ text: fault.sentence }, code];
  if (status === 0) return [{ text: "It is identified: under the diagram it equals this formula." }, { formula: linesOf(object) }, code];
  if (!object.hedge) return [{ text: `${object.effect} isn't identifiable: two models fit the diagram and agree on all that is observed, but differ on it.` }, code];
  const joint = termText({ term: object.joint.y, do: object.joint.x, given: [] });
  return [{ text: `${object.effect} isn't identifiable: two models fit the diagram and agree on all that is observed, but differ on ${joint}, which would follow from a formula. ${hedgeText(object.hedge)}` }, code];
}

async function independences(ctx) {
  const { said, pairs, tests, rejected } = await impliedPairs(ctx);
  if (said.fault || !pairs.length) return [{ text: said.fault ? said.fault.sentence : "The diagram demands no independence of what is observed." }];
  const row = ({ a, b, given, test }) => [`${a} and ${b}`, given.join(", ") || "–", ...(tests ? [part(test?.p), part(test?.adjusted)] : [])];
  return [
    { text: tests ? `${rejected.length} of ${[...tests.values()].filter(({ p }) => p !== null).length} tested independences are rejected at 0.05, by G² with Holm's correction `
      + `(${ctx.memory.table.name}). Tests are computed by the page, and not proved.` : "If the diagram is right, each pair is independent given the set beside it." },
    { table: { head: ["pair", "given", ...(tests ? ["p", "Holm"] : [])], rows: pairs.slice(0, 200).map(row) } },
  ];
}

async function valuesPart(ctx) {
  const found = await measured(ctx);
  if (!found) return [];
  const { csv, table } = ctx.memory, read = table.reading.leavesOut && csv.incomplete ? `, ${csv.incomplete} of ${csv.all} rows with missing values left out` : "";
  if (found.none) return [{ text: `Over ${table.name}${read}. ${found.none.title}: ${found.none.why}` }];
  if (found.asked) return [{ text: `Over ${table.name}${read}.` }, ...boundsParts(found.asked), { code: commandOf(found.asked.words) }];
  if (!found.order) {
    const { fault, instead } = found, bounds = instead ? [...boundsParts(instead), { code: commandOf(instead.words) }] : [];
    return [{ text: `The table ${table.name}${read} gives no value${fault ? `: ${fault.sentence}` : "."}` }, ...bounds];
  }
  const rows = await contrastRows(found.order), hasCrude = found.order.crude.length > 0, hasGroups = found.order.cells.some((c) => c.given);
  return [
    { text: `Plug-in values of the ${found.way.by === TREATED ? "effect" : "formula"} ${found.way.label} over ${table.name}${read}. Intervals are percentiles of 1000 draws of the records with replacement; they are computed by the page, and not proved.` },
    { table: { head: ["when set", ...(hasGroups ? ["among"] : []), "outcome", "value"],
      rows: found.order.cells.map((c) => [c.x || "–", ...(hasGroups ? [c.given] : []), c.y, shown(c.value)]) } },
    ...(rows.length ? [{ table: { head: ["", "value", "95% interval", ...(hasCrude ? ["crude"] : [])],
      rows: rows.map(({ label, value, interval, crude }) => [label, shown(value), intervalText(interval), ...(hasCrude ? [shown(crude)] : [])]) } }] : []),
  ];
}
