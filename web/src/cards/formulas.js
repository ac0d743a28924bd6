// How the formula is found that a table is put into: that of the effect, also under a condition, or the adjustment formula of a set; or that
// bounds are asked for in its place.
import { h } from "../dom.js";
import { isWithoutRecords } from "../faults.js";
import { DIAGRAM } from "../names.js";
import { levelsIn } from "../objects.js";
import { missingOf } from "../support.js";
import { listWord, setText } from "../text/printed.js";
import { chosenForm } from "./forms.js";
import { listed, withRole } from "./parts.js";
import { chosenSet, howToChoose } from "./sets.js";

const EFFECT = "", MARKED = "marked", CONDITION = "condition"; // beside these and the next, a printed set
export const TREATED = "treated";
export const BOUNDS = "bounds";

/**
 * A way to the formula: its name in the list, the words that `evaluate` is asked with, the words that print the formula, the set
 * that is adjusted for, and what is given.
 * @typedef {{by: string, label: string, words: string[], question: string[], set: string[] | null, given: string[]}} Way
 */
/** @typedef {{ways: Way[], way: Way, row: () => Node}} Choice */

/** The ways that there are, and the one that is chosen. @param {import("./parts.js").Context} ctx @returns {Promise<Choice>} */
export async function chosenFormula(ctx) {
  const { memory } = ctx, { sets = [] } = (await ctx.read(["adjust", DIAGRAM])).object;
  const others = [conditional(ctx, CONDITION, "under a condition"), amongTreated(ctx), conditional(ctx, BOUNDS, "none: at least and at most")];
  const ways = [ofEffect, ...sets.map(ofSet), ...markedWays(ctx, sets), ...others];
  const way = ways.find(({ by }) => by === memory.by) ?? ofEffect, form = way.set || [TREATED, BOUNDS].includes(way.by) ? null : await chosenForm(ctx, way.question);
  const picker = others.some(({ by }) => by === way.by) ? chosenSet(ctx, "condition", "Given", []) : null;
  return { ways, way: form ? inForm(way, form) : way, row: () => row(ctx, ways, way, picker, form) };
}

/** The way to a form of its formula. @param {Way} way @param {import("./forms.js").Form} form @returns {Way} */
const inForm = (way, { words, more }) => ({ ...way, words: [...way.words, ...more], question: words });

const ofEffect = { by: EFFECT, label: "of the effect", words: [], question: ["identify", DIAGRAM], set: null, given: [] };

function setWay(by, label, set, more = []) {
  const words = ["--set", listWord(set), ...more];
  return { by, label, words, question: ["adjust", DIAGRAM, ...words], set, given: [] };
}

const adjusting = (set) => `of adjusting for ${set.join(", ") || "nothing"}`;
const ofSet = (set) => setWay(setText(set), adjusting(set), set);

/** The set that is marked adjusted, by the criterion of the card of adjustment, where it is none of the minimal sets. */
function markedWays(ctx, minimal) {
  const set = withRole(ctx, "adjusted"), isListed = minimal.some((other) => other.join("\n") === set.join("\n"));
  if (!set.length || isListed) return [];
  const byBackDoor = ctx.memory.backDoor;
  return [setWay(MARKED, `${adjusting(set)} (${byBackDoor ? "marked; back door" : "marked"})`, set, byBackDoor ? ["--back-door"] : [])];
}

function conditional({ memory, observed }, by, label) {
  const given = observed.filter((name) => memory.sets.condition?.includes(name)), words = given.length ? ["--given", listWord(given)] : [];
  return { by, label, words, question: ["identify", DIAGRAM, ...words], set: null, given };
}

/** The way to the effect among the treated, which reads no zeros otherwise. */
function amongTreated(ctx) {
  const way = conditional(ctx, TREATED, "among the treated");
  return { ...way, words: [...way.words, "--treated"], question: ["treated", DIAGRAM, ...way.words] };
}

function row(ctx, ways, way, picker, form) {
  const choose = (e) => {
    Object.assign(ctx.memory, { by: e.target.value, armed: null });
    ctx.refresh();
  };
  const option = ({ by, label }) => h("option", { value: by, selected: by === way.by }, label);
  return h("div", { class: "stack" },
    h("label", { class: "count" }, "Formula ", h("select", { id: "by", data: { key: "by" }, onchange: choose }, ways.map(option))),
    picker && h("div", { class: "pickers" }, picker.row()), picker && howToChoose(),
    form?.choice(), form?.note && h("p", { class: "small-print" }, form.note));
}

// ---- Where some combination of levels has no record

/**
 * Which condition has no record, as a sentence; null where the fault is another.
 * @param {import("./parts.js").Context} ctx @param {Way} way @param {import("../faults.js").Fault} fault
 */
export async function withoutRecords(ctx, way, fault) {
  if (!isWithoutRecords(fault)) return null;
  // (the cell of a fault among the treated has the exposures' own names)
  if (way.by === TREATED) return ["A divisor is 0 at ", listed(levelsIn(fault.cell).map(({ name, level }) => `${name} = ${level || "(empty)"}`)), ": too few records are there."];
  const missing = missingOf(fault, (await ctx.read(way.question)).object);
  if (!missing) return [fault.sentence];
  const levels = listed(missing.at.map(({ name, level }) => `${name} = ${level || "(empty)"}`));
  return [
    ...(missing.term ? ["No record has ", levels, ", so the table says nothing of ", h("code", {}, missing.term), " there."]
      : ["The formula divides by a number that the table makes 0 at ", levels, "."]),
    ctx.memory.zero ? " Nothing that it is multiplied by is 0, so it still counts." : "",
  ];
}

/** Offers that zero cells count for nothing, where a condition has no record, and as long as it is so. */
export function zeroPart(ctx, isOffered) {
  const { memory } = ctx;
  if (!memory.zero && !isOffered) return null;
  const choose = (e) => {
    memory.zero = e.target.checked;
    ctx.refresh();
  };
  return h("div", { class: "stack" },
    h("label", { class: "tick-box" },
      h("input", { type: "checkbox", id: "zero", checked: memory.zero, data: { key: "zero" }, onchange: choose }), " zero cells count for nothing (--zero)"),
    h("p", { class: "small-print" }, "A product with a factor 0 is then 0, also where no record tells its other factors, and a sum leaves it out. "
      + "No record is made up, and a value that there is without this stays the same."));
}
