// Natural direct and indirect effects: what the outcome would be under one value of the exposure, were mediators as under another.
import { h } from "../dom.js";
import { naturalMarks } from "../diagram/marks.js";
import { formula } from "../formula.js";
import { DIAGRAM } from "../names.js";
import { graphOf, linesOf } from "../objects.js";
import { naturalTex } from "../paper.js";
import { listWord, setText, termText } from "../text/printed.js";
import { hedgeParts } from "./hedge.js";
import { whatNext } from "./next.js";
import { fold, formulaBox, listed, refused, sourceOf, verdict } from "./parts.js";

/** What to do about a fault of this question alone, by its number. */
const TO_DO = {
  9: "Give only what comes before the exposure.",
  10: "Leave out variables that the question doesn't need.",
  11: "Press Through, then click the mediators in the drawing; or take them from the list.",
};

/** @param {import("./parts.js").Context} ctx @param {import("./kind.js").Kind} kind @param {string[]} given @param {() => Node[]} more */
export async function throughMediators(ctx, kind, given, more) {
  const words = ["natural", DIAGRAM, "--through", listWord(kind.through), ...(given.length ? ["--given", listWord(given)] : [])], said = await ctx.read(words);
  if (said.fault) return refused(ctx, words, said, () => h("div", { class: "stack" }, kind.row(), more()), TO_DO[said.fault.number]);
  const { object } = said, found = { ctx, words, said, object, kind, more }, isFormula = said.status === 0, isReadTwice = !isFormula && !object.hedge;
  const projected = isReadTwice ? graphOf((await ctx.read(["graph", DIAGRAM, "--project"])).object) : null; // how the program joins what is observed
  return { dot: isFormula ? "yes" : "no", view: () => (isFormula ? formulaView(found) : noFormulaView(found)), marks: naturalMarks(object, projected) };
}

// ---- As it is told

/** What the other value of the exposure is called, and what is asked for. */
function asked({ y, x, through, given, second, effect }) {
  return ["what ", listed(y), " would be, had ", listed(x), " been set, but were ", listed(through), " as ", through.length > 1 ? "they" : "it", " would be under ", listed(second),
    ", another value of the exposure", given.length ? [", given ", listed(given)] : "", ": ", h("code", {}, effect)];
}

function formulaView({ ctx, words, said, object, kind, more }) {
  return h("div", {}, kind.row(),
    verdict("yes", "Identifiable", "This is ", asked(object), ". It equals this formula, if the diagram is right."),
    formulaBox(object, null, naturalTex(object)),
    contrasts(object), nilPart(object),
    h("h3", {}, "Its factors"), factorsPart(object),
    sourceOf(ctx, words, said),
    ...more());
}

/** Which two contrasts the natural effects are. */
function contrasts({ y, x, second, given, effect }) {
  const set = (value) => h("code", {}, termText({ term: y, do: value, given }));
  return h("ul", { class: "notes" },
    h("li", {}, "The ", h("b", {}, "natural direct effect"), " is ", h("code", {}, effect), " compared with ", set(second), ": the exposure changes, and the mediators stay."),
    h("li", {}, "The ", h("b", {}, "natural indirect effect"), " is ", set(x), " compared with ", h("code", {}, effect), ": the mediators alone change."),
    h("li", {}, "Both speak of two values of the exposure in one person, which no experiment shows. Setting the mediators too (Direct effect) asks for less."));
}

/** What is nil, whatever the values and the model are. */
function nilPart({ x, y, through, indirect, direct }) {
  const nil = (way, what) => h("li", {}, "No directed path leads from ", listed(x), ` ${way} `, listed(through), " to ", listed(y), `: the ${what} effect is nil.`);
  const told = [!indirect && nil("through", "indirect"), !direct && nil("past", "direct")].filter(Boolean);
  return told.length ? h("ul", { class: "notes" }, told) : null;
}

/** A factor for each district: by which value of the exposure it goes, and its formula. */
function factorsPart({ x, second, summed, given, factors }) {
  const reads = (names) => (names.length ? [" reads ", listed(names)] : [" reads no exposure"]);
  const factor = (one) => h("li", {}, h("code", {}, setText(one.district)), reads(one.reads), ":",
    h("div", { class: "formula" }, formula(one.latex.split("\n"), linesOf(one))));
  return h("div", { class: "stack" },
    h("p", {}, "A factor for each district (variables that common hidden causes join): the effect of all others on it. ", listed(x), " stands for one value of the exposure, and ", listed(second),
      " for the other.", summed.length ? [" Their product is summed over ", listed(summed), given.length ? [", and divided by P(", given.join(", "), ")"] : "", "."] : ""),
    h("ul", { class: "factors" }, factors.map(factor)));
}

// ---- Where there is no formula

function noFormulaView({ ctx, words, said, object, kind, more }) {
  return h("div", {}, kind.row(),
    object.hedge ? excluded(object) : readTwice(object), nilPart(object),
    fold(ctx, "next", "What would help", () => whatNext(ctx, words, false)),
    ...(object.hedge ? hedgeParts(object) : []),
    sourceOf(ctx, words, said),
    ...more());
}

const jointText = ({ joint }) => h("code", {}, termText({ term: joint.y, do: joint.x, given: [] }));

const excluded = (object) => verdict("no", "Not identifiable", "No formula over what is observed equals ", h("code", {}, object.effect),
  ", not even where both values of the exposure are one: two models fit the diagram and agree on all observations, but differ on ", jointText(object), ".");

function readTwice(object) {
  return verdict("no", "Not identifiable", reason(object), "It is proved that two models fit the diagram and agree on all observations, but differ on ", h("code", {}, object.effect),
    ": so no formula equals it. ", jointText(object), " itself has one.");
}

/** What would have to be under both values of the exposure at once. */
function reason({ x, y, through, second, treatment, witness, district, direct_child: direct, indirect_child: indirect }) {
  const both = [listed([treatment]), " and ", listed([second[x.indexOf(treatment)]])];
  if (witness) {
    return h("span", { class: "reason" }, h("b", {}, witness), " is a recanting witness: ", listed([treatment]), " acts on it, and from it ways lead to ", listed(y), " both through ", listed(through),
      " and past ", through.length > 1 ? "them" : "it", ". So ", h("b", {}, witness), " would have to be as under ", both, " at once. ");
  }
  return h("span", { class: "reason" }, "Common hidden causes join ", listed(district), ", and there ", listed([treatment]), " acts on ", h("b", {}, direct), " for what goes past ", listed(through), ", and on ", h("b", {}, indirect),
    " for what goes through ", through.length > 1 ? "them" : "it", ". So these would have to be as under ", both, " at once. ");
}
