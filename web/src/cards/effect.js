import { h } from "../dom.js";
import { DIAGRAM } from "../names.js";
import { textOf } from "../objects.js";
import { listWord } from "../text/printed.js";
import { derivation } from "./derivation.js";
import { askedAhead, chosenForm } from "./forms.js";
import { hedge } from "./hedge.js";
import { certificateRow, fold, formulaBox, listed, refused, source, verdict, withRole } from "./parts.js";
import { instrumentsPart } from "./instruments.js";
import { ALL_KINDS, chosenKind } from "./kind.js";
import { throughMediators } from "./natural.js";
import { chosenSet, howToChoose } from "./sets.js";
import { notesOn } from "./signs.js";
import { amongTheTreated } from "./treated.js";

const IDENTIFY = ["identify", DIAGRAM];

/** @param {import("./parts.js").Context} ctx */
async function answer(ctx) {
  const given = chosenSet(ctx, "condition", "Given", []), { names } = given, kind = await chosenKind(ctx, ALL_KINDS), { isDirect } = kind;
  const asked = [...IDENTIFY, ...kind.words, ...(names.length ? ["--given", listWord(names)] : [])];
  const more = () => [condition(ctx, given, kind), ...(hasBoth(ctx) ? [fold(ctx, "instruments", "Instruments", () => instrumentsPart(ctx))] : [])];
  if (kind.id === "treated") return amongTheTreated(ctx, kind, names, more);
  if (kind.id === "through") return throughMediators(ctx, kind, names, more);
  const form = await chosenForm(ctx, asked), { words, said } = form;
  if (said.fault) return refused(ctx, words, said, () => (names.length || kind.id === "direct" ? h("div", { class: "stack" }, kind.row(), more()) : null));
  if (said.status === 1) return hedge(ctx, words, said.object, kind, ...more());
  const isUnchanged = !names.length && !isDirect && (await leavesUnchanged(ctx));
  return {
    dot: "yes", view: () => view({ ctx, form, given, kind, isUnchanged, more }),
    marks: { vertices: new Map([...names.map((name) => [name, "chosen"]), ...kind.also.map((name) => [name, "from"])]) },
  };
}

/** Whether setting the exposure leaves the outcome as it is: the third rule with nothing seen, which the program decides. */
async function leavesUnchanged(ctx) {
  const xs = withRole(ctx, "exposure"), ys = withRole(ctx, "outcome");
  if (!hasBoth(ctx)) return false;
  const sets = ["--y", listWord(ys), "--z", listWord(xs), "--do", "{}", "--given", "{}"];
  return (await ctx.read(["rule", DIAGRAM, "--rule", "3", ...sets])).status === 0;
}

const hasBoth = (ctx) => ["exposure", "outcome"].every((role) => withRole(ctx, role).length);

const ABOUT_CONDITION = {
  treated: "The effect among those of the treated who have the same values of these.",
  through: "The effects among those who have the same values of these, which come before the exposure.",
};

/** The choice of a condition: the effect among those with the same values of some variables. */
function condition(ctx, given, { id }) {
  const about = ABOUT_CONDITION[id] ?? "The effect among those who have the same values of these when the exposure is set.";
  return fold(ctx, "condition", "Given the values of other variables", () => h("div", { class: "stack" }, h("p", {}, about),
    h("div", { class: "pickers" }, given.row()), howToChoose()));
}

function view({ ctx, form, given, kind: { isDirect, doing: xs, row }, isUnchanged, more }) {
  const { words, said: { object: formula } } = form, ys = withRole(ctx, "outcome");
  const notes = [form.note && h("li", {}, form.note), ...notesOn(formula, xs, ys)].filter(Boolean);
  const among = given.names.length ? [" given ", listed(given.names)] : "";
  const claim = xs.length
    ? [isDirect ? "The effect of setting " : "The effect of ", listed(xs), " on ", listed(ys), among, ": ", h("code", {}, formula.effect),
      " equals this formula, if the diagram is right."]
    : ["No exposure is marked, so this is the plain distribution of ", listed(ys), among, "."];
  return h("div", {}, row(),
    verdict("yes", "Identifiable", claim),
    isUnchanged ? h("p", { class: "reason" }, "No directed path leads from ", listed(xs), " to ", listed(ys), ", so ", listed(ys),
      ys.length > 1 ? " aren't" : " isn't", " changed by ", listed(xs), ".") : null,
    formulaBox(formula, form.choice()),
    notes.length ? h("ul", { class: "notes" }, notes) : null,
    source(words, textOf(formula)),
    fold(ctx, "derivation", "Derivation in the do-calculus", () => derivation(ctx, words)),
    ...more(),
    certificateRow(ctx, words));
}

/** @type {import("./parts.js").Card} */
export const effect = {
  id: "effect", title: "Effect", about: "Whether the effect can be computed, by which formula, and why", hasDot: true, dotWords: { yes: "identifiable", no: "not identifiable" },
  ahead: askedAhead(IDENTIFY), answer,
};
