import { button, h } from "../dom.js";
import { DIAGRAM } from "../names.js";
import { nodesIn, textOf } from "../objects.js";
import { experimentsWord } from "../text/printed.js";
import { trialsPart } from "./next.js";
import { fold, formulaBox, listed, refused, source, sourceOf, verdict } from "./parts.js";
import { chosenSet, howToChoose } from "./sets.js";

const MOST = 8;

/** @param {import("./parts.js").Context} ctx */
async function answer(ctx) {
  const { memory } = ctx, number = (memory.experiments ??= 1);
  const sets = Array.from({ length: number }, (_, i) => chosenSet(ctx, `experiment ${i}`, `Trial ${i + 1}`, []));
  const chosen = sets.map((set) => set.names).filter((names) => names.length);
  const pickers = () => choice(ctx, sets, chosen.length);
  if (!chosen.length) return { dot: "", view: () => h("div", {}, invitation(), pickers(), fold(ctx, "which trials", "Which trials would help", () => trialsPart(ctx))) };
  const words = ["surrogate", DIAGRAM, "--experiments", experimentsWord(chosen)], said = await ctx.read(words);
  const marks = { vertices: new Map(chosen.flat().map((name) => [name, "chosen"])) };
  if (said.fault) return { ...refused(ctx, words, said, pickers), marks };
  if (said.status === 1) return stopped(ctx, words, said, pickers);
  return { dot: "", marks, view: () => h("div", {}, pickers(), formulaView(words, said.object)) };
}

const invitation = () => verdict("ask", "Were other variables set in a trial?",
  "Choose what was set in each trial; all else was observed in it. A formula for the effect may then use it.");

/** The sets that were set in each trial. */
function choice(ctx, sets, chosen) {
  const add = () => {
    ctx.memory.experiments = sets.length + 1;
    ctx.refresh();
  };
  const canAdd = chosen === sets.length && sets.length < MOST;
  return h("div", { class: "stack" }, h("div", { class: "pickers" }, sets.map((set) => set.row())),
    canAdd ? h("p", {}, button("Another trial", add, { data: { key: "another trial" } })) : null, howToChoose());
}

function formulaView(words, formula) {
  const { effect, free } = formula, usesTrial = nodesIn(formula).some((node) => node.do?.length);
  return h("div", { class: "stack" },
    verdict("yes", usesTrial ? "A formula from these trials" : "A formula from observations alone", h("code", {}, effect),
      " equals it, if the diagram is right. A term with do(…) is read "
      + "off the trial that sets these variables; the others are observed."),
    formulaBox(formula),
    free.length ? h("p", {}, "The formula reads ", listed(free), ", yet its value doesn't depend on it: take any one level.") : null,
    source(words, textOf(formula)));
}

function stopped(ctx, words, said, pickers) {
  const { district, effect, hedge: { larger: big, smaller: small } } = said.object;
  const classes = [[big, "hedge-big"], [small, "hedge-small"]];
  return {
    dot: "",
    marks: { vertices: new Map(classes.flatMap(([names, cls]) => names.map((name) => [name, cls]))) },
    view: () => h("div", {}, pickers(),
      verdict("no", "No formula found from these trials", h("code", {}, effect), " can't be computed from observations "
        + "alone, and none of the trials gives the part of ", listed(district), ". That another way leads from them to "
        + "the effect isn't ruled out."),
      h("p", { class: "legendline" }, h("span", { class: "swatch hedge-big" }), "hedge ", listed(big),
        h("span", { class: "swatch hedge-small" }), "over ", listed(small)),
      sourceOf(ctx, words, said)),
  };
}

/** @type {import("./parts.js").Card} */
export const experiments = { id: "experiments", title: "Trials", wantsVariables: true, about: "Whether trials on other variables give a formula", answer };
