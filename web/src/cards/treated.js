// The effect among the treated: what the outcome would be among those for whom some value of the exposure was observed, had another been set.
import { hedgeVertices } from "../diagram/marks.js";
import { h } from "../dom.js";
import { DIAGRAM } from "../names.js";
import { edgesOf, lessIn, textOf } from "../objects.js";
import { listWord, pathText, termText } from "../text/printed.js";
import { hedgeParts } from "./hedge.js";
import { whatNext } from "./next.js";
import { fold, formulaBox, listed, refused, source, sourceOf, verdict } from "./parts.js";
import { notesOn } from "./signs.js";

/** What to do about a fault of this question alone, by its number. */
const TO_DO = {
  9: "Mark one exposure at a time, and give only what comes before it.",
  10: "Leave out variables that the question doesn't need.",
};

/** @param {import("./parts.js").Context} ctx @param {import("./kind.js").Kind} kind @param {string[]} given @param {() => Node[]} more */
export async function amongTheTreated(ctx, kind, given, more) {
  const words = ["treated", DIAGRAM, ...(given.length ? ["--given", listWord(given)] : [])], said = await ctx.read(words);
  if (said.fault) return refused(ctx, words, said, () => h("div", { class: "stack" }, kind.row(), more()), TO_DO[said.fault.number]);
  const { object } = said, found = { ctx, words, said, object, kind, more };
  if (said.status === 0) return { dot: "yes", view: () => formulaView(found), marks: { vertices: new Map(given.map((name) => [name, "chosen"])) } };
  const vertices = object.hedge ? hedgeVertices(object.hedge) : new Map([object.treatment, object.child].map((name) => [name, "from"]));
  return { dot: "no", view: () => noFormulaView(found), marks: { vertices, edges: confounding(object) } };
}

/** The arrow from a treatment to its child, and the path back, as the drawing marks them. */
const confounding = ({ treatment, child, path }) =>
  [{ a: treatment, b: child, both: false }, ...edgesOf(path)].map((edge) => ({ ...edge, cls: "open" }));

function formulaView({ words, object, kind, more }) {
  const { x: xs, y: ys, given, observed, effect } = object, among = given.length ? [" and given ", listed(given)] : "";
  const claim = xs.length
    ? ["What ", listed(ys), " would be among those for whom ", listed(observed), " was observed", among, ", had ", listed(xs), " been set: ", h("code", {}, effect),
      " equals this formula, if the diagram is right."]
    : ["No exposure is marked, so this is the plain distribution of ", listed(ys), among, "."];
  const signs = xs.map((name, i) => h("li", {}, h("b", {}, name), " is the value that is set, and ", h("b", {}, observed[i]), " the one that was observed of the same persons."));
  return h("div", {}, kind.row(),
    verdict("yes", "Identifiable", claim),
    formulaBox(object),
    h("ul", { class: "notes" }, signs, notesOn(object, xs, ys)),
    source(words, textOf(object)),
    ...more());
}

function noFormulaView({ ctx, words, said, object, kind, more }) {
  return h("div", {}, kind.row(),
    object.hedge ? excluded(object) : excludedByPath(object),
    fold(ctx, "next", "What would help", () => whatNext(ctx, words, false)),
    ...(object.hedge ? hedgeParts(object) : []),
    sourceOf(ctx, words, said),
    ...more());
}

/** Why the criterion gives no formula. */
const reason = ({ treatment, child, path }) => h("span", { class: "reason" }, h("b", {}, treatment), " acts on ", h("b", {}, child),
  ", and unmeasured common causes lead back from ", h("b", {}, child), " to ", h("b", {}, treatment), ": ", h("code", {}, pathText(path)), ". ");

const jointText = ({ joint }) => h("code", {}, termText({ term: joint.y, do: joint.x, given: [] }));

const excluded = (object) => verdict("no", "Not identifiable", reason(object), "No formula over what is observed equals ", h("code", {}, object.effect),
  ": two models fit the diagram and agree on all observations, but differ on ", jointText(object), ", which would follow from one.");

const excludedByPath = (object) => verdict("no", "Not identifiable", reason(object), "No formula over what is observed equals ", h("code", {}, object.effect),
  ": two models fit the diagram and agree on all observations, but differ on it. ", jointText(object), " itself has a formula",
  object.two_values ? ["; where ", h("b", {}, object.treatment), " has two values, ", h("code", {}, object.two_values), ", and Data has values"] : [], ".");

// ---- Over a table

/** That values are had by two values of the exposure, where no formula equals the effect. */
export const byTwoValues = ({ x }, equation) => verdict("warn", "Plug-in values", "No formula equals this effect, but the table has at most two values of ", listed(x), ", and ",
  h("code", {}, equation), ". So it is a difference of the table's proportions, without sampling error: the fewer had the other value, the farther it can be from the truth.");

/**
 * Why a table has no values among the treated.
 * @param {string[]} names in the order of the vertices @returns {{title: string, why: string}}
 */
export function noValuesAmong(object, names) {
  if (object.less) {
    const { effect, share } = lessIn(object, names);
    return { title: "No model of this diagram has these counts", why: `${effect} is less than ${share}, which can't be. So the diagram is wrong; or it is chance, where few records have these levels.` };
  }
  const { treatment, effect, two_values: twoValues } = object, why = `No formula over what is observed equals ${effect}: see Effect, among the treated.`;
  return { title: "Not identifiable", why: twoValues ? `${why} Two values of ${treatment} would do, but the table has more: join its levels above.` : why };
}
