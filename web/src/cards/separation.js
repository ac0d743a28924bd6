import { h } from "../dom.js";
import { DIAGRAM } from "../names.js";
import { listWord, pathText, setText } from "../text/printed.js";
import { listed, pathMarks, source, sourceOf, verdict, withRole } from "./parts.js";
import { chosenSet, howToChoose } from "./sets.js";

/** @param {import("./parts.js").Context} ctx */
async function answer(ctx) {
  const x = chosenSet(ctx, "x", "From", withRole(ctx, "exposure"));
  const y = chosenSet(ctx, "y", "To", withRole(ctx, "outcome"));
  const w = chosenSet(ctx, "given", "Given", withRole(ctx, "adjusted"));
  const words = ["separate", DIAGRAM, "--x", listWord(x.names), "--y", listWord(y.names), "--given", listWord(w.names)];
  const said = await ctx.read(words), { open: path } = said.object, sets = await separatingSets(ctx.read, x.names, y.names);
  const classes = [[x, "from"], [y, "to"], [w, "chosen"]];
  return {
    dot: "",
    marks: {
      edges: path ? pathMarks(path) : [],
      vertices: new Map(classes.flatMap(([set, cls]) => set.names.map((name) => [name, cls]))),
    },
    view: () => h("div", {}, h("div", { class: "pickers" }, x.row(), y.row(), w.row()), howToChoose(),
      judged(said, x, y, w), sourceOf(ctx, words, said), setsPart(ctx, sets, w)),
  };
}

const MOST_SETS = 100;

/**
 * The minimal sets that separate x from y. They are those of the adjustment criterion for an exposure from which no directed way leads
 * to the outcome, so one of the two orders gives them; the program's own test confirms each.
 * @param {(words: string[]) => Promise<import("../objects.js").Said>} read asks of a diagram @returns {Promise<{list: string[][], hasMore: boolean, words: string[]}>}
 */
export async function separatingSets(read, x, y) {
  for (const [from, to] of x.length && y.length ? [[x, y], [y, x]] : []) {
    const words = ["adjust", DIAGRAM, "--x", listWord(from), "--y", listWord(to), "--most", String(MOST_SETS)];
    const { sets: list = [], more } = (await read(words)).object;
    const test = (set) => read(["separate", DIAGRAM, "--x", listWord(x), "--y", listWord(y), "--given", listWord(set)]);
    const held = await Promise.all(list.map(test));
    if (list.length && held.every((said) => said.status === 0)) return { list, hasMore: more, words };
  }
  return { list: [], hasMore: false, words: [] };
}

/** The sets, each of which can be taken. */
function setsPart(ctx, { list, hasMore, words }, w) {
  if (!list.length) return null;
  const now = listWord(w.names), take = (set) => {
    ctx.memory.sets.given = set;
    ctx.refresh();
  };
  const marks = (set) => ({ vertices: new Map(set.map((name) => [name, "chosen"])) });
  const chip = (set) => h("button", {
    type: "button", class: "chip", data: { key: `separates ${setText(set)}` }, "aria-pressed": String(listWord(set) === now),
    onclick: () => take(set), onpointerenter: () => ctx.mark(marks(set)), onpointerleave: () => ctx.mark(),
    onfocus: () => ctx.mark(marks(set)), onblur: () => ctx.mark(),
  }, set.join(", ") || "∅ (nothing)");
  return h("div", { class: "stack" }, h("h3", {}, "Sets that separate them"),
    h("div", { class: "chips", role: "group", "aria-label": "Minimal separating sets" }, list.map(chip)),
    h("p", { class: "small-print" }, `${hasMore ? `The first ${list.length} sets` : "All sets"} from which nothing can be left out: since no `
      + "directed way leads from the first to the second, they are those of the adjustment criterion. The program's test confirms each."),
    source(words, ""));
}

function judged({ status, object, fault }, x, y, w) {
  if (status === 1) return verdict("no", "Not separated", "This path is open: ", h("code", {}, pathText(object.open)));
  if (!x.names.length || !y.names.length) return verdict("ask", `Choose ${x.names.length ? "To" : y.names.length ? "From" : "From and To"}`, "Marked exposures and outcomes stand there by themselves.");
  if (fault) return verdict("ask", fault.sentence);
  return verdict("yes", "Separated", "No path is open. If the diagram is right, ",
    listed(x.names), " and ", listed(y.names), " are independent",
    w.names.length ? [" given ", listed(w.names)] : "", ".");
}

/** @type {import("./parts.js").Card} */
export const separation = { id: "separation", title: "Separate", wantsVariables: true, about: "Whether variables are independent given others, and which path is open", answer };
