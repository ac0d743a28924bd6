// The paths between exposure and outcome, each open or closed, and by what. The program says whether any is open; what blocks a path is read
// off its vertices, with what the program tells of the ways to the set (walks.js).
import { h } from "../dom.js";
import { DIAGRAM } from "../names.js";
import { listWord, pathText } from "../text/printed.js";
import { pathsBetween, Walks } from "../walks.js";
import { Ways } from "../ways.js";
import { listed, refused, sourceOf, verdict, withRole } from "./parts.js";

const MOST = 100;
const TRIES = 200000;

/** @param {import("./parts.js").Context} ctx */
async function answer(ctx) {
  const [xs, ys, set] = ["exposure", "outcome", "adjusted"].map((role) => withRole(ctx, role));
  const words = ["separate", DIAGRAM, "--x", listWord(xs), "--y", listWord(ys), "--given", listWord(set)], said = await ctx.read(words);
  if (said.fault) return refused(ctx, words, said);
  const walks = new Walks(ctx.graph, set, await new Ways(ctx.askAbout, ctx.graph).before(set)), budget = { tries: TRIES };
  const found = xs.map((x) => pathsBetween(ctx.graph, x, ys, MOST, budget)), paths = found.flatMap((part) => part.paths);
  const rows = paths.map((path) => ({ path, isCausal: path.every(({ edge, from }) => !edge.both && edge.a === from), blocks: walks.blocks(path) }));
  return { dot: "", view: () => view({ ctx, words, said, set, isAll: found.every((part) => part.isAll), rows: rows.sort(inOrder) }) };
}

/** Causal paths first, then those that are open. */
const inOrder = (one, other) => other.isCausal - one.isCausal || Math.min(1, one.blocks.length) - Math.min(1, other.blocks.length) || one.path.length - other.path.length;

function view({ ctx, words, said, set, rows, isAll }) {
  const biasing = rows.filter(({ isCausal, blocks }) => !isCausal && !blocks.length).length, many = `${isAll ? "" : "The first "}${rows.length} ${rows.length === 1 ? "path" : "paths"}`;
  const given = set.length ? ["With ", listed(set), " adjusted for, "] : ["With nothing adjusted for, "];
  return h("div", {},
    verdict(biasing ? "warn" : "yes", many, ...given, said.status === 0 ? "none is open." : `${rows.filter(({ blocks }) => !blocks.length).length} open, of which ${biasing} `
      + `${biasing === 1 ? "isn't" : "aren't"} causal.`),
    h("table", { class: "paths" }, h("thead", {}, h("tr", {}, ["path", "kind", "is"].map((text) => h("th", { scope: "col" }, text)))),
      h("tbody", {}, rows.map((row) => pathRow(ctx, row)))),
    sourceOf(ctx, words, said));
}

function pathRow(ctx, { path, isCausal, blocks }) {
  const marks = { edges: path.map(({ edge }) => ({ ...edge, cls: "open" })), vertices: new Map(blocks.map(({ name }) => [name, "chosen"])) };
  const show = () => ctx.mark(marks), hide = () => ctx.mark();
  const text = pathText({ vertices: [path[0].from, ...path.map(({ to }) => to)], marks: path.map(({ edge, from }) => (edge.both ? "<->" : edge.a === from ? "->" : "<-")) });
  const why = ({ isCollider }) => (isCollider ? " (a collider)" : " (adjusted)"), kind = isCausal ? "causal" : "not causal";
  const by = blocks.map((block, i) => [i ? ", " : "", h("b", {}, block.name), why(block)]);
  const state = blocks.length ? `closed by ${blocks.map((block) => block.name + why(block)).join(", ")}` : "open";
  return h("tr", {
    tabindex: 0, onpointerenter: show, onfocus: show, onpointerleave: hide, onblur: hide, class: !isCausal && !blocks.length ? "differs" : null,
    "aria-label": `${text}: ${kind}, ${state}`,
  }, h("td", {}, h("code", {}, text)), h("td", {}, kind), h("td", {}, blocks.length ? ["closed by ", by] : "open"));
}

/** @type {import("./parts.js").Card} */
export const paths = { id: "paths", title: "Paths", wantsVariables: true, about: "All paths between exposure and outcome: open or closed, and by what", answer };
