// Other graphs that a diagram has: which variables go together, which do so given all others, and which arrows data can't direct. All is put
// together of the program's answers.
import { h } from "../dom.js";
import { AS_JSON, DIAGRAM, SECOND } from "../names.js";
import { saidOf } from "../objects.js";
import { reversed, turnable } from "../equivalence.js";
import { listWord } from "../text/printed.js";
import { plainText } from "../ways.js";
import { commandOf, source, verdict } from "./parts.js";

const VIEWS = [
  { id: "correlation", title: "Correlation", about: "Joined are the pairs that may go together when nothing else is looked at: no set is given, and some path is open." },
  { id: "moral", title: "Moral", about: "Joined are the pairs that may go together given all the others that are measured." },
  { id: "class", title: "Equivalent diagrams", about: "A line without a head may point either way: some diagram that implies the same independences has it the other way round. "
    + "The other arrows are the same in all of them." },
];

/** @param {import("./parts.js").Context} ctx */
async function answer(ctx) {
  const { memory } = ctx, now = VIEWS.find(({ id }) => id === memory.view) ?? VIEWS[0];
  const found = now.id === "class" ? await classOf(ctx) : await pairsOf(ctx, now.id === "moral");
  const graph = { vertices: ctx.graph.vertices.filter(({ name }) => ctx.observed.includes(name)), edges: [] };
  return { dot: "", marks: found.edges ? { graph, edges: found.edges } : {}, view: () => view(ctx, now, found) };
}

/** The pairs that aren't separated by the empty set, or by all others. */
async function pairsOf({ read, observed }, isGivenOthers) {
  const pairs = observed.flatMap((a, i) => observed.slice(i + 1).map((b) => [a, b]));
  const wordsFor = ([a, b]) => ["separate", DIAGRAM, "--x", listWord([a]), "--y", listWord([b]), "--given",
    listWord(isGivenOthers ? observed.filter((name) => name !== a && name !== b) : [])];
  const answers = await Promise.all(pairs.map((pair) => read(wordsFor(pair)))), joined = pairs.filter((_, i) => answers[i].status === 1);
  return {
    edges: joined.map(([a, b]) => ({ a, b, both: false, plain: true, cls: "joined" })), words: pairs.length ? wordsFor(pairs[0]) : null,
    told: `${joined.length} of ${pairs.length} pairs are joined`,
  };
}

/** The arrows that some equivalent diagram has the other way round: for each the page proposes one, and the program says whether it is. */
async function classOf(ctx) {
  const { graph } = ctx, words = ["equivalent", DIAGRAM, SECOND];
  if (graph.edges.some((e) => e.both) || graph.vertices.some(({ role }) => role === "latent")) {
    return { edges: null, words, told: "With common hidden causes or unmeasured variables the class isn't computed here." };
  }
  const plain = plainText(graph), loose = [];
  for (const edge of turnable(graph)) {
    const other = reversed(graph, edge);
    if (!other) continue;
    ctx.put(SECOND, plainText(other));
    if (saidOf(await ctx.askAbout(plain, [...words, AS_JSON])).status === 0) loose.push(edge);
  }
  ctx.memory.secondGiven = null; // the other diagram of Compare is given again when it is asked for
  return {
    edges: graph.edges.map((e) => (loose.includes(e) ? { ...e, plain: true, cls: "joined" } : { ...e, cls: "left" })), words,
    told: loose.length ? `${loose.length} of ${graph.edges.length} arrows may point either way` : "Every arrow is the same in all equivalent diagrams",
  };
}

function view(ctx, now, { edges, words, told }) {
  const tab = ({ id, title }) => h("button", {
    type: "button", role: "radio", "aria-checked": String(id === now.id), data: { key: `view ${id}` },
    onclick: () => {
      ctx.memory.view = id;
      ctx.refresh();
    },
  }, title);
  return h("div", {}, h("div", { class: "segments", role: "radiogroup", "aria-label": "Which graph" }, VIEWS.map(tab)),
    verdict(edges ? "yes" : "ask", told, edges ? now.about : ""),
    h("p", { class: "small-print" }, edges ? "The drawing shows it in the place of the diagram, while this card is open." : ""),
    words && (now.id === "class" ? h("p", { class: "small-print" }, "Each of these arrows was turned round in a diagram that ", h("code", {}, commandOf(words)),
      " calls equivalent; that the others can't be is by Meek's rules, and tested.") : source(words, "")));
}

/** @type {import("./parts.js").Card} */
export const views = { id: "views", title: "Views", wantsVariables: true, about: "The correlation graph, the moral graph and the class of equivalent diagrams", answer };
