import { button, h, svg } from "../dom.js";
import { Diagram } from "../diagram/diagram.js";
import { summary } from "../diagram/describe.js";
import { DIAGRAM, SECOND } from "../names.js";
import { graphOf } from "../objects.js";
import { titleOf } from "../page/kept.js";
import { listed, sourceOf, verdict } from "./parts.js";

const WORDS = ["equivalent", DIAGRAM, SECOND];
const PAUSE_MS = 150;
const CONFOUNDED = 7; // of the faults of a question: a diagram has common hidden causes

/** @param {import("./parts.js").Context} ctx */
async function answer(ctx) {
  const { memory } = ctx;
  if (!memory.secondIs) memory.second = ctx.text; // else it is "chosen", or "typed", which stays when another diagram is opened
  if (memory.secondGiven !== memory.second) ctx.put(SECOND, (memory.secondGiven = memory.second));
  const [said, read] = await Promise.all([ctx.read(WORDS), ctx.read(["graph", SECOND])]);
  const second = read.fault ? null : graphOf(read.object), { difference } = said.object;
  const [own, other] = difference && second ? differenceMarks(difference, ctx.graph, second) : [{}, {}];
  const places = second && (await placesFor(ctx, second));
  return {
    dot: "", marks: own,
    view: () => h("div", {}, judged(said), secondHead(ctx, Boolean(second)), secondText(ctx),
      second && picture(second, places, other), sourceOf(ctx, WORDS, said)),
  };
}

/** The places of the first diagram where it has all the vertices, else a layout. */
async function placesFor(ctx, second) {
  const first = ctx.drawing.diagram.target, names = second.vertices.map((v) => v.name);
  if (names.every((name) => first.has(name))) return new Map(names.map((name) => [name, { ...first.get(name) }]));
  return ctx.places.arrange(second);
}

/** The first difference in each of the two drawings. */
function differenceMarks({ kind, vertices: names, in: graph }, first, second) {
  const vertices = new Map(names.map((name) => [name, "difference"]));
  const pairs = kind === "edge" ? [[names[0], names[1]]] : [[names[0], names[1]], [names[2], names[1]]];
  const shown = graph === "first" ? first : second;
  const joins = ([a, b]) => shown.edges.find((e) => (e.a === a && e.b === b) || (e.a === b && e.b === a));
  const edges = pairs.map(joins).filter(Boolean).map((e) => ({ ...e, cls: "difference" }));
  return [first, second].map((side) => ({ vertices, edges: side === shown ? edges : [] }));
}

function judged({ status, object, fault }) {
  if (status === 0) {
    return verdict("yes", "Equivalent", "Both join the same pairs and have the same unshielded colliders (Verma and "
      + "Pearl), and so imply the same separations.");
  }
  if (status === 1) {
    const { difference: { kind, vertices: names, in: graph }, separated_in: separatedIn, separation: { x, y, given } } = object;
    return verdict("no", "Not equivalent",
      kind === "edge" ? [`Only the ${graph} joins `, listed(names), ". "]
        : [`Only in the ${graph} do arrows meet at `, h("b", {}, names[1]), " from ",
          listed([names[0], names[2]]), ". "],
      listed(x), " and ", listed(y), given.length ? [" given ", listed(given)] : "",
      ` are separated in the ${separatedIn} alone.`);
  }
  if (fault.number === CONFOUNDED) {
    return verdict("ask", "Compare takes only diagrams without hidden causes", ...listed(fault.names), " have one in the ",
      fault.stage.startsWith("second") ? "second" : "first", ": two arrows out of what is unmeasured, or a ↔. Equivalence isn't decided with them.");
  }
  return verdict("ask", `${fault.stage?.startsWith("second") ? "Second diagram: " : ""}${fault.sentence}`,
    ...(fault.line ? [`At line ${fault.line}, column ${fault.column}.`] : []));
}

/** Where the second diagram comes from: the first, one of the user's, or the drawing, by a swap of the two. */
function secondHead(ctx, canSwap) {
  const { memory } = ctx, mine = ctx.kept().filter(({ text }) => text !== ctx.text);
  const choose = (text) => {
    Object.assign(memory, { second: text, secondIs: "chosen" });
    ctx.refresh();
  };
  const swap = async () => {
    await ctx.open(memory.second);
    Object.assign(memory, { second: ctx.text, secondIs: "typed" });
    ctx.refresh();
  };
  const list = h("select", { "aria-label": "Take one of your diagrams", data: { key: "take mine" }, onchange: (e) => choose(mine[e.target.value].text) },
    h("option", { value: "" }, "Yours …"), mine.map(({ name, text }, i) => h("option", { value: i }, name ? `${name}: ${titleOf(text)}` : titleOf(text))));
  return h("div", { class: "stack" }, h("b", {}, "The second diagram"), h("div", { class: "row wrap" },
    button("Copy from the first", () => choose(ctx.text), { data: { key: "copy first" } }), mine.length > 0 && list,
    canSwap && button("Swap the two", swap, { title: "Draw in the second; the first stands here then", data: { key: "swap" } })));
}

/** Made after the answers came, with what was typed meanwhile. */
function secondText(ctx) {
  let timer;
  const typed = (e) => {
    Object.assign(ctx.memory, { second: e.target.value, secondIs: "typed" });
    clearTimeout(timer);
    timer = setTimeout(ctx.refresh, PAUSE_MS);
  };
  const area = h("textarea", {
    class: "second", rows: 7, spellcheck: "false", "aria-label": "Text of the second diagram", data: { key: "second" },
    oninput: typed,
  });
  area.value = ctx.memory.second;
  return area;
}

function picture(graph, places, marks) {
  const drawing = svg("svg", { id: "second", role: "img", "aria-label": `The second diagram: ${summary(graph)}` });
  const diagram = new Diagram(drawing);
  diagram.draw(graph, places);
  diagram.mark(marks);
  requestAnimationFrame(() => diagram.fit());
  return h("div", { class: "second-drawing" }, drawing);
}

/** @type {import("./parts.js").Card} */
export const compare = { id: "compare", title: "Compare", about: "Whether two diagrams imply the same independences", answer };
