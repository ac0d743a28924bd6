// Instruments for the effect: the program lists each measured variable with its minimal sets of strata.
import { button, h } from "../dom.js";
import { DIAGRAM } from "../names.js";
import { instrumentsIn } from "../objects.js";
import { written } from "../text/csv.js";
import { listWord, pathText } from "../text/printed.js";
import { BOUNDS } from "./formulas.js";
import { fold, listed, pathMarks, sourceOf, withRole } from "./parts.js";

const MOST_STRATA = 8; // sets of one variable
const ASKED = ["instruments", DIAGRAM, "--most", String(MOST_STRATA)];
const TABLE = "two_records.csv"; // the diagram alone decides why a variable is no instrument, and any records will do for the question

/** @typedef {import("../objects.js").Instrument} Instrument  @typedef {{name: string, open?: import("../objects.js").Path, moved?: string}} Other */

/** The part of a card that asks, when it is opened, and tells. @param {import("./parts.js").Context} ctx */
export function instrumentsPart(ctx) {
  const box = h("div", { class: "stack", id: "instruments" }, h("p", {}, "…"));
  ctx.read(ASKED).then(async (said) => box.replaceChildren(...(said.fault ? [h("p", {}, said.fault.sentence)] : await told(ctx, said))));
  return box;
}

async function told(ctx, said) {
  const { instruments, more, none } = instrumentsIn(said.object), goes = await Promise.all(instruments.map((one) => goesWithExposure(ctx, one)));
  const useful = instruments.filter((_, i) => goes[i]), idle = [...new Set(instruments.map(({ name }) => name))].filter((name) => !useful.some((one) => one.name === name));
  const others = idle.length + none.length > 0;
  return [
    h("p", {}, useful.length ? ["It goes with the outcome through ", listed(withRole(ctx, "exposure")), " alone. Take one for bounds over a table:"]
      : instruments.length ? "No variable is one that goes with the exposure." : "No variable is one, in any strata."),
    useful.length > 0 && h("div", { class: "chips", role: "group", "aria-label": "Instruments" },
      useful.map((one) => button(labelOf(one), () => use(ctx, one), { class: "chip", data: { key: `instrument ${labelOf(one)}` } }))),
    more.length > 0 && h("p", {}, listed(more), more.length > 1 ? " have" : " has", " more sets of strata than the ", String(MOST_STRATA), " that are listed."),
    others && fold(ctx, "no instruments", "Why the others aren't", () => reasonsPart(ctx, idle, none)),
    sourceOf(ctx, ASKED, said),
  ].filter(Boolean);
}

const labelOf = ({ name, strata }) => (strata.length ? `${name} given ${strata.join(", ")}` : name);

/** Asks for the bounds by an instrument. */
function use(ctx, { name, strata }) {
  Object.assign(ctx.memory.sets, { instrument: [name], strata });
  Object.assign(ctx.memory, { by: BOUNDS, boundSet: "" });
  ctx.show("data");
}

/** Whether it tells anything of the exposure. With one that doesn't, bounds are the same as without. */
async function goesWithExposure(ctx, { name, strata }) {
  const words = ["separate", DIAGRAM, "--x", listWord([name]), "--y", listWord(withRole(ctx, "exposure")), "--given", listWord(strata)];
  return (await ctx.read(words)).status === 1;
}

// ---- Those that are none

/** Why they are none: the program is asked when this is opened. */
function reasonsPart(ctx, idle, none) {
  const list = h("ul", {}, idle.map((name) => reason(ctx, { name })));
  whyNone(ctx, none).then((others) => list.append(...others.map((other) => reason(ctx, other))));
  return h("div", { class: "stack" }, list, none.length > 0 && h("p", { class: "small-print" }, "No strata make ", listed(none), none.length > 1 ? " instruments" : " an instrument",
    ". What is said here is why not, where nothing is given."));
}

/** What the program says against each of them. @returns {Promise<Other[]>} */
async function whyNone(ctx, names) {
  const { observed } = ctx, records = written([observed, observed.map(() => "0"), observed.map(() => "1")]);
  if (records !== ctx.memory.twoRecords) ctx.put(TABLE, (ctx.memory.twoRecords = records));
  const said = await Promise.all(names.map((name) => ctx.read(["bounds", DIAGRAM, TABLE, "--instrument", listWord([name])])));
  return names.map((name, i) => ({ name, open: said[i].object.open, moved: said[i].object.moved }));
}

/** Why a variable is none; its path is shown in the drawing while it has the pointer or the focus. */
function reason(ctx, { name, open, moved }) {
  const why = moved ? [": the exposure acts on it."] : open ? [": this path to the outcome doesn't go through the exposure: ", h("code", {}, pathText(open))]
    : [": it doesn't go with the exposure."];
  const marks = { edges: open ? pathMarks(open) : [], vertices: new Map([[name, moved ? "bad" : "from"]]) };
  const show = () => ctx.mark(marks), hide = () => ctx.mark();
  return h("li", { tabindex: 0, onpointerenter: show, onfocus: show, onpointerleave: hide, onblur: hide }, h("b", {}, name), why);
}
