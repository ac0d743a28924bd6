// What would help where there is no formula: one measurement, or one trial. The program is asked for each.
import { button, h } from "../dom.js";
import { AS_JSON, DIAGRAM } from "../names.js";
import { saidOf } from "../objects.js";
import { change, isSame, write } from "../text/edit.js";
import { experimentsWord } from "../text/printed.js";
import { listed, withRole } from "./parts.js";

/**
 * The part of a card that asks, when it is opened, and tells.
 * @param {import("./parts.js").Context} ctx @param {string[]} words those that gave no formula @param {boolean} hasTrials whether trials are asked for too
 */
export function whatNext(ctx, words, hasTrials = true) {
  const box = h("div", { class: "stack", id: "what-next" }, h("p", {}, "…"));
  Promise.all([measurements(ctx, words), hasTrials && trials(ctx, words)]).then(([measured, tried]) => {
    box.replaceChildren(...measuring(measured), ...(tried ? trying(ctx, tried) : []), h("p", { class: "small-print" }, "Each was asked of the program, one by one."));
  });
  return box;
}

/** The single measurements that would give a formula: of an unmeasured variable, or of a common hidden cause that has no name. */
async function measurements({ graph, text, askAbout }, words) {
  const hidden = graph.vertices.filter(({ role }) => role === "latent").map(({ name }) => ({ label: [name], text: change(text, new Map([[name, { role: null }]])) }));
  const arcs = graph.edges.filter((e) => e.both).map((e) => ({ label: ["the common cause of ", e.a, " and ", e.b], text: withCause(graph, e) }));
  const all = [...hidden, ...arcs], said = await Promise.all(all.map((one) => askAbout(one.text, [...words, AS_JSON])));
  return all.filter((_, i) => saidOf(said[i]).status === 0);
}

/** The diagram in which a common hidden cause is a measured variable. */
function withCause({ vertices, edges }, arc) {
  let name = `cause of ${arc.a} and ${arc.b}`;
  while (vertices.some((v) => v.name === name)) name += "'";
  const rest = edges.filter((e) => !isSame(e, arc)), causes = [arc.a, arc.b].map((b) => ({ a: name, b, both: false }));
  return write({ vertices: [...vertices, { name, role: null }], edges: [...rest, ...causes] }, new Map());
}

/** The variables of which one trial, with all else observed in it, would give a formula; that on the exposure always does. */
async function trials(ctx, words) {
  const [, , ...more] = words, not = [...withRole(ctx, "exposure"), ...withRole(ctx, "outcome")];
  if (more.includes("--given")) return [];
  const names = ctx.observed.filter((name) => !not.includes(name));
  const said = await Promise.all(names.map((name) => ctx.read(["surrogate", DIAGRAM, ...more.filter((word) => word !== "--short"), "--experiments", experimentsWord([[name]])])));
  return names.filter((_, i) => said[i].status === 0);
}

/** The trials that would help, where there is no formula: asked for when it is opened. */
export function trialsPart(ctx) {
  const box = h("div", { class: "stack", id: "which-trials" }, h("p", {}, "…")), words = ["identify", DIAGRAM];
  ctx.read(words).then(async (said) => box.replaceChildren(...(said.fault ? [h("p", {}, said.fault.sentence)]
    : said.status === 0 ? [h("p", {}, "None is needed: the effect has a formula without a trial.")] : trying(ctx, await trials(ctx, words)))));
  return box;
}

const measuring = (measured) => [
  h("p", {}, h("b", {}, "Measure"), measured.length ? " one of these, and there is a formula:" : ": no single measurement of what is hidden here gives a formula."),
  measured.length ? h("ul", {}, measured.map(({ label }) => h("li", {}, label.length > 1 ? [label[0], h("b", {}, label[1]), label[2], h("b", {}, label[3])] : h("b", {}, label[0])))) : "",
];

function trying(ctx, tried) {
  const take = (name) => {
    ctx.memory.experiments = 1;
    ctx.memory.sets["experiment 0"] = [name];
    ctx.show("experiments");
  };
  return [
    h("p", {}, h("b", {}, "A trial"), " that sets ", listed(withRole(ctx, "exposure")), " itself gives the effect. ", tried.length ? "So does one that sets one of these instead:"
      : "No trial on a single other variable was found to."),
    tried.length ? h("div", { class: "chips" }, tried.map((name) => button(name, () => take(name), { class: "chip", data: { key: `trial ${name}` } }))) : "",
  ];
}
