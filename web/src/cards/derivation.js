import { h } from "../dom.js";
import { typesetWhenSeen } from "../formula.js";
import { DIAGRAM } from "../names.js";
import { whenSeen } from "../seen.js";
import { derivationOf, lostEdges } from "../steps.js";
import { listWord } from "../text/printed.js";
import { commandOf, fold, listed } from "./parts.js";

/** @typedef {import("../steps.js").Step} Step  @typedef {import("../steps.js").Rule} Rule */

/** The steps of the certificate of an answer, each with its terms; each rule is asked of the program again. */
export function derivation(ctx, asked) {
  const box = h("div", {}, "…");
  ctx.ask([...asked, "--certificate"]).then(async ({ out }) => {
    const parts = await derivationOf(ctx, out);
    if (!parts) return box.replaceChildren("The program tells no steps of this certificate.");
    const isOne = parts.length === 1;
    box.replaceChildren(...parts.flatMap((part) => [
      ...(isOne ? [] : [h("h4", {}, part.lemma === null ? "The effect" : ["Part ", shown(`q_{${part.lemma}}`)])]),
      h("ol", { class: "steps" }, h("li", { class: "start" }, shown(part.start)),
        part.steps.map((step) => stepItem(ctx, step, part.lemma))),
    ]));
  });
  return box;
}

const shown = (tex, display) => typesetWhenSeen(tex, plain(tex), display);

/** LaTeX in letters alone, for a screen reader and until it is typeset. */
function plain(tex) {
  return tex.replace(/\\mathrm\{do\}/g, "do").replace(/ \\mid /g, " | ")
    .replace(/\\sum_\{([^}]*)\} /g, "sum over $1 of ")
    .replace(/\\(?:left|right)([()])/g, "$1").replace(/q_\{(\d+)\}/g, "q$1")
    .replace(/\\frac\{/g, "(").replace(/\}\{/g, ") / (").replace(/\}/g, ")").replace(/\\/g, "");
}

function stepItem(ctx, step, lemma) {
  const { number, before, after, rule, whole } = step;
  const parts = [h("span", { class: "words" }, inWords(step)),
    h("div", { class: "equation" }, shown(`${before} = ${after}`)),
    whole && fold(ctx, `whole ${lemma} ${number}`, "whole expression", () => shown(whole, true))];
  return h("li", {}, rule ? asksRule(ctx, step, parts) : parts);
}

/** A step by a rule: the rule's graph is drawn while it has the pointer or the focus. */
function asksRule(ctx, step, parts) {
  const { number, rule, graph } = step, asked = h("div", { class: "asked" });
  const show = () => ctx.mark(ruleMarks(rule, graph)), hide = () => ctx.mark();
  whenSeen(asked, () => askRule(ctx, step, asked));
  return h("div", {
    class: "asks", tabindex: 0, role: "group", "aria-label": `Step ${number}: ${inWords(step)}`,
    onpointerenter: show, onfocus: show, onpointerleave: hide, onblur: hide,
  }, parts, asked);
}

async function askRule(ctx, { rule, graph }, box) {
  const words = ruleWords(rule), [said, lost] = await Promise.all([ctx.read(words), lostEdges(ctx, graph)]);
  const holds = said.status === 0, seen = [...rule.doing, ...rule.given];
  box.replaceChildren(
    h("span", { class: holds ? "tick" : "cross" }, holds ? "✓ " : "✗ "),
    h("code", { title: commandOf(words) }, said.fault ? said.fault.sentence : judgementOf(said.object)),
    ...(holds ? [h("span", {}, ": no open path from ", listed(rule.y), " to ", listed(rule.z),
      seen.length ? ` given ${seen.join(", ")} ` : " ", inGraph(lost), ".")] : []),
  );
}

/** What is said of a rule, as it is printed. */
const judgementOf = ({ rule, answer, left, right }) => `rule ${rule} ${answer}: ${left} = ${right}`;

const MOST_LOST = 6; // edges that are named

/** Where a rule is asked, by the edges that its graph lacks. @param {import("../text/printed.js").Edge[]} lost */
export function inGraph(lost) {
  const named = lost.slice(0, MOST_LOST).map(({ a, b, both }) => `${a} ${both ? "↔" : "→"} ${b}`).join(", ");
  const more = lost.length > MOST_LOST ? ` and ${lost.length - MOST_LOST} more` : "";
  return lost.length ? `in the diagram without ${named}${more}` : "in the diagram";
}

/** The command line that asks for a rule. */
export const ruleWords = ({ n, y, z, doing, given }) => [
  "rule", DIAGRAM, "--rule", String(n), "--y", listWord(y), "--z", listWord(z), "--do", listWord(doing),
  "--given", listWord(given),
];

/**
 * The sets of a rule in the drawing, and the graph in which it is asked.
 * @param {Rule} rule @param {import("../text/printed.js").Graph | null} graph
 */
export function ruleMarks({ y, z, doing, given }, graph) {
  const classes = [[y, "from"], [z, "to"], [[...doing, ...given], "chosen"]];
  return {
    graph, vertices: new Map(classes.flatMap(([names, cls]) => names.map((name) => [name, cls]))),
  };
}

const sentence = (names) =>
  names.length > 1 ? `${names.slice(0, -1).join(", ")} and ${names[names.length - 1]}` : names[0];

/** One step in plain words. @param {Step} step */
export function inWords({ word, set, part }) {
  const z = sentence(set);
  return {
    rule1in: `Rule 1: having seen ${z} changes nothing here, so it may be observed too.`,
    rule1out: `Rule 1: having seen ${z} changes nothing here, so it may be left out.`,
    rule2see: `Rule 2: seeing ${z} says the same as setting it.`,
    rule2do: `Rule 2: setting ${z} says the same as seeing it.`,
    rule3in: `Rule 3: setting ${z} doesn't act on this, so it may be set too.`,
    rule3out: `Rule 3: setting ${z} doesn't act on this, so it may be left out.`,
    chain: "Chain rule: one factor per vertex, in the diagram's order.",
    unchain: "Chain rule backwards: the factors are one joint probability.",
    group: "The factors are put together by districts.",
    widen: `Total probability: sum over all values of ${z}.`,
    narrow: "The sum leaves a marginal probability.",
    split: "A conditional probability is a quotient.",
    cite: `This is the named part q${part}.`,
    unwrap: "Brackets of products are dropped.",
  }[word];
}
