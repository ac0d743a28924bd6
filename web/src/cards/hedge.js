import { h } from "../dom.js";
import { hedgeMarks, linksOf } from "../diagram/marks.js";
import { route } from "../diagram/route.js";
import { bitsOf, sumText } from "../objects.js";
import { termText } from "../text/printed.js";
import { whatNext } from "./next.js";
import { certificateRow, fold, listed, source, verdict } from "./parts.js";

const MOST_DIGITS = 12;

/**
 * A hedge in the drawing, with both models as tables and the two effects; below it further parts.
 * @param {any} object of `identify`
 * @param {import("./kind.js").Kind} asked which effect is asked for
 */
export function hedge(ctx, words, object, asked, ...more) {
  return { dot: "no", view: () => view(ctx, words, object, asked, more), marks: hedgeMarks(object.hedge) };
}

function view(ctx, words, object, { row }, more) {
  const { joint } = object, isAsked = object.given.length > 0;
  const effect = termText({ term: joint.y, do: joint.x, given: [] });
  return h("div", {}, row(),
    verdict("no", "Not identifiable", plainReason(ctx.graph, linksOf(object.hedge)), "What is observed doesn't settle ", h("code", {}, effect),
    ": two models fit the diagram, agree on all observations, and differ on it. So no formula over what is "
      + "observed equals it in both.",
    isAsked ? [" Nor does any formula equal ", h("code", {}, object.effect), DIFFER[object.settled] ?? "", "."] : ""),
    fold(ctx, "next", "What would help", () => whatNext(ctx, words)),
    ...hedgeParts(object),
    source(words, () => ctx.print(words)),
    certificateRow(ctx, words), ...more);
}

/** The sets of a hedge, and its two models. */
export function hedgeParts({ joint, models, hedge: { larger, smaller, roots } }) {
  return [
    h("p", { class: "legendline" }, h("span", { class: "swatch hedge-big" }), "hedge ", listed(larger),
      h("span", { class: "swatch hedge-small" }), "over ", listed(smaller), "; roots ", listed(roots)),
    eventTable(models.event, joint.x),
    h("div", { class: "scroll" }, modelsTable(models)),
    h("p", { class: "small-print" }, "h and k are bits that a vertex carries; + is addition without carry (1 + 1 = 0). "
      + "Hidden causes, each 0 or 1: ", models.causes.map(causeText), "."),
  ];
}

/** Which models show it of the effect that was asked for. */
const DIFFER = {
  true: ": the same two models differ on it too",
  false: ": two other models differ on it, which aren't shown",
};

const MOST_NAMED = 3;

/** Which hidden causes the hedge rests on, by the names that the drawing has for them. */
function plainReason(graph, links) {
  if (!links.length) return null;
  const hidden = new Set(graph.vertices.filter((v) => v.role === "latent").map((v) => v.name));
  const named = (link) => [...new Set((route(graph, link) ?? []).flatMap((e) => [e.a, e.b]))].filter((name) => hidden.has(name));
  const one = (link, i) => {
    const names = named(link), ends = listed([link.a, link.b]);
    const lead = names.length ? ["unmeasured ", listed(names)] : ["an unmeasured cause"];
    return [i ? "; " : "", lead, names.length > 1 ? " act on both " : " acts on both ", ends];
  };
  const shown = links.slice(0, MOST_NAMED).map(one), left = links.length - MOST_NAMED;
  return h("span", { class: "reason" }, capital(shown), left > 0 ? ` (and ${left} more)` : "", ", and nothing that is measured breaks ",
    links.length > 1 ? "them. " : "it. ");
}

/** The parts of a sentence, with a capital at its beginning. */
function capital([first, ...rest]) {
  const [join, [head, ...more], ...end] = first;
  return [[join, [head[0].toUpperCase() + head.slice(1), ...more], ...end], ...rest];
}

const causeText = ({ acts_on: on, weights }, i) => [
  i ? "; " : "", h("code", {}, `c${i}`), ` acts on ${on.join(" and ")}, weights ${weights.join(" to ")}`,
];

function eventTable(event, xs) {
  const power = Number(event.second.split("^")[1]), second = 0.5 + 0.5 ** power; // 1/2 + 1/2^power
  const row = (label, text, value) => h("tr", {}, h("th", { scope: "row" }, label), h("td", {}, text),
    h("td", {}, h("span", { class: "meter", "aria-hidden": "true" }, h("span", { style: `width:${100 * value}%` }))));
  return h("table", { class: "event" },
    h("caption", {}, "Probability that ", h("code", {}, sumText(event.sum)), " is even, when ", listed(xs),
      xs.length > 1 ? " are set" : " is set"),
    h("tbody", {}, row("first model", "1/2", 0.5),
      row("second model", ["1/2 + 1/2", h("sup", {}, power), power < MOST_DIGITS ? ` = ${second}` : ""], second)));
}

function modelsTable(models) {
  const head = ["bit", "first model", "second model"].map((text) => h("th", { scope: "col" }, text));
  const rows = [...bitsOf(models)].map(([bit, { first, second }]) =>
    h("tr", { class: first === second ? null : "differs" }, h("th", { scope: "row" }, bit), h("td", {}, first),
      h("td", {}, second)));
  return h("table", { class: "models" }, h("caption", {}, "The two models, bit by bit"),
    h("thead", {}, h("tr", {}, head)), h("tbody", {}, rows));
}
