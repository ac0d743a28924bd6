// Differences and ratios of an effect's values, with intervals by the bootstrap. The values over the table and over each draw are
// the program's; the rest is computed here.
import { h } from "../dom.js";
import { intervalOf } from "../statistics/bootstrap.js";
import { DRAWS, SEED, draw, drawsBox, keptDraws } from "./draws.js";
import { zeroPart } from "./formulas.js";

const YES = /=(1|yes|true|success)$/i; // the outcome that is looked at first

/** @typedef {import("../objects.js").Cell} Cell */
/** @typedef {import("./draws.js").Order & {cells: Cell[], crude: Cell[], readsZeros: boolean}} Order with the values over the table itself */

/**
 * What is contrasted: what was chosen, as far as there is such a cell; nothing where the exposure has one value.
 * @param {{ctx: import("./parts.js").Context, cells: {y: string, x: string, given: string, hadIt?: boolean}[]}} order
 */
export function chosenContrast({ ctx: { memory }, cells }) {
  const settings = unique(cells.map((c) => c.x)), outcomes = unique(cells.map((c) => c.y)), groups = unique(cells.map((c) => c.given));
  if (settings.length < 2) return null;
  const now = memory.contrast ?? {}, pick = (value, list, other) => (list.includes(value) ? value : other);
  const y = pick(now.y, outcomes, outcomes.find((it) => YES.test(it)) ?? outcomes.at(-1)), a = pick(now.a, settings, settings[1]), b = pick(now.b, settings, settings[0]);
  // (of the treated those are taken that had the first value)
  return { y, a, b, among: pick(now.among, groups, cells.find((c) => c.hadIt && c.x === a)?.given ?? groups[0]) };
}

/** The part of a card that contrasts two values of the exposure. @param {Order} order */
export function contrastPart(order) {
  const choice = chosenContrast(order);
  if (!choice) return null;
  const results = (kept) => [table(order, choice, kept), says(order, kept)];
  return h("div", { class: "stack" }, h("h3", {}, "Difference and ratio"), contrastChoices(order, choice), drawsBox(order, results, true));
}

/** The choice of what is contrasted. */
export function contrastChoices({ ctx, cells }, choice) {
  const [outcomes, settings, groups] = ["y", "x", "given"].map((part) => unique(cells.map((c) => c[part]))), hasCondition = groups.length > 1 || groups[0];
  const choose = (key, label, list) => h("label", {}, label, " ", h("select", { data: { key: `contrast ${key}` }, onchange: (e) => {
    ctx.memory.contrast = { ...choice, [key]: e.target.value };
    ctx.refresh();
  } }, list.map((text) => h("option", { value: text, selected: text === choice[key] }, text))));
  return h("div", { class: "choices" }, choose("y", "of", outcomes), choose("a", "when set to", settings), choose("b", "against", settings),
    hasCondition && choose("among", "among", groups));
}

const unique = (list) => [...new Set(list)];

/**
 * The values that are contrasted with their differences and ratios: of the table, of its draws, and crude.
 * @param {Order} order @returns {{label: string, value: number, interval: [number, number] | null, crude: number}[]}
 */
function rowsOf({ cells, crude }, { y, a, b, among }, { values, isReady }) {
  const at = (x) => cells.findIndex((c) => c.y === y && c.x === x && c.given === among), [i, j] = [at(a), at(b)];
  const drawn = isReady ? values.filter(Boolean) : [], point = cells.map((c) => c.value);
  const beside = cells.map((c) => crude.find((other) => other.y === c.y && other.x === c.x)?.value ?? NaN), odds = (p) => p / (1 - p);
  const event = `P(${y}${among ? `|${among}` : ""})`;
  const measures = [
    [`${event} when ${a} is set`, (v) => v[i]], [`${event} when ${b} is set`, (v) => v[j]],
    ["risk difference", (v) => v[i] - v[j]], ["risk ratio", (v) => v[i] / v[j]], ["odds ratio", (v) => odds(v[i]) / odds(v[j])],
  ];
  return measures.map(([label, measure]) => ({
    label, value: measure(point), interval: isReady ? intervalOf(drawn.map(measure)) : null, crude: measure(beside),
  }));
}

/** The rows for a report, with the draws made. @param {Order} order */
export async function contrastRows(order) {
  const choice = chosenContrast(order), kept = keptDraws(order);
  if (!choice) return [];
  kept.isAsked = true;
  kept.isWanted = () => true;
  for (let tries = 0; !kept.isReady && tries < 600; tries++) {
    if (kept.isRunning) await new Promise((r) => setTimeout(r, 100));
    else await draw(order, kept);
    if (kept.isStopped) break;
  }
  return rowsOf(order, choice, kept);
}

export const intervalText = (interval) => (interval ? `${shown(interval[0])} to ${shown(interval[1])}` : "none");

function table(order, choice, { values, isReady, isRunning }) {
  const hasCrude = order.crude.length > 0, rows = rowsOf(order, choice, { values, isReady });
  const row = ({ label, value, interval, crude }) => h("tr", {}, h("th", { scope: "row" }, label), h("td", { class: "number" }, shown(value)),
    h("td", { class: "number" }, isReady ? intervalText(interval) : isRunning ? "…" : ""), hasCrude && h("td", { class: "number" }, shown(crude)));
  return h("div", { class: "stack" }, h("div", { class: "scroll" }, h("table", { class: "values contrasts" },
    h("thead", {}, h("tr", {}, ["", "value", "95% interval", ...(hasCrude ? ["crude"] : [])].map((text) => h("th", { scope: "col" }, text)))),
    h("tbody", {}, rows.map(row)))),
  hasCrude && h("p", { class: "small-print" }, "Crude: among those who have that value of the exposure, with nothing adjusted for."));
}

export const shown = (value) => (Number.isFinite(value) ? value.toFixed(4) : "none");

function says({ ctx, readsZeros }, { values, isReady }) {
  const lost = values.filter((v) => !v).length;
  return h("div", { class: "stack" },
    h("p", { class: "small-print" }, "Computed here, not proved: percentiles of ", `${DRAWS} draws of the table's records with replacement `
      + `(seed ${SEED}). Each draw's values are the program's. The intervals hold in about 95% of large samples, if the diagram is right.`,
      isReady && lost ? ` ${lost} draws had no value at some cell, and are left out.` : ""),
    isReady && lost && readsZeros && !ctx.memory.zero ? zeroPart(ctx, true) : null);
}
