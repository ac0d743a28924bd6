// Draws of a table with replacement, over which the worker asks the program: their progress, and the buttons that begin and stop them.
import { button, h } from "../dom.js";
import { countName } from "../statistics/table.js";
import { cellsOf } from "./table.js";

export const DRAWS = 1000;
const PART = 25; // draws in a message to the worker
const SOON_MS = 4000; // draws that take longer are made when they are asked for
export const SEED = 1;

/** @typedef {{ctx: import("./parts.js").Context, words: string[], name: string, table: import("../statistics/table.js").Table,
 *   count: string}} Order the draws of a table, which the words name */
/**
 * The draws that are made so far, each null where the program gives nothing; `left` are the milliseconds that the rest would take, where it was stopped.
 * @typedef {{values: any[], isReady: boolean, isRunning: boolean, isStopped: boolean, isAsked: boolean, left: number, heard: () => void,
 *   counted: () => void, isWanted: () => boolean}} Kept
 */

/** The draws of the table that was taken. @param {(name: string, count: string[]) => string[]} wordsOf @returns {Order} */
export function orderOf(ctx, wordsOf) {
  const table = cellsOf(ctx), count = countName(table.names), name = "draw.csv";
  return { ctx, name, table, count, words: wordsOf(name, [`--count=${count}`]) };
}

/**
 * What is shown of the draws, now and when they are there; under it their progress, or a button for them.
 * @param {Order} order @param {(kept: Kept) => Node[]} content @param {boolean} isAtOnce whether draws that are soon made aren't asked for
 */
export function drawsBox(order, content, isAtOnce) {
  const box = h("div", { class: "contrast" }), kept = keptDraws(order);
  const goOn = () => {
    kept.isAsked = true;
    draw(order, kept);
    show();
  };
  const time = () => (kept.left ? ` (about ${Math.max(1, Math.ceil(kept.left / 1000))} s)` : "");
  const under = () => (kept.isReady ? "" : kept.isRunning ? progress(kept) : button(`Intervals${time()}`, goOn, { id: "draw", data: { key: "draw" } }));
  const show = () => box.replaceChildren(...content(kept), under());
  kept.heard = () => box.isConnected && show();
  kept.isWanted = order.ctx.isShown;
  if (!kept.isReady && !kept.left && (isAtOnce || kept.isAsked)) draw(order, kept);
  show();
  return box;
}

/** How far the draws are, with a button that stops them. @param {Kept} kept */
function progress(kept) {
  const bar = h("progress", { max: DRAWS, "aria-label": "Draws that are made" }), words = h("span", { class: "number" });
  kept.counted = () => {
    bar.value = kept.values.length;
    words.textContent = `${kept.values.length} of ${DRAWS} draws`;
  };
  kept.counted();
  return h("div", { class: "row" }, bar, words, button("Stop", () => (kept.isStopped = true), { id: "stop", data: { key: "stop" } }));
}

const drawsOf = new Map(); // the last ones, by what they are of

/** @param {Order} order @returns {Kept} */
export function keptDraws({ ctx, words, table, name }) {
  const key = JSON.stringify([ctx.text, words, name, table]);
  if (!drawsOf.has(key)) {
    if (drawsOf.size > 8) drawsOf.delete(drawsOf.keys().next().value);
    drawsOf.set(key, { values: [], isReady: false, isRunning: false, isStopped: false, isAsked: false, left: 0, heard: () => {}, counted: () => {}, isWanted: () => true });
  }
  return drawsOf.get(key);
}

/** Draws until there are enough, or until it is seen that this takes long and wasn't asked for. @param {Order} order @param {Kept} kept */
export async function draw({ ctx, words, name, table, count }, kept) {
  if (kept.isRunning) return;
  Object.assign(kept, { isRunning: true, isStopped: false, left: 0 });
  const began = performance.now(), had = kept.values.length;
  while (kept.values.length < DRAWS && kept.isWanted()) {
    const part = await ctx.compute({ compute: "draws", words, name, table, count, from: kept.values.length, draws: PART, seed: SEED });
    if (!part.values) break; // the worker was given up for a newer question
    kept.values.push(...part.values);
    const left = ((performance.now() - began) / (kept.values.length - had)) * (DRAWS - kept.values.length);
    if (kept.isStopped || (!kept.isAsked && left > SOON_MS)) {
      kept.left = left;
      break;
    }
    kept.counted();
  }
  Object.assign(kept, { isRunning: false, isReady: kept.values.length >= DRAWS });
  kept.heard();
}
