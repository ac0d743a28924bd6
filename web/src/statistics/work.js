// What the worker computes beside the program's answers, in parts that are short enough for questions to come between.
import { boundsOf, saidOf, valuesOf } from "../objects.js";
import { drawn } from "./bootstrap.js";
import { nearly } from "./fraction.js";
import { testOf } from "./independence.js";
import { generator } from "./random.js";
import { csvOf } from "./table.js";

/** @typedef {import("./table.js").Table} Table */

/** The value of each cell, or what it is at least and at most. @returns {(number | [number, number])[]} */
const numbersOf = (object) => (object.answer === "bounds" ? boundsOf(object).map(({ low, high }) => [low, high].map(nearly)) : valuesOf(object).map((cell) => cell.value));

/**
 * The values of an effect over draws of a table, or its bounds: for each draw the program's, in the order of its cells, or null.
 * @param {{table: Table, count: string, from: number, draws: number, seed: number}} order
 * @param {(csv: string) => import("../runner.js").Answer} evaluate
 */
export function drawValues({ table, count, from, draws, seed }, evaluate) {
  const counts = table.cells.map((cell) => cell.count);
  return Array.from({ length: draws }, (_, i) => {
    const said = evaluate(csvOf(table, count, drawn(generator(seed + from + i), counts)));
    return said.status === 0 ? numbersOf(saidOf(said).object) : null;
  });
}

/** The tests of pairs. @param {{table: Table, pairs: {a: string, b: string, given: string[]}[], seed: number}} order */
export const testPairs = ({ table, pairs, seed }) => pairs.map((pair, i) => testOf(table, pair, { seed: seed + i }));
