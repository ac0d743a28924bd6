// Tests of an independence over counts. All of it is computed; nothing is proved.
import { generator, hypergeometric, logGamma } from "./random.js";

/** @typedef {import("./table.js").Table} Table */
/** @typedef {{given: number[], rows: number[][]}} Stratum the counts of two variables at a level of what is given */

const sumOf = (list) => list.reduce((sum, x) => sum + x, 0);
const sums = (rows) => [rows.map(sumOf), rows[0].map((_, j) => sumOf(rows.map((row) => row[j])))];
const degreesOf = ({ rows }) => (rows.length - 1) * (rows[0].length - 1);

/** The counts of a and b at each level of what is given, without rows and columns that have no records. @returns {Stratum[]} */
export function strataOf(/** @type {Table} */ { names, cells }, a, b, given) {
  const [i, j] = [names.indexOf(a), names.indexOf(b)], others = given.map((name) => names.indexOf(name)), strata = new Map();
  for (const { at, count } of cells) {
    if (!count) continue;
    const key = others.map((k) => at[k]).join(), pair = `${at[i]},${at[j]}`;
    if (!strata.has(key)) strata.set(key, { given: others.map((k) => at[k]), pairs: new Map() });
    const { pairs } = strata.get(key);
    pairs.set(pair, (pairs.get(pair) ?? 0) + count);
  }
  return [...strata.values()].map(({ given: levels, pairs }) => {
    const [across, down] = [0, 1].map((side) => [...new Set([...pairs.keys()].map((pair) => pair.split(",")[side]))]);
    return { given: levels, rows: across.map((p) => down.map((q) => pairs.get(`${p},${q}`) ?? 0)) };
  });
}

const weightedLog = (count) => (count ? count * Math.log(count) : 0);

/** The statistic G², twice the logarithm of the ratio of likelihoods. */
export function deviance({ rows }) {
  const [across, down] = sums(rows), within = sumOf(rows.flat().map(weightedLog));
  return Math.max(0, 2 * (within + weightedLog(sumOf(across)) - sumOf([...across, ...down].map(weightedLog))));
}

const FEW = 5;
const THIN_PART = 0.2;

/** Whether too few records are expected in too many cells for the chi-squared distribution. */
export function isThin(strata) {
  const means = strata.filter(degreesOf).flatMap(({ rows }) => {
    const [across, down] = sums(rows), whole = sumOf(across);
    return across.flatMap((row) => down.map((column) => (row * column) / whole));
  });
  return means.some((mean) => mean < 1) || means.filter((mean) => mean < FEW).length > THIN_PART * means.length;
}

/** The upper tail of the chi-squared distribution. */
export function chiSquaredTail(statistic, degrees) {
  const a = degrees / 2, x = statistic / 2;
  if (x <= 0) return 1;
  const front = Math.exp(a * Math.log(x) - x - logGamma(a));
  return x < a + 1 ? 1 - front * lowerSeries(a, x) : front * upperFraction(a, x);
}

function lowerSeries(a, x) {
  let term = 1 / a, sum = term;
  for (let n = 1; term > sum * 1e-16; n++) sum += term *= x / (a + n);
  return sum;
}

/** Legendre's continued fraction, from its front (Lentz). */
function upperFraction(a, x) {
  const tiny = 1e-300;
  let b = x + 1 - a, c = 1 / tiny, d = 1 / b, h = d;
  for (let n = 1; n < 10000; n++) {
    const k = -n * (n - a);
    b += 2;
    d = 1 / (k * d + b || tiny);
    c = b + k / c || tiny;
    h *= d * c;
    if (Math.abs(d * c - 1) < 1e-15) break;
  }
  return h;
}

/** A table with the same sums of rows and columns, as it comes where the records are paired by chance. */
function shuffled(random, { rows }) {
  const [across, left] = sums(rows);
  const made = across.slice(0, -1).map((size) => {
    let rest = sumOf(left), wanted = size;
    return left.map((there, j) => {
      const number = rest ? hypergeometric(random, there, rest - there, wanted) : 0;
      rest -= there;
      wanted -= number;
      left[j] -= number;
      return number;
    });
  });
  return { rows: [...made, left] };
}

/** How often G² is as large by chance: the part of tables that are drawn with the same sums, the observed one among them. */
function permutationTail(strata, statistic, permutations, seed) {
  const random = generator(seed), moving = strata.filter(degreesOf), least = statistic - 1e-9 * Math.max(statistic, 1);
  let large = 1;
  for (let i = 0; i < permutations; i++) if (sumOf(moving.map((stratum) => deviance(shuffled(random, stratum)))) >= least) large++;
  return large / (1 + permutations);
}

/**
 * @typedef {{statistic: number, degrees: number, p: number | null, method: "chi-squared" | "permutation" | ""}} Test
 * The test of a pair given a set; `p` is null where no level has two levels of both. @returns {Test}
 */
export function testOf(/** @type {Table} */ table, { a, b, given }, { permutations = 1000, seed = 1 } = {}) {
  const strata = strataOf(table, a, b, given), degrees = sumOf(strata.map(degreesOf)), statistic = sumOf(strata.map(deviance));
  if (!degrees) return { statistic, degrees, p: null, method: "" };
  if (isThin(strata)) return { statistic, degrees, p: permutationTail(strata, statistic, permutations, seed), method: "permutation" };
  return { statistic, degrees, p: chiSquaredTail(statistic, degrees), method: "chi-squared" };
}

/** The values after Holm's correction, in the same order. */
export function holm(values) {
  const order = values.map((_, i) => i).sort((i, j) => values[i] - values[j]), found = [];
  order.reduce((largest, place, rank) => (found[place] = Math.max(largest, Math.min((values.length - rank) * values[place], 1))), 0);
  return found;
}
