// node statistics.mjs CASES.json: the page's tests of independences and draws, as JSON, for as_in_python.py to compare.
import { readFileSync } from "node:fs";
import { drawn, intervalOf } from "../src/statistics/bootstrap.js";
import { holm, testOf } from "../src/statistics/independence.js";
import { generator } from "../src/statistics/random.js";

const { tables, counts, draws } = JSON.parse(readFileSync(process.argv[2], "utf8"));
const tests = tables.map(({ table, a, b, given }) => testOf(table, { a, b, given }));
const random = generator(1), all = Array.from({ length: draws }, () => drawn(random, counts));
console.log(JSON.stringify({
  tests, holm: holm(tests.map((test) => test.p ?? 1)),
  sums: all.map((draw) => draw.reduce((p, q) => p + q, 0)),
  means: counts.map((_, i) => all.reduce((sum, draw) => sum + draw[i], 0) / draws),
  interval: intervalOf([...Array(101).keys()]),
}));
