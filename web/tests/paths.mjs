// Random small diagrams: the ways and the paths that the page colours by the program's answers, beside all paths one by one.
//   node paths.mjs MODULE.wasm [GRAPHS]
import { readFileSync } from "node:fs";
import { keyOf } from "../src/diagram/geometry.js";
import { load } from "../src/causal.mjs";
import { DIAGRAM } from "../src/names.js";
import { pathClasses } from "../src/paths.js";
import { pathsBetween, Walks } from "../src/walks.js";
import { plainText, Ways } from "../src/ways.js";

const causal = await load(readFileSync(process.argv[2]));
const GRAPHS = Number(process.argv[3] ?? 300);
const ask = async (text, words) => causal.run(words, { [DIAGRAM]: text });

let seed = 5;
const random = (n) => (seed = (seed * 1103515245 + 12345) % 2147483648) % n;

function randomGraph() {
  const names = ["A", "B", "C", "D", "E", "F", "G", "H"].slice(0, 4 + random(5)), roles = ["exposure", "outcome", "adjusted", "latent", null, "adjusted", null, null];
  const edges = names.flatMap((a, i) => names.slice(i + 1).flatMap((b) => [0, 1, 2].filter(() => !random(5)).slice(0, 1).map((k) => ({ a, b, both: k === 2 }))));
  const order = names.map((_, i) => i).sort(() => random(3) - 1);
  return { vertices: names.map((name, i) => ({ name, role: roles[order[i]] ?? null })), edges };
}

/** The names that a directed way leads to, themselves included. */
function behind({ edges }, names) {
  const found = new Set(names);
  for (let grew = true; grew; ) {
    const more = edges.filter((e) => !e.both && found.has(e.a) && !found.has(e.b));
    for (const e of more) found.add(e.b);
    grew = more.length > 0;
  }
  return found;
}

/** All paths from x to y, as lists of edges. */
function pathsOf(graph, x, y) {
  const found = [];
  const walk = (at, seen, path) => {
    if (at === y) return found.push(path);
    for (const e of graph.edges) {
      const to = e.a === at ? e.b : e.b === at ? e.a : null;
      if (to && !seen.includes(to)) walk(to, [...seen, to], [...path, { e, from: at, to }]);
    }
  };
  walk(x, [x], []);
  return found;
}

const pointsAt = ({ e }, name) => e.both || e.b === name;

/** Whether a path is open given a set: each collider has a vertex of the set behind it, and no other vertex is in the set. */
const isOpen = (graph, path, set) => path.slice(1).every((step, i) => {
  const name = step.from, isCollider = pointsAt(path[i], name) && pointsAt(step, name);
  return isCollider ? [...behind(graph, [name])].some((n) => set.includes(n)) : !set.includes(name);
});

function expected(graph) {
  const marked = (role) => graph.vertices.filter((v) => v.role === role).map((v) => v.name), [xs, ys, set] = ["exposure", "outcome", "adjusted"].map(marked);
  const classes = new Map();
  if (!xs.length || !ys.length) return classes;
  const all = (g) => xs.flatMap((x) => ys.flatMap((y) => pathsOf(g, x, y)));
  const directed = all(graph).filter((path) => path.every(({ e, from }) => !e.both && e.a === from));
  const firsts = new Set(directed.map((path) => path[0].e)), rest = { ...graph, edges: graph.edges.filter((e) => !firsts.has(e)) };
  const keys = (paths) => new Set(paths.flat().map(({ e }) => keyOf(e))), isLeft = (path) => path.every(({ from, to }) => !set.includes(from) && !set.includes(to));
  const causal = keys(directed), left = keys(directed.filter(isLeft)), before = keys(all(rest).filter((path) => isOpen(rest, path, [])));
  const now = keys(all(rest).filter((path) => isOpen(rest, path, set)));
  for (const key of graph.edges.map(keyOf)) {
    const [isCausal, isBiasing] = [causal.has(key), before.has(key) || now.has(key)];
    const main = isCausal ? `causal${left.has(key) ? "" : " blocked"}` : `biasing${now.has(key) ? "" : " blocked"}`;
    if (isCausal || isBiasing) classes.set(key, isCausal && isBiasing ? `${main} also${now.has(key) ? "" : "-blocked"}` : main);
  }
  return classes;
}

/** The paths that the page lists, and what blocks them, beside all paths and the program's own answer. */
async function comparePaths(graph) {
  const marked = (role) => graph.vertices.filter((v) => v.role === role).map((v) => v.name), [[x], ys, set] = ["exposure", "outcome", "adjusted"].map(marked);
  if (!x || !ys.length) return;
  const { paths, isAll } = pathsBetween(graph, x, ys, 1000, { tries: 1e6 }), wanted = ys.flatMap((y) => pathsOf(graph, x, y))
    .filter((path) => path.slice(0, -1).every(({ to }) => !ys.includes(to)));
  const text = (path) => path.map(({ from, to }) => `${from} ${to}`).join(), walks = new Walks(graph, set, await new Ways(ask, graph).before(set));
  if (!isAll || paths.map(text).sort().join(";") !== wanted.map(text).sort().join(";")) {
    wrong++;
    console.log(`differs: the paths of ${JSON.stringify(graph)}`);
  }
  for (const path of wanted) {
    const blocks = walks.blocks(path.map(({ e, from, to }) => ({ edge: e, from, to })));
    if ((blocks.length === 0) !== isOpen(graph, path, set)) {
      wrong++;
      console.log(`differs: what blocks ${text(path)} in ${JSON.stringify(graph)}`);
    }
  }
  const plain = plainText(graph), said = await ask(plain, ["separate", DIAGRAM, "--x", x, "--y", ys.join(","), "--given", set.join(",") || "{}"]);
  if ((said.status === 1) !== wanted.some((path) => isOpen(graph, path, set))) {
    wrong++;
    console.log(`differs: the program on ${JSON.stringify(graph)}`);
  }
}

const listed = (classes) => JSON.stringify([...classes].sort());
let wrong = 0, edges = 0;
for (let k = 0; k < GRAPHS; k++) {
  const graph = randomGraph(), classes = await pathClasses(ask, graph), wanted = expected(graph);
  edges += wanted.size;
  await comparePaths(graph);
  if (listed(classes) !== listed(wanted)) {
    wrong++;
    console.log(`differs: ${JSON.stringify(graph)}: ${listed(classes)}, wanted ${listed(wanted)}`);
  }
  const ways = new Ways(ask, graph), [{ name }] = graph.vertices, found = [...(await ways.behind([name]))].sort().join();
  if (found !== [...behind(graph, [name])].sort().join()) {
    wrong++;
    console.log(`differs: behind ${name} in ${JSON.stringify(graph)}: ${found}`);
  }
}
/** A diagram of 64 vertices with about so many edges. */
function largeGraph(wanted) {
  const role = (i) => ({ 20: "exposure", 50: "outcome", 10: "adjusted", 30: "adjusted", 40: "adjusted" })[i] ?? null, all = [];
  for (let i = 0; i < 64; i++) for (let j = i + 1; j < 64; j++) if (random(2016) < wanted) all.push({ a: `v${i}`, b: `v${j}`, both: !random(9) });
  return { vertices: Array.from({ length: 64 }, (_, i) => ({ name: `v${i}`, role: role(i) })), edges: all };
}

const MOST_MS = 5000; // on a busy machine
for (const wanted of [124, 200, 300, 820, 2016]) {
  const large = largeGraph(wanted), began = performance.now(), classes = await pathClasses(ask, large), took = Math.round(performance.now() - began);
  if (took > MOST_MS) wrong++;
  console.log(`64 vertices and ${large.edges.length} edges: ${classes.size} edges on paths, in ${took} ms`);
}
console.log(`${edges} edges on paths of ${GRAPHS} random diagrams, ${wrong} wrong`);
process.exit(wrong ? 1 : 0);
