// What the page does without the program: fitting of places, layouts.
import katex from "katex";
import { naturalMarks } from "../src/diagram/marks.js";
import { instrumentsIn, lessIn, valuesOf } from "../src/objects.js";
import { apart, circle, scaleFor } from "../src/diagram/fitting.js";
import { arrange } from "../src/layout.js";
import { markOf, readRows, written } from "../src/text/csv.js";
import { columnsOf, prepared } from "../src/text/prepare.js";
import { annotate, annotatePieces } from "../src/latex.js";
import { codeOfR } from "../src/diagram/code.js";
import { bend, curve, freePlace, halfHeight, linesOf } from "../src/diagram/geometry.js";
import { fileName, freeName, Kept, titleOf, whichOf } from "../src/page/kept.js";
import { naturalTex, nameTex } from "../src/paper.js";
import { intervalOf, rangeOf } from "../src/statistics/bootstrap.js";
import { digitsAbove, digitsBelow, fractionOf, minus, nearly } from "../src/statistics/fraction.js";
import { chiSquaredTail, deviance, holm, testOf } from "../src/statistics/independence.js";
import { csvOf, tableOf } from "../src/statistics/table.js";
import { levelsText } from "../src/text/printed.js";
import { taken } from "../src/text/taken.js";
import { warningsOf } from "../src/text/warnings.js";

let done = 0, wrong = 0;
function check(what, good, saw) {
  done++;
  if (good) return;
  wrong++;
  console.log(`wrong: ${what}: saw ${JSON.stringify(saw)}`);
}

const HEIGHT = 36;

/** The pairs of names that lie on one another. */
function overlaps(places, halves) {
  const all = [...places];
  return all.flatMap(([a, p], i) => all.slice(i + 1).filter(([b, q]) =>
    Math.abs(p.x - q.x) < halves.get(a) + halves.get(b) && Math.abs(p.y - q.y) < HEIGHT).map(([b]) => `${a} ${b}`));
}

function testFitting() {
  let seed = 3;
  const random = () => (seed = (seed * 1103515245 + 12345) % 2147483648) / 2147483648;
  for (let n = 2; n < 40; n++) {
    const names = Array.from({ length: n }, (_, i) => `v${i}`), halves = new Map(names.map((name) => [name, 22 + 80 * random()]));
    const unit = [1, 0.1, 100, 5][n % 4], given = new Map(names.map((name) => [name, { x: unit * random(), y: unit * random() }]));
    const scale = scaleFor(given, halves, HEIGHT, 100);
    const places = apart(new Map([...given].map(([name, p]) => [name, { x: p.x * scale, y: p.y * scale }])), halves, HEIGHT);
    check(`no names overlap: ${n}`, !overlaps(places, halves).length, overlaps(places, halves));
    check(`a circle has none: ${n}`, !overlaps(circle(names, halves), halves).length, n);
  }
  const halves = new Map([["A", 22], ["B", 22]]);
  const row = new Map([["A", { x: 0, y: 0 }], ["B", { x: 5, y: 0 }]]), narrow = { width: 500, height: 400 };
  check("a wide drawing gets less, so that names are seen larger", Math.abs(scaleFor(row, halves, HEIGHT, 100, narrow) - 456 / 5) < 0.1, scaleFor(row, halves, HEIGHT, 100, narrow));
  check("but not so little that they meet", scaleFor(new Map([["A", { x: 0, y: 0 }], ["B", { x: 1, y: 0 }], ["C", { x: 9, y: 0 }]]), halves, HEIGHT, 100, { width: 300, height: 400 }) > 68, "");
  check("a scale that will do is kept", scaleFor(new Map([["A", { x: 0, y: 0 }], ["B", { x: 1, y: 0 }]]), halves, HEIGHT, 100) === 100);
}

/** Values among the treated, of objects by hand. */
function testTreated() {
  const cell = { y: [["Y", "1"]], x: [["X", "0"]], given: [["S", "a"]], observed: [["X'", "1"]], value: "25/48" };
  const [other, same] = valuesOf({ cells: [cell, { ...cell, observed: [["X'", "0"]] }] });
  check("the observed level stands with what is given", other.given === "S=a,X'=1" && other.text === "25/48", other);
  check("whether it is the one that is set", !other.hadIt && same.hadIt && !valuesOf({ cells: [{ ...cell, observed: undefined }] })[0].hadIt, [other, same]);
  const { effect, share } = lessIn({ less: cell }, ["S", "X", "Y"]);
  check("what is less than what was observed", effect === "P(S=a,Y=1|do(X=0))" && share === "P(S=a,X=0,Y=1)", { effect, share });
}

function testLines() {
  const parted = (name, ...lines) => check(`the lines of ${name}`, linesOf(name).join("|") === lines.join("|"), linesOf(name));
  parted("Smoking", "Smoking");
  parted("birth weight", "birth weight");
  parted("Connective tissue disorder", "Connective ", "tissue disorder");
  parted("low_birth_weight", "low_birth_", "weight");
  parted("Antihypertensives", "Antihypertensives");
  parted("A antihypertensives", "A antihypertensives");
  check("two lines are higher than one", halfHeight({ name: "Fitness level" }) > halfHeight({ name: "Coach" }), halfHeight({ name: "Fitness level" }));
}

function testSigns() {
  const tex = annotate('\\sum_{"Fitness level 100\\%", p\\^{}q} P("Fitness level 100\\%", p\\^{}q)');
  check("signs with braces stay in their names", tex.includes("\\text{Fitness level 100\\%}") && tex.split("\\text{p{\\textasciicircum}q}").length === 3 && !tex.includes("\ue000"), tex);
  const graph = { vertices: ["A", "o", "B"].map((name) => ({ name, role: null })), edges: [{ a: "o", b: "B", both: false }] };
  const notes = warningsOf("dag { A o-> B }", graph).map(({ sentence }) => sentence);
  check("an edge with a circle is told", notes.length === 1 && notes[0].includes("circles"), notes);
}

function testLayout() {
  const chain = (n) => ({
    vertices: Array.from({ length: n }, (_, i) => ({ name: `v${i}`, width: 60, height: HEIGHT })),
    edges: Array.from({ length: n - 1 }, (_, i) => [`v${i}`, `v${i + 1}`]),
  });
  const span = (places, k) => Math.max(...places.map(([, p]) => p[k])) - Math.min(...places.map(([, p]) => p[k]));
  const high = arrange({ ...chain(12), room: { width: 400, height: 700 } }, Infinity);
  check("a long chain uses the height", span(high, "y") > span(high, "x"), high);
  const wide = arrange({ ...chain(12), room: { width: 900, height: 400 } }, Infinity);
  check("where there is width it lies", span(wide, "x") > span(wide, "y"), wide);
  check("without a room it lies", span(arrange(chain(3)), "x") > 0, "");
  const { vertices } = chain(64), room = { width: 700, height: 700 }, halves = new Map(vertices.map(({ name }) => [name, 30]));
  for (const every of [1, 3]) {
    const edges = vertices.flatMap((v, i) => vertices.slice(i + 1).filter((_, j) => (7 * i + j) % every === 0).map((w) => [v.name, w.name]));
    const places = new Map(arrange({ vertices, edges, room }));
    check(`${edges.length} edges are laid out, with no name on another`, places.size === 64 && !overlaps(places, halves).length, overlaps(places, halves));
  }
}

const memoryStore = () => {
  const memory = new Map();
  return { memory, getItem: (k) => memory.get(k) ?? null, setItem: (k, v) => memory.set(k, v) };
};

function testBends() {
  let seed = 11;
  const random = () => (seed = (seed * 1103515245 + 12345) % 2147483648) / 2147483648;
  let behind = 0, edgesSeen = 0;
  for (let k = 0; k < 60; k++) {
    const vertices = Array.from({ length: 4 + Math.floor(14 * random()) }, (_, i) => ({ name: `v${i}`, width: 44 + 160 * random(), height: HEIGHT }));
    const part = 0.15 + 0.25 * random(), pairs = vertices.flatMap((a, i) => vertices.slice(i + 1).map((b) => [a.name, b.name]));
    const edges = pairs.filter(() => random() < part), arcs = pairs.filter(() => random() < 0.05);
    const places = new Map(arrange({ vertices, edges, arcs, room: { width: 700, height: 700 } }, k % 2 ? undefined : 0)), middles = [];
    const all = vertices.map(({ name, width }) => ({ name, ...places.get(name), half: width / 2 }));
    for (const [a, b, isArc] of [...edges, ...arcs.map((arc) => [...arc, true])]) {
      const [p, q] = [places.get(a), places.get(b)], others = all.filter(({ name }) => name !== a && name !== b), c = bend(p, q, Boolean(isArc), others, isArc ? middles : []);
      if (isArc) middles.push(curve(p, c, q, 0.5));
      const at = Array.from({ length: 201 }, (_, i) => curve(p, c, q, i / 200));
      edgesSeen++;
      if (at.some(({ x, y }) => others.some((o) => Math.abs(x - o.x) < o.half && Math.abs(y - o.y) < HEIGHT / 2))) behind++;
    }
  }
  check("no edge of a layout runs behind a vertex of which it is no end", !behind && edgesSeen > 500, [behind, edgesSeen]);
}

function testKept() {
  const store = memoryStore(), tab = memoryStore(), kept = new Kept(store, tab), texts = () => kept.list().map(({ text }) => text).join();
  kept.begin({ text: "example", name: "Napkin" });
  kept.keep("example");
  check("an example isn't kept", !kept.list().length, kept.list());
  kept.keep("changed");
  kept.keep("changed again");
  check("what is changed is one entry", texts() === "changed again" && kept.list()[0].name === "Napkin", kept.list());
  for (let i = 0; i < 30; i++) {
    kept.begin({ text: "" });
    kept.keep(`text ${i}`);
  }
  check("none falls out", kept.list().length === 31 && kept.list()[0].text === "text 29", texts());
  const fifth = kept.list().find(({ text }) => text === "text 5");
  kept.begin(fifth);
  kept.keep("text 5 changed");
  check("one that is opened again is changed", texts().startsWith("text 5 changed,text 29") && !kept.list().some(({ text }) => text === "text 5"), texts());
  const other = new Kept(store, memoryStore());
  other.begin(kept.list()[0]);
  other.keep("of another tab");
  kept.keep("of this tab");
  check("what two tabs make of one diagram stays beside", texts().startsWith("of this tab,of another tab"), texts());
  const third = new Kept(store, memoryStore());
  third.begin(kept.list()[0]);
  third.keep("of a third tab");
  kept.heard();
  third.heard();
  check("nor is one lost that isn't changed again", texts().startsWith("of this tab,of a third tab,of another tab"), texts());
  check("a tab knows what it showed", new Kept(store, tab).left().text === "of this tab", new Kept(store, tab).left());
  kept.rename("A name");
  const [entry] = kept.list();
  kept.remove(entry.id);
  check("one is taken out", entry.name === "A name" && !kept.list().some(({ id }) => id === entry.id), kept.list());
  kept.restore(entry);
  check("and put back", kept.list()[0].name === "A name", kept.list());
  kept.begin({ text: "another" });
  check("a name that is taken gets a number", kept.rename("A name") === "A name 2" && kept.rename("A name 2") === "A name 2" && kept.list()[0].name === "A name 2", kept.list()[0]);
  kept.begin({ text: "example", name: "Napkin" });
  kept.keep("example");
  check("an example that is opened again has its own name, and isn't kept before it is changed",
    kept.shown.name === "Napkin" && kept.list().filter(({ name }) => name.startsWith("Napkin")).length === 1, kept.list());
  kept.keep("example changed once more");
  check("an example that is changed again gets one", /^Napkin \d$/.test(kept.shown.name) && kept.list()[0].name === kept.shown.name, kept.shown);
  const names = kept.list().map(({ name }) => name).filter(Boolean);
  check("no two have one name", new Set(names).size === names.length, names);
  const twins = [{ id: "b", name: "N", at: 2 }, { id: "a", name: "N", at: 1 }, { id: "c", name: "M", at: 3 }, { id: "d", name: "", at: 4 }, { id: "e", name: "", at: 5 }];
  check("of those that an earlier page kept it is told which is which", twins.map((one) => whichOf(one, twins)).join("; ") === "2 of 2 with this name; 1 of 2 with this name; ; ; ", twins);
  check("numbers go on", freeName("N 2", [{ name: "N 2" }, { name: "N 3" }]) === "N 4" && freeName("", [{ name: "" }]) === ""
    && freeName("Cohort 2019", [{ name: "Cohort 2019" }]) === "Cohort 2019 2", freeName("N 2", [{ name: "N 2" }]));
  store.memory.set("causal.named", "no list");
  check("what can't be read is none", !kept.list().length && new Kept(undefined, undefined).list().length === 0, kept.list());
  const old = memoryStore();
  old.setItem("causal.diagrams", '["dag { A }"]');
  check("what an earlier page kept is there", new Kept(old, tab).list()[0].text === "dag { A }", new Kept(old, tab).list());
  const refused = new Kept({ getItem: () => null, setItem: () => { throw new Error("full"); } }, undefined);
  refused.begin({ text: "a" });
  refused.keep("b");
  check("what isn't kept is known", !refused.isSafe, "");
  check("a title", titleOf('dag {\nbb="0,0,1,1"\nX [exposure,pos="0,1"]\nX -> Y\n}\n') === "X X -> Y", titleOf("dag { }"));
  check("a file's name", fileName("a/b: c?", "dag") === "a b c.dag" && fileName(" ", "svg") === "diagram.svg", fileName("a/b: c?", "dag"));
}

function testRoom() {
  const seen = { left: 0, right: 600, top: 0, bottom: 400 }, others = [], half = 70;
  for (let i = 0; i < 40; i++) others.push({ ...freePlace(half, { x: 300, y: 200 }, others, seen), half });
  const places = new Map(others.map((p, i) => [`v${i}`, p]));
  check("there is room for each", !overlaps(places, new Map(others.map((_, i) => [`v${i}`, half]))).length, others);
  check("in view, as long as there is", others.slice(0, 15).every((p) => p.x >= half && p.x <= 600 - half && p.y >= 18 && p.y <= 382), others.slice(0, 15));
}

const reading = (more = {}) => ({ matched: new Map(), leavesOut: false, joins: false, cuts: new Map(), ...more });

function testTables() {
  const text = 'hrt;"a ;b";Y\n1;"2,5";0\n', rows = readRows(text, markOf(text));
  check("the mark of a table", markOf(text) === ";" && markOf("A\tB\n") === "\t" && markOf("A,B\n") === ",", markOf(text));
  const made = prepared(rows, ["HRT", "Y"], reading());
  check("a table with commas", written(made.rows) === 'HRT,a ;b,Y\n1,"2,5",0\n', written(made.rows));
  const columns = (header, names, matched) => JSON.stringify([...columnsOf(header, names, matched)]);
  check("what is in doubt stays", columns(["hrt", "Hrt"], ["HRT"]) === "[]" && columns(["hrt", "HRT"], ["HRT"]) === '[["HRT","HRT"]]', columns(["hrt", "Hrt"], ["HRT"]));
  check("names of R and with underscores", columns(["Birth.Defects", "Low_Birth_Weight", "X2nd.visit"], ["Birth Defects", "Low Birth Weight", "2nd visit"])
    === '[["Birth Defects","Birth.Defects"],["Low Birth Weight","Low_Birth_Weight"],["2nd visit","X2nd.visit"]]', columns(["Birth.Defects"], ["Birth Defects"]));
  check("by hand", columns(["a", "b", "A"], ["A", "B"], new Map([["A", "b"], ["B", ""]])) === '[["A","b"]]', columns(["a", "b", "A"], ["A", "B"], new Map([["A", "b"]])));
  const dirty = readRows("A,B\nNA,1\n,2\nyes,3\n Yes,4\nyes,5\nno, \n"), all = prepared(dirty, ["A", "B"], reading());
  check("missing values", all.incomplete === 3 && all.notes[0].missing === 2 && all.rows.length === 7, all);
  check("spellings", JSON.stringify(all.notes[0].spellings) === '[["yes"," Yes"]]', all.notes[0].spellings);
  const clean = prepared(dirty, ["A", "B"], reading({ leavesOut: true, joins: true }));
  check("rows left out and levels joined", written(clean.rows) === "A,B\nyes,3\nyes,4\nyes,5\n", written(clean.rows));
  const fine = readRows(`A,B\n${Array.from({ length: 20 }, (_, i) => `0,${i}.5\n`).join("")}`);
  check("many levels", prepared(fine, ["A", "B"], reading()).notes[1].isFine, "");
  const groups = (cut) => [...new Set(prepared(fine, ["A", "B"], reading({ cuts: new Map([["B", cut]]) })).rows.slice(1).map(([, level]) => level))].join("; ");
  check("cut into groups", groups({ groups: 2, points: [] }) === "< 10.5; >= 10.5", groups({ groups: 2, points: [] }));
  check("cut at points", groups({ groups: 0, points: [5, 12] }) === "< 5; 5 to < 12; >= 12", groups({ groups: 0, points: [5, 12] }));
}

function testWideSums() {
  const names = Array.from({ length: 9 }, (_, i) => `"covariate ${i}"`).join(", ");
  const pieces = annotatePieces(`\\sum_{${names}} P("covariate 0") P("covariate 1")`);
  check("a wide sum is a piece of its own", pieces.length === 3 && pieces[1].includes("P("), pieces);
  check("in rows", pieces[0].split("\\\\").length > 2, pieces[0]);
  check("a narrow one isn't", annotatePieces("\\sum_{Z} P(Z) P(Y \\mid Z)").length === 2, "");
}

function testTaken() {
  const same = (what, text, wanted) => check(what, taken(text)?.text === wanted || (!taken(text) && wanted === null), taken(text));
  same("R's call", 'library(dagitty)\ng <- dagitty("dag{X -> \\"a b\\"}")\n', 'dag{X -> "a b"}\n');
  same("in single quotes", `dagitty::dagitty('dag{X -> "a b"}')`, 'dag{X -> "a b"}\n');
  same("comments", 'dag { # one\nX -> "a#b" // two\n/* three\nlines */ Y a#b }', 'dag {\nX -> "a#b"\n Y a#b }');
  same("arrows", 'dag { X → Y ↔ "→" }', 'dag { X -> Y <-> "→" }');
  same("the older form", "E E @-2.2,1.5\nage%20group 1\nU U\nD O @1,2\n\nE D @0.1,0.2\nU E D\n",
    'dag {\nE [exposure,pos="-2.2,1.5"]\n"age group"\nU [latent]\nD [outcome,pos="1,2"]\nE -> D\nU -> E\nU -> D\n}\n');
  same("an older form with a name that isn't there", "E E\n\nE D\n", null);
  same("what the program reads stays", 'dag {\nbb="0,0,1,1"\nX [pos="1,2"]\nX -> "# b"\n}\n', null);
  const graph = { vertices: ["X", "Y", "~>", "A"].map((name) => ({ name })), edges: [{ a: "X", b: "Y" }] };
  const told = warningsOf('dag { bb="0,0,1,1" X -> Y note = a ~> A }', graph);
  check("warnings", told.length === 2 && told[0].sentence.startsWith("note = a ") && told[1].sentence.startsWith("~> is read as a variable"), told);
  same("curly quotes", "dag { “Body mass” -> Y }", 'dag { "Body mass" -> Y }');
  same("short marks", 'dag { X [e] Y [o,pos="1,2"] U [unobserved] "[u]" X -> Y }', 'dag { X [exposure] Y [outcome,pos="1,2"] U [latent] "[u]" X -> Y }');
  same("dagify", 'ggdag::dagify(y ~ x + u, x ~ u,\n  exposure = "x", outcome = "y", latent = c("u"), coords = list(x = c(x = 1), y = c(x = 2)))',
    "dag {\nx [exposure]\ny [outcome]\nu [latent]\nx -> y\nu -> y\nu -> x\n}\n");
  same("lavaan", "model <- '\n # one\n y ~ b*x + z\n x ~~ z\n f =~ i\n'", "dag {\nx\ny\nz\nf [latent]\ni\nx -> y\nz -> y\nz <-> x\nf -> i\n}\n");
  same("Graphviz", 'digraph "G" {\n rankdir=LR; node [shape=box];\n "a b" -> c [label="x"]\n c -> d [dir=both]\n}', 'dag {\n"a b" -> c\nc <-> d\n}\n');
  const parts = warningsOf("dag { Body mass [exposure]\nBody mass -> Y\nmass -> Z }", { vertices: [{ name: "Body" }, { name: "mass", role: "exposure" }, { name: "Y" }, { name: "Z" }],
    edges: [{ a: "mass", b: "Y" }, { a: "mass", b: "Z" }] });
  check("a parted name", parts.length === 1 && parts[0].fixed === 'dag { "Body mass" [exposure]\n"Body mass" -> Y\n"Body mass" -> Z }', parts);
  const [three] = warningsOf("dag {\nBody mass index -> Y\nindex [exposure]\n}", { vertices: ["Body", "mass", "index", "Y"].map((name) => ({ name, role: null })), edges: [{ a: "index", b: "Y" }] });
  check("one of three words", three?.fixed === 'dag {\n"Body mass index" -> Y\n"Body mass index" [exposure]\n}' && three.sentence.startsWith("Body and mass are read"), three);
  const [curly] = warningsOf("dag { “Body mass” -> Y }", { vertices: ["“Body", "mass”", "Y"].map((name) => ({ name, role: null })), edges: [{ a: "mass”", b: "Y" }] });
  check("typed curly quotes", curly?.fixed === 'dag { "Body mass" -> Y }', curly);
  same("a name that has curly quotes keeps them", 'dag { "the “large” one" -> Y }', null);
  check("no parted name", !warningsOf("dag { A B\nC -> D }", { vertices: ["A", "B", "C", "D"].map((name) => ({ name })), edges: [{ a: "C", b: "D" }] }).length, "");
}

function testStatistics() {
  const near = (what, got, wanted) => check(what, Math.abs(got - wanted) < 1e-4 * Math.max(1e-300, wanted), got);
  near("the 95th percentile of chi-squared, 1", chiSquaredTail(3.841459, 1), 0.05);
  near("of 10", chiSquaredTail(18.307038, 10), 0.05);
  near("far out", chiSquaredTail(200, 2), Math.exp(-100));
  near("G²", deviance({ rows: [[3, 1], [2, 4]] }), 2 * (3 * Math.log(3 / 2) + Math.log(1 / 2) + 2 * Math.log(2 / 3) + 4 * Math.log(4 / 3)));
  check("Holm", holm([0.25, 0.125, 0.5]).join() === "0.5,0.375,0.5", holm([0.25, 0.125, 0.5]));
  check("an interval", intervalOf([0, 1, NaN, 2], 0.5).join() === "0.5,1.5", intervalOf([0, 1, NaN, 2], 0.5));
  const ends = Array.from({ length: 41 }, (_, i) => [40 - i, 200 - 3 * i]); // 0 to 40 and 80 to 200, of which a fortieth is left out at each end
  check("an interval for a range", rangeOf(ends).map(Math.round).join() === "1,197", rangeOf(ends));
  check("none over one draw", rangeOf(ends.slice(0, 1)) === null && rangeOf([]) === null, rangeOf(ends.slice(0, 1)));
  const table = tableOf([["B", "A", "n"], ["x,y", "0", "3"], ["z", "1", "4"], ["x,y", "0", "5"]], ["A", "B"], "n");
  check("a table", csvOf(table, "n") === 'A,B,n\n0,"x,y",8\n1,z,4\n', csvOf(table, "n"));
  check("nothing to test", testOf(tableOf([["A", "B"], ["0", "0"], ["0", "1"]], ["A", "B"], ""), { a: "A", b: "B", given: [] }).p === null, "");
  check("R code", codeOfR('dag { "a)" }\n').startsWith('text <- r"-(dag { "a)" })-"\n'), codeOfR('dag { "a)" }\n'));
}

function testFractions() {
  const shown = (text) => [digitsBelow(fractionOf(text)), digitsAbove(fractionOf(text))].join(), less = minus(fractionOf("26/55"), fractionOf("142/165"));
  check("rounded outwards", shown("26/55") === "0.4727,0.4728" && shown("0.472727272727272727") === "0.4727,0.4728", shown("26/55"));
  check("what has four digits stays", shown("1/2") === "0.5000,0.5000" && shown("0/1") === "0.0000,0.0000" && shown("1") === "1.0000,1.0000", shown("1/2"));
  check("below 0", digitsBelow(less) === "-0.3879" && digitsAbove(less) === "-0.3878", [digitsBelow(less), digitsAbove(less)]);
  check("large counts", shown("333333333333333/1000000000000000") === "0.3333,0.3334" && nearly(fractionOf("1000000000000000/4000000000000000")) === 0.25, shown("1/3"));
}

function testNames() {
  const names = ["T", "T'", "Drug''", "my drug'", "a_b'", "'"].map(nameTex).join(" ");
  check("names with primes in LaTeX", names === "T T' \\text{Drug}'' \\text{my drug}' \\text{a\\_b}' \\text{'}", names);
  const shown = annotate('P(R \\mid \\mathrm{do}("my drug"), "my drug\'", T\', "a,b\'")');
  check("and on the page", shown === "P(R \\mid \\mathrm{do}(\\text{my drug}), \\text{my drug}', T', \\text{“a,b”}')", shown);
}

/** Instruments as the program lists them. */
function testInstruments() {
  const found = instrumentsIn({ instruments: [{ vertex: "W", strata: [], more: false }, { vertex: "Z", strata: [["W"], ["A", "B"]], more: true }, { vertex: "V", strata: [[]], more: false }] });
  check("instruments", JSON.stringify(found) === JSON.stringify({
    instruments: [{ name: "Z", strata: ["W"] }, { name: "Z", strata: ["A", "B"] }, { name: "V", strata: [] }], more: ["Z"], none: ["W"] }), found);
}

/** Answers of `natural`, as docs/formats-counterfactuals.md has them: their LaTeX, and what the drawing shows of them. */
function testNatural() {
  const about = { y: ["Y"], x: ["X"], through: ["M"], given: [], second: ["X'"] }, edge = (a, b, both = false) => ({ a, b, both });
  const graph = { vertices: [], edges: [edge("X", "L"), edge("X", "M"), edge("X", "Y"), edge("M", "Y"), edge("L", "M"), edge("M", "Y", true), edge("X", "A", true)] };
  const one = annotate("P({Y}_{{X}, {M}_{X'}} \\mid {C}) = \\sum_{M} P(M \\mid X') P(Y \\mid X, M)");
  check("a natural effect is typeset", one === "P({Y}_{{X}, {M}_{X'}} \\mid {C}) = \\sum_{\\htmlClass{bound}{M}} P(\\htmlClass{bound}{M} \\mid X') P(Y \\mid X, \\htmlClass{bound}{M})", one);
  const wide = annotate("P({Death, \"my y\"}_{{X}, {\"M, N\", K}_{\"my x'\"}}) = P(Death)");
  check("with names as words", wide === "P({\\text{Death}, \\text{my y}}_{{X}, {\\text{“M, N”}, K}_{\\text{my x}'}}) = P(\\text{Death})", wide);
  for (const tex of [one, wide]) check("KaTeX takes it", katex.renderToString(tex, { trust: true, strict: "ignore" }).includes("katex"), tex);
  const copied = naturalTex({ ...about, given: ["C"], factors: [], formula: "(sum{M} P(C) * P(M|C,X') * P(Y|C,X,M)) / P(C)" });
  check("what is copied", copied === "P({Y}_{{X}, {M}_{X'}} \\mid C) = \\frac{\\sum_{M} P(C) P(M \\mid C, X') P(Y \\mid C, X, M)}{P(C)}", copied);
  const part = { effect: "P(M|do(W,X',Y))", definitions: ["P(M|W,X')"], tree: { quotient: [{ definition: 0 }, { sum: ["M"], of: { definition: 0 } }] }, definition_trees: [{ term: ["M"], do: [], given: ["W", "X'"] }] };
  const parts = naturalTex({ ...about, formula: "sum{M} P(M|do(W,X',Y)) * P(Y|X,M)", factors: [part, { ...part, definitions: [], definition_trees: [] }] }).split("\n");
  check("with the parts of its factors", parts.length === 5 && parts[2] === "P(M \\mid \\mathrm{do}(W, X', Y)) &= \\frac{q_{0}}{\\sum_{M} q_{0}} \\\\" && parts[3] === "q_{0} &= P(M \\mid W, X')", parts);
  const shown = (object) => {
    const { vertices, edges = [] } = naturalMarks({ ...about, ...object }, graph);
    return [[...vertices].map((pair) => pair.join(":")), edges.map(({ a, b, both, cls }) => `${a}${both ? "<->" : "->"}${b} ${cls}`)].map((list) => list.join(", ")).join(" | ");
  };
  check("a formula marks the mediators", shown({}) === "M:chosen | ", shown({}));
  check("a recanting witness", shown({ treatment: "X", witness: "L" }) === "M:chosen, L:witness | X->L open", shown({ treatment: "X", witness: "L" }));
  const district = shown({ treatment: "X", district: ["M", "Y"], direct_child: "Y", indirect_child: "M" });
  check("a district that reads both values", district === "M:witness, Y:witness | X->M open, X->Y open, M<->Y open", district);
  const hedge = shown({ hedge: { larger: ["X", "Y"], smaller: ["Y"], choices: [{ vertex: "X", child: "Y" }], links: [["X", "Y"]] } });
  check("a hedge", hedge === "M:chosen, X:hedge-big, Y:hedge-small | X->Y hedge, X<->Y hedge", hedge);
}

function testLevels() {
  const shown = levelsText([{ name: "A", level: "a\\b" }, { name: "B", level: 'x"\n\\' }, { name: "C", level: "1, 2" }]);
  check("levels that would break a line", shown === 'A=a\\b,B="x\\"\\n\\\\",C=1, 2', shown);
}

testLevels();
testInstruments();
testNatural();
testTreated();
testLines();
testSigns();
testTaken();
testFractions();
testNames();
testStatistics();
testWideSums();
testTables();
testKept();
testRoom();
testBends();
testFitting();
testLayout();
console.log(`${done} checks without the program, ${wrong} wrong`);
process.exit(wrong ? 1 : 0);
