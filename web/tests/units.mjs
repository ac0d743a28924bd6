// Random diagrams with odd names: the page's reading and changing of texts against the program, and its derivations.
//   node units.mjs MODULE.wasm [GRAPHS]
import katex from "katex";
import { readFileSync } from "node:fs";
import { load } from "../src/causal.mjs";
import { routed } from "../src/diagram/route.js";
import { faultOf, placesOf } from "../src/faults.js";
import { annotate, annotatePieces } from "../src/latex.js";
import { latex, parse } from "../src/expression.js";
import { keyOf } from "../src/diagram/geometry.js";
import { bitsOf, boundIn, boundsOf, edgesOf, graphOf as graphIn, impliedBy, instrumentsIn, nodesIn, ruleGraphOf, saidOf, sumText, textOf, valuesOf } from "../src/objects.js";
import { digitsAbove, digitsBelow, nearly } from "../src/statistics/fraction.js";
import { naturalTex } from "../src/paper.js";
import { derivedIn } from "../src/steps.js";
import { missingOf } from "../src/support.js";
import { levelsOf, readRows } from "../src/text/csv.js";
import * as edit from "../src/text/edit.js";
import { experimentsWord, levelsText, listWord, pathText, setText, termText } from "../src/text/printed.js";

const causal = await load(readFileSync(process.argv[2]));
const GRAPHS = Number(process.argv[3] ?? 1500);
const run = (words, text, more = {}) => causal.run(words, { g: text, ...more });
const read = (words, text, more) => saidOf(run([...words, "--json"], text, more));

let seed = 7;
const random = (n) => ((seed = (seed * 1103515245 + 12345) % 2147483648) >> 12) % n; // the low bits go round in short circles
const shuffled = (list) => [...list].sort(() => random(3) - 1);

let compared = 0, wrong = 0;
function same(what, got, wanted, about) {
  compared++;
  if (JSON.stringify(got) === JSON.stringify(wanted)) return;
  wrong++;
  if (wrong < 10) console.log(`differs: ${what}: ${JSON.stringify(got)}, wanted ${JSON.stringify(wanted)}\n${about}`);
}

const POOL = [
  "A", "B", "C1", "time of day", "x,y", "Übergewicht", "a_b", "50%", "p(x)", "日本", "D", "E", "-q", "#h", "sum",
  "q0", "dag",
];
const MARKS = ["exposure", "outcome", "adjusted", "latent"];
const quoted = (name) =>
  /^[^\s{}[\]";=,<>\-@]+$/.test(name) && !/^(\/\/|\/\*|#)/.test(name) && random(4) ? name : `"${name}"`;

function randomText() {
  const names = shuffled(POOL).slice(0, 3 + random(5)), at = (n) => names.indexOf(n);
  let text = `dag ${random(3) ? "" : "G "}{${random(2) ? "\n" : " "}`;
  if (!random(4)) text += 'bb="0,0,1,1"\n';
  for (const name of names) if (random(2)) text += quoted(name) + randomAttributes() + (random(2) ? "\n" : "; ");
  for (let e = 0; e < 5; e++) {
    const [a, b, c] = shuffled(names).slice(0, 3).sort((p, q) => at(p) - at(q)).map(quoted);
    text += [`${a} -> ${b} -> ${c}`, `${b}<-${a}`, `${a}<->${b} [pos="1,2"]`, `{${a} ${b}} -> {${c}}`][random(4)];
    text += random(2) ? "\n" : " ; ";
  }
  return `${text}}${random(2) ? "\n" : ""}`;
}

function randomAttributes() {
  if (random(2)) return ` [${MARKS[random(4)]}${random(2) ? `,pos="${random(9)},-${random(9)}.5"` : ""}]`;
  return random(3) ? "" : ' [pos=-1 , foo="b]r"]';
}

/** The graph of a text, by the program; its line where it's refused. */
function graphOf(text, ...flags) {
  const { object, fault } = read(["graph", "g", ...flags], text);
  return fault ? fault.told : graphIn(object);
}

/** A graph's edges as a set, since a changed text may say them in another order. */
function unordered(graph) {
  if (typeof graph === "string") return graph;
  return { vertices: graph.vertices, edges: graph.edges.map((e) => JSON.stringify(e)).sort() };
}

function testEdits(text, graph) {
  const { vertices, edges } = graph, [v, w] = [0, 0].map(() => vertices[random(vertices.length)].name);
  const withRole = (role) => ({ ...graph, vertices: vertices.map((x) => (x.name === v ? { ...x, role } : x)) });
  same("writing", graphOf(edit.write(graph, new Map())), graph, text);
  const moved = edit.change(text, new Map(vertices.map((x, i) => [x.name, { pos: `${i},-${i}.5` }])));
  same("pos keeps the graph", graphOf(moved), graph, text);
  same("pos is read", [...edit.positions(moved)].length, vertices.length, moved);
  same("a role", graphOf(edit.change(text, new Map([[v, { role: "adjusted" }]]))), withRole("adjusted"), text);
  same("no role", graphOf(edit.change(moved, new Map([[v, { role: null }]]))), withRole(null), text);
  const renamed = (n) => (n === v ? "new name" : n);
  same("renaming", graphOf(edit.rename(text, v, "new name")), {
    vertices: vertices.map((x) => ({ ...x, name: renamed(x.name) })),
    edges: edges.map((e) => ({ ...e, a: renamed(e.a), b: renamed(e.b) })),
  }, text);
  same("a vertex", graphOf(edit.addVertex(text, "fresh", "1,2")),
    { ...graph, vertices: [...vertices, { name: "fresh", role: null }] }, text);
  if (v !== w) same("an edge", typeof graphOf(edit.addEdge(text, { a: v, b: w, both: true })), "object", text);
  const left = { vertices: vertices.filter((x) => x.name !== v), edges: edges.filter((e) => e.a !== v && e.b !== v) };
  same("a vertex goes", unordered(graphOf(edit.removeVertex(text, graph, v))), unordered(left), text);
  const edge = edges[random(edges.length)], other = { ...edge, both: !edge.both };
  const without = edges.filter((e) => e !== edge);
  same("an edge goes", unordered(graphOf(edit.replaceEdge(text, graph, edge, []))),
    unordered({ ...graph, edges: without }), text);
  const isThere = edges.some((e) => edit.isSame(e, other)), changed = graphOf(edit.replaceEdge(text, graph, edge, [other]));
  if (/fault 11/.test(changed) && !other.both) return; // the arrow goes against others
  same("an edge changes", unordered(changed),
    unordered({ ...graph, edges: isThere ? without : [...without, turned(other, graph)] }), text);
}

/** A bidirected edge as the program prints it, its lower end first. */
function turned(edge, { vertices }) {
  const at = (name) => vertices.findIndex((v) => v.name === name);
  return edge.both && at(edge.b) < at(edge.a) ? { ...edge, a: edge.b, b: edge.a } : edge;
}

const plain = (e) => JSON.parse(JSON.stringify(e));
const listed = (names) => listWord(names);

/** The words of a rule, behind the program's name for it. */
const ruleWords = ({ n, y, z, doing, given }) => ["rule", "g", "--rule", String(n), "--y", listed(y), "--z", listed(z),
  "--do", listed(doing), "--given", listed(given)];

/**
 * The edges of a rule's graph, by the textbook: without those into what is set, and those out of z (rule 2) or into z
 * (rule 3, where nothing is observed; else a member of z keeps them where it is an ancestor of what is observed).
 */
function expectedEdges({ edges }, { n, z, doing, given }) {
  if (n === 3 && given.length) return null;
  const into = n === 3 ? [...doing, ...z] : doing;
  const isCut = ({ a, b, both }) => into.includes(b) || (both && into.includes(a)) || (n === 2 && !both && z.includes(a));
  return edges.filter((e) => !isCut(e)).map(keyOf);
}

function testRule(text, rule, graph, whole) {
  const { status, object } = read(ruleWords(rule), text), wanted = expectedEdges(whole, rule), about = text + JSON.stringify(rule);
  same("a rule holds", status, 0, about);
  same("its graph is told with it", ruleGraphOf(whole.vertices.map((v) => v.name), object.graph), graph, about);
  if (wanted) same("its edges", graph.edges.map(keyOf), wanted, about);
}

/** The lines that are printed of a derivation. */
const printedOf = ({ parts }) => parts.map(({ lemma, start, moves }) => [lemma === null ? "main" : `lemma ${lemma}`, start.text,
  ...moves.map(({ step, after }) => `${wordOf(step)}: ${after.text}`)].map((line) => `${line}\n`).join("")).join("");

const wordOf = ([word, , inner]) => (word === "at" ? wordOf(inner) : word);

/** The moves of a certificate's step in turn. */
const movesOf = (step) => {
  const [word, arg, inner] = step;
  return word === "then" ? arg.flatMap(movesOf) : word === "at" ? movesOf(inner).map((move) => [word, arg, move]) : [step];
};

function testDerivation(text, words) {
  const certificate = run([...words, "--certificate"], text).out, { formula, defs, lemmas, main } = JSON.parse(certificate);
  const asked = ["steps", "g", "c"], told = read(asked, text, { c: certificate }), whole = graphOf(text, "--project");
  same("steps are told", [told.status, told.object.answer], [0, "explained"], text);
  same("steps as they are printed", printedOf(told.object), run(asked, text, { c: certificate }).out, text);
  same("the steps of the certificate", told.object.parts.map(({ lemma, moves }) => [lemma, moves.map(({ step }) => step)]),
    [...lemmas.map(([, step], i) => [i, movesOf(step)]), [null, movesOf(main)]], text);
  const expressions = told.object.parts.flatMap(({ start, moves }) => [start, ...moves.map(({ after }) => after)]);
  same("their trees are their texts", expressions.map(({ tree }) => tree), expressions.map((one) => parse(one.text)), text);
  same("their LaTeX", expressions.map((one) => one.latex), expressions.map(({ tree }) => latex(tree)), text);
  const derived = derivedIn(told.object, whole.vertices.map((v) => v.name));
  const ends = derived.map(({ start, steps }) => steps.reduce((end, step) => step.whole ?? step.after, start));
  same("the last expressions", ends, [...defs, formula].map((printed) => latex(parse(printed))), text);
  for (const { rule, graph } of derived.flatMap((part) => part.steps)) if (rule) testRule(text, rule, graph, whole);
  const { object } = read(words, text), lines = object.latex.split("\n");
  const { answer, ...members } = object, { answer: explained, parts, ...accepted } = told.object;
  same("its formula is what is accepted", [explained, parts.length, accepted], ["explained", lemmas.length + 1, members], answer + text);
  same("its text is what is printed", textOf(object), run(words, text).out, text);
  same("its trees are its texts", [object.tree, ...object.definition_trees], [object.formula, ...object.definitions].map(parse), text);
  for (const line of lines) {
    const right = line.slice(line.indexOf(" = ") + 3);
    for (const tex of [annotate(line), ...annotatePieces(right)]) typesets(tex, line);
  }
  same("LaTeX", lines[0].slice(lines[0].indexOf(" = ") + 3), ends.at(-1), text);
}

/** That KaTeX takes this. */
function typesets(tex, about) {
  let error = "";
  try {
    katex.renderToString(tex, { trust: true, strict: "ignore" });
  } catch (e) {
    error = e.message;
  }
  same("typesetting", error, "", about);
}

function testAnswers(text, graph) {
  const order = graph.vertices.filter((x) => x.role !== "latent").map((x) => x.name);
  if (order.length < 2) return;
  const [x, y] = shuffled(order), sets = ["--x", listWord([x]), "--y", listWord([y])];
  const identified = read(["identify", "g", ...sets], text), short = read(["identify", "g", ...sets, "--short"], text);
  same("identify", identified.fault, null, text);
  same("a short form has the same status", short.status, identified.status, text);
  if (identified.status === 0) testDerivation(text, ["identify", "g", ...sets]);
  else testHedge(identified.object, run(["identify", "g", ...sets], text).out);
  if (short.status === 0 && short.object.formula !== identified.object.formula) testDerivation(text, ["identify", "g", ...sets, "--short"]);
  if (KNOWN.given) testCondition(text, order, x, y);
  if (KNOWN.implications) testImplications(text, order);
  if (KNOWN.surrogate) testSurrogate(text, order, sets, identified);
  testTreated(text, sets);
  testBounds(text, order, sets, [x, y]);
  if (KNOWN.natural) testNatural(text, order, sets, [x, y]);
  if (KNOWN.instruments) testInstruments(text, sets);
  const ask = ["separate", "g", ...sets, "--given", "{}"], separated = read(ask, text);
  if (separated.status === 1) testPath(separated.object.open, run(ask, text).out, x, y, graph, text);
  const adjusted = read(["adjust", "g", ...sets], text).object.sets;
  for (const set of adjusted) testMinimalSet(text, sets, set);
  for (const set of KNOWN.boundsBySet ? adjusted.slice(0, 2) : []) testBoundsBySet(text, order, sets, set);
  testOtherSet(text, order, sets, [x, y]);
  testAnyRule(text, order);
  testValues(text, order, x, y, adjusted);
}

/** That the objects of a hedge say what is printed of it. */
function testHedge({ effect, given, joint, hedge, models }, printed) {
  const lines = new Set(printed.trim().split("\n")), asked = given.length ? `${effect} not identified; ` : "";
  const wanted = [
    `${asked}${termText({ term: joint.y, do: joint.x, given: [] })} is not identifiable`,
    `hedge ${setText(hedge.larger)} over ${setText(hedge.smaller)} with roots ${setText(hedge.roots)}`,
    ...models.causes.map(({ acts_on: on, weights }, i) => `cause ${i} on ${setText(on)} with weights ${weights.join(" ")}`),
    ...[...bitsOf(models)].flatMap(([bit, sums]) => Object.entries(sums).map(([model, sum]) => `${model} ${bit} = ${sum}`)),
    `event ${sumText(models.event.sum)} even: ${models.event.first} in the first, ${models.event.second} in the second`,
  ];
  same("a hedge", wanted.filter((line) => !lines.has(line)), [], printed);
}

/** That a minimal set is admissible, and that its object says what is printed of its formula. */
function testMinimalSet(text, sets, set) {
  const words = ["adjust", "g", ...sets, "--set", listWord(set)], { status, object } = read(words, text);
  same("a minimal set", status, 0, text + set);
  same("its formula as it is printed", `admissible: ${setText(set)}\n${textOf(object)}`, run(words, text).out, text);
  same("its tree is its text", [object.tree, ...object.definition_trees], [object.formula, ...object.definitions].map(parse), text);
  same("its LaTeX", object.latex, [object.effect, object.formula].map((side) => latex(parse(side))).join(" = "), text);
  typesets(annotate(object.latex), object.latex);
}

/** A rule that need not hold: its object says what is printed of it. */
function testAnyRule(text, order) {
  const [y, z, ...rest] = shuffled(order), doing = rest.filter(() => !random(3)), given = rest.filter((name) => !doing.includes(name) && !random(3));
  const words = ruleWords({ n: 1 + random(3), y: [y], z: [z], doing, given }), { object } = read(words, text);
  const path = object.open ? `open: ${pathText(object.open)}\n` : "";
  same("a rule", `rule ${object.rule} ${object.answer}: ${object.left} = ${object.right}\n${path}`, run(words, text).out, text);
}

/** A set that need not be admissible, by both criteria: there is a formula where it is. */
function testOtherSet(text, order, sets, [x, y]) {
  const set = shuffled(order).filter((name) => name !== x && name !== y).slice(0, 2);
  for (const more of [[], ["--back-door"]]) {
    const words = ["adjust", "g", ...sets, "--set", listWord(set), ...more];
    const { status, object } = read(words, text);
    same("any set", [object.answer, "latex" in object], status === 0 ? ["admissible", true] : ["not admissible", false], text + set);
  }
}

const LEVELS = ["0", "1", "[0, 1)", "a b", "(2|3)", "x=1", ""];
const field = (value) => (/[",]/.test(value) ? `"${value.replaceAll('"', '""')}"` : value);

/** A table of a few records, so that some combinations have none: the levels of each record by name. */
function randomRecords(order) {
  const levels = new Map(order.map((name) => [name, shuffled(LEVELS).slice(0, 2)]));
  return Array.from({ length: 5 + random(12) }, () => new Map(order.map((name) => [name, levels.get(name)[random(2)]])));
}

/** Values over counts, by each way to the formula, and what no record has where there are none. */
function testValues(text, order, x, y, sets) {
  const records = randomRecords(order), t = [order, ...records.map((record) => order.map((name) => record.get(name)))]
    .map((row) => `${row.map(field).join(",")}\n`).join("");
  const given = order.filter((name) => name !== x && name !== y && !random(2)), ends = ["--x", listWord([x]), "--y", listWord([y])];
  const ways = [
    [[], ["identify", "g"], []], [["--short"], ["identify", "g", "--short"], []], ...sets.slice(0, 2).map((set) => [["--set", listWord(set)], ["adjust", "g", "--set", listWord(set)], []]),
    ...[[], ["--short"]].map((more) => [["--given", listWord(given), ...more], ["identify", "g", "--given", listWord(given), ...more], given]),
  ];
  for (const [words, question, condition] of ways) {
    const about = `${text}${t}${words.join(" ")}`, formula = formulaOf([...question, ...ends], text);
    const said = [[], ["--zero"]].map((more) => read(["evaluate", "g", "t", ...ends, ...words, "--exact", ...more], text, { t }));
    for (const { status, object, fault } of said) {
      if (status === 0) testCells(valuesOf(object), records, [y, x, condition], about);
      else if (status === 5) testMissing(fault, formula, records, about);
      else same("no formula", [status, formula], [1, null], about);
    }
    if (said[0].status === 0) same("zero cells change no value", said[1], said[0], about);
  }
}

/** The formula for these words; null where there is none. */
function formulaOf(words, text) {
  const { status, object } = read(words, text);
  return status === 0 ? object : null;
}

/** That each combination of levels is read once, with its levels. */
function testCells(cells, records, [y, x, given], about) {
  const levelsIn = (name) => [...new Set(records.map((record) => record.get(name)))];
  const words = (names) => names.reduce((list, name) => list.flatMap((word) =>
    levelsIn(name).map((level) => `${word}${word && ","}${name}=${level}`)), [""]);
  const wanted = words([y]).flatMap((p) => words([x]).flatMap((q) => words(given).map((r) => [p, q, r].join(" ; "))));
  const read = cells.map((c) => [c.y, c.x, c.given].map((part) => named(part, [y, x, ...given])).join(" ; "));
  same("the cells of an effect", read.sort(), wanted.sort(), about);
  same("their values", cells.every((c) => c.value >= 0 && c.value <= 1), true, about);
}

/** Printed levels with their names as they are. */
const named = (part, names) => names.reduce((rest, name) => rest.replace(`"${name}"=`, `${name}=`), part);

/** That no record has what is told to be missing, and that all that is given is told. */
function testMissing(fault, formula, records, about) {
  if (fault.number !== 1) return;
  const missing = missingOf(fault, formula);
  same("what is missing is read", Boolean(missing), true, about + fault.told);
  if (!missing?.term) return;
  missed++;
  const has = (record) => missing.at.every(({ name, level }) => record.get(name) === level);
  same("no record has it", records.some(has), false, about + fault.told + JSON.stringify(missing));
  same("all that is given is told", missing.at.map(({ name }) => name).sort(), parse(missing.term).given.sort(), about + fault.told);
  same("the term stands in the formula", nodesIn(formula).some((node) => node.term && termText(node) === missing.term), true, about + missing.term);
}

/** Which of the later questions the program of this module knows; the others aren't asked. */
const knows = (words) => run(words, "dag{A [exposure] B [outcome] A->B}").status !== 2;
const KNOWN = {
  given: knows(["identify", "g", "--given", "{}"]), implications: knows(["implications", "g"]),
  surrogate: knows(["surrogate", "g", "--experiments", "A"]), natural: knows(["natural", "g", "--through", "A"]), instruments: knows(["instruments", "g"]),
  boundsBySet: knows(["bounds", "g", "g", "--set", "{}"]),
};
function testCondition(text, order, x, y) {
  const z = shuffled(order).find((name) => name !== x && name !== y);
  if (!z) return;
  const words = ["identify", "g", "--x", listWord([x]), "--y", listWord([y]), "--given", listWord([z])];
  const said = run(words, text);
  same("a condition", said.status < 2, true, said.err + text);
  if (said.status === 0) testDerivation(text, words);
  if (said.status === 0) testDerivation(text, [...words, "--short"]);
  const { object } = read(words, text);
  if (said.status === 1) testHedge(object, said.out);
  same("whether it is settled is told of a hedge", typeof object.settled, said.status === 1 ? "boolean" : "undefined", said.out + text);
}

function testImplications(text, order) {
  const said = run(["implications", "g"], text), pairs = impliedBy(read(["implications", "g"], text).object);
  same("pairs", [pairs.length > 0, pairs.length], [said.status === 0, said.status ? 0 : said.out.trim().split("\n").length], said.out);
  for (const { a, b, given } of pairs) {
    const words = ["separate", "g", "--x", listWord([a]), "--y", listWord([b]), "--given", listWord(given)];
    same("a pair is separated", run(words, text).status, 0, text + said.out);
  }
  const rows = `${order.map((name) => `"${name}"`).join(",")}\n${[0, 1, 0].map((k) => order.map((_, i) => (i + k) % 2)).join("\n")}\n`;
  const counted = run(["implications", "g", "t"], text, { t: rows }), told = impliedBy(read(["implications", "g", "t"], text, { t: rows }).object);
  same("pairs over counts", told.map(({ a, b, given }) => ({ a, b, given })), pairs, counted.out + counted.err);
  const lines = told.map(({ difference, cell }) => `largest difference ${difference} at ${levelsText(cell)}`);
  same("each has its difference", lines, counted.out.trim().split("\n").filter((line) => line.startsWith("largest")), counted.out);
}

function testSurrogate(text, order, sets, identified) {
  const trials = [shuffled(order).slice(0, 1), shuffled(order).slice(0, 2)];
  const words = ["surrogate", "g", ...sets, "--experiments", experimentsWord(trials)], { status, object, fault } = read(words, text);
  same("experiments", fault, null, text);
  if (identified.status === 0) same("what is identified needs none", status, 0, text);
  if (status === 1) return same("a district", run(words, text).out.split("\n")[1], `district ${setText(object.district)}`, text);
  same("its text is what is printed", textOf(object), run(words, text).out, text);
  for (const line of object.latex.split("\n")) typesets(annotate(line), line);
}

/** The effect among the treated: its object says what is printed. */
function testTreated(text, sets) {
  const words = ["treated", "g", ...sets], said = run(words, text), { status, object, fault } = read(words, text);
  if (fault) return same("the fault of the treated", fault.stage, "target", text);
  if (status === 0) {
    same("the treated as they are printed", textOf(object), said.out, text);
    typesets(annotate(object.latex), object.latex);
    return same("the LaTeX of the treated", object.latex, [object.effect, object.formula].map((side) => latex(parse(side))).join(" = "), text);
  }
  const { treatment, child, path } = object, joint = termText({ term: object.joint.y, do: object.joint.x, given: [] });
  const head = object.hedge ? `${object.effect} is not identifiable` : `${object.effect} is left open: ${joint} is identifiable`;
  same("why the treated have no formula", said.out.split("\n").slice(0, 2), [head, `${pathText({ vertices: [treatment, child], marks: ["->"] })} and ${pathText(path)}`], text);
  if (object.hedge) testHedge(object, said.out.split("\n").slice(2).join("\n"));
}

/** Natural effects through some of the others: the object says what is printed, and is typeset. */
function testNatural(text, order, sets, [x, y]) {
  testThrough(text, sets, shuffled(order).filter((name) => name !== x && name !== y).slice(0, 1 + random(2)));
}

function testThrough(text, sets, through) {
  const words = ["natural", "g", ...sets, "--through", listWord(through)];
  const said = run(words, text), { status, object, fault } = read(words, text);
  if (fault) return same("the fault of a natural effect", [fault.stage, through.length ? 0 : fault.number], ["target", through.length ? 0 : 11], text);
  const lines = said.out.split("\n"), joint = termText({ term: object.joint?.y ?? [], do: object.joint?.x ?? [], given: [] });
  const nil = (way, what) => `no directed path leads from ${setText(object.x)} ${way} ${setText(object.through)} to ${setText(object.y)}: the ${what} effect is nil`;
  natural[object.answer]++;
  if (status === 0) {
    same("a natural effect as it is printed", lines[0], `${object.effect} = ${object.formula}`, text);
    // (a factor that is a product stands between brackets in the object, and within its product on the page)
    const bare = (written) => written.replaceAll("\\left( ", "").replaceAll(" \\right)", "");
    same("its LaTeX", bare(object.latex.slice(object.latex.indexOf(" = ") + 3)), bare(latex(parse(object.formula))), text);
    for (const line of [object.latex, ...object.factors.flatMap((one) => one.latex.split("\n"))]) typesets(annotate(line), line);
    typesets(naturalTex(object), object.formula);
    for (const one of object.factors) same("a factor's trees are its texts", [one.tree, ...one.definition_trees], [one.formula, ...one.definitions].map(parse), text);
  } else if (object.hedge) {
    same("no natural effect", lines[0], `${object.effect} is not identifiable`, text);
    testHedge({ ...object, given: [] }, lines.slice(1).filter((line) => !line.startsWith("no directed path")).join("\n"));
  } else {
    same("no natural effect beside a joint one", [lines[0], lines[2]], [`${object.effect} is not identifiable`, `${joint} is identifiable`], text);
    const both = object.witness ? pathText({ vertices: [object.witness], marks: [] }) : `district ${setText(object.district)}`;
    same("by what", lines[1].startsWith(`${both} reads `), true, said.out);
  }
  same("what is nil", [nil("through", "indirect"), nil("past", "direct")].map((line) => lines.includes(line)), [!object.indirect, !object.direct], said.out);
}

const natural = { formula: 0, hedge: 0, witness: 0, district: 0 };

/** Diagrams in which x acts on what lies before mediators, with hidden causes among the rest: there it is read twice too. */
function testReadTwice() {
  const names = ["X", "L", "K", "M", "Y"];
  for (let k = 0; k < 200; k++) {
    const edges = names.flatMap((a, i) => names.slice(i + 1).flatMap((b) => [...(random(3) ? [`${a} -> ${b}`] : []), ...(a !== "X" && !random(6) ? [`${a} <-> ${b}`] : [])]));
    testThrough(`dag { ${names.join(" ")} ${edges.join(" ")} }`, ["--x", "X", "--y", "Y"], random(2) ? ["M"] : ["K", "M"]);
  }
}

/** Instruments: the object lists what is printed, and the program takes each for bounds. */
function testInstruments(text, sets) {
  const words = ["instruments", "g", ...sets], { out } = run(words, text), { status, object, fault } = read(words, text);
  same("instruments have no fault", fault, null, text);
  const { instruments, more } = instrumentsIn(object), lines = [...instruments.map(({ name, strata }) => `${listWordOf(name)} given ${setText(strata)}`), ...more.map((name) => `more of ${listWordOf(name)}`)];
  same("instruments as they are printed", lines.sort(), out.split("\n").filter((line) => line && line !== "none").sort(), text);
  same("their status", status, instruments.length ? 0 : 1, text);
}

/** A name as it is printed. */
const listWordOf = (name) => pathText({ vertices: [name], marks: [] });

/** Bounds by a set that is admissible: over counts that lack some strata they are printed as they are said. */
function testBoundsBySet(text, order, sets, set) {
  const rows = [order, ...Array.from({ length: 12 }, () => order.map(() => LEVELS[random(2)]))].map((row) => row.map(field).join(",")).join("\n");
  const words = ["bounds", "g", "t", ...sets, "--set", listWord(set), "--exact"], { out } = run(words, text, { t: `${rows}\n` }), { status, object, fault } = read(words, text, { t: `${rows}\n` });
  same("bounds by a set have no fault", [status, fault], [0, null], text + rows);
  if (status !== 0) return;
  const lines = boundsOf(object).map((c) => `P(${c.y}|do(${c.x})) at least ${c.low.text}, at most ${c.high.text}\n`);
  same("bounds by a set as they are printed", [lines.join(""), object.set], [out, set], text + rows);
}

/** Bounds over random counts: their object says what is printed, and the digits that are shown enclose them. */
function testBounds(text, order, sets, [x, y]) {
  const others = order.filter((name) => name !== x && name !== y), instrument = random(2) ? shuffled(others).slice(0, 1) : [];
  const rows = [order, ...Array.from({ length: 30 }, () => order.map(() => LEVELS[random(2)]))].map((row) => row.map(field).join(",")).join("\n");
  const words = ["bounds", "g", "t", ...sets, ...(instrument.length ? ["--instrument", listWord(instrument)] : []), "--exact"];
  const { out } = run(words, text, { t: `${rows}\n` }), { status, object, fault } = read(words, text, { t: `${rows}\n` });
  same("bounds have no fault", fault, null, text + rows);
  const cell = ({ y: of, x: doing, given }) => `P(${of}|do(${doing})${given ? `,${given}` : ""})`;
  if (status === 0) {
    const cells = boundsOf(object), lines = cells.map((c) => `${cell(c)} at least ${c.low.text}, at most ${c.high.text}\n`);
    same("bounds as they are printed", lines.join(""), out, text + rows);
    same("in digits they are no less wide", cells.every(({ low, high }) => Number(digitsBelow(low)) <= nearly(low) + 1e-9 && Number(digitsAbove(high)) >= nearly(high) - 1e-9), true, out);
  } else if (object.crossed) same("bounds that cross", out.split("\n")[0], "no model of this diagram has these counts", text + rows);
  else {
    const why = object.moved ? `moved: ${pathText({ vertices: [object.moved], marks: [] })}` : `open: ${pathText(object.open)}`;
    same("no instrument", out, `no instrument: ${setText(instrument)} given {}\n${why}\n`, text);
    bounded.none++;
  }
  bounded.all++;
}

const bounded = { all: 0, none: 0 };

/** Objects that few diagrams give. */
function testObjects() {
  same("trials", experimentsWord([["a;b", "c"], ["{}"], ["-d,e"]]), '"a;b",c;"{}";"-d,e"', "");
  const bytes = impliedBy({ pairs: [{ x: "A", y: "b c", given: [], difference: "-5", cell: [["A", "0"], ["b c", [99, 97, 102, 233]]] }] });
  same("a level that isn't UTF-8", levelsText(bytes[0].cell), 'A=0,"b c"=caf\ufffd', "");
  const cell = { y: [["R", "success"]], x: [], given: [["S", "a,b"]], from: "0.5", to: "0.7" };
  same("bounds", valuesOf({ cells: [cell] }), [{ y: "R=success", x: "", given: "S=a,b", hadIt: false, text: "0.5 … 0.7", value: 0.6 }], "");
  const napkin = read(["identify", "g"], "dag { X [exposure] Y [outcome] W Z W -> Z -> X -> Y W <-> X W <-> Y }").object;
  const levels = [["W", "1"], ["Z", "0"], ["X", "1"], ["Y", "0"]];
  same("a condition in a part", missingOf({ definition: 0, node: 3, cell: levels }, napkin),
    { term: "P(X|W,Z)", at: [{ name: "W", level: "1" }, { name: "Z", level: "0" }] }, "");
  same("a divisor", missingOf({ definition: null, node: 0, cell: levels }, napkin),
    { term: null, at: [{ name: "Z", level: "0" }, { name: "X", level: "1" }] }, "");
  same("bound names", boundIn(napkin), ["Y", "W"], "");
  same("what has no object", faultOf(undefined, "causal: no memory\n"), { number: 0, sentence: "causal: no memory", told: "causal: no memory" }, "");
  const at = (stage, more) => faultOf({ stage, number: 1, message: "a thing is so", ...more }, "").sentence;
  same("sentences", [at("graph", { names: ["A", "B"] }), at("target", { names: ["A", "B"] }), at("counts", { row: 7 }), at("target", { name: "Z" }), at("graph", {})],
    ["A thing is so: A → B → A.", "A thing is so: A ↔ B.", "A thing is so: row 7.", "A thing is so: Z.", "A thing is so."], "");
}

function testPath(open, printed, x, y, graph, text) {
  const path = edgesOf(open), ends = (e) => [e.a, e.b];
  same("a path as it is printed", printed.includes(`open: ${pathText(open)}\n`), true, printed);
  same("a path's ends", [ends(path[0]).includes(x), ends(path.at(-1)).includes(y)], [true, true], text);
  const drawn = (e) => graph.edges.some((f) => edit.isSame(e, f));
  same("a path is drawn", routed(graph, path).every(drawn), true, text + printed);
}

let accepted = 0, missed = 0;
for (let k = 0; k < GRAPHS; k++) {
  const text = randomText(), { object, fault } = read(["graph", "g"], text);
  if (fault) {
    const places = placesOf(fault, text);
    same("a fault's places", places.every((p) => p.start <= p.end && p.start <= text.length), true, text);
    continue;
  }
  accepted++;
  testEdits(text, graphIn(object));
  testAnswers(text, graphIn(object));
}

testObjects();
const circle = "dag { A -> B -> C\nC -> A\nD }", marks = placesOf(read(["graph", "g"], circle).fault, circle);
same("a circle's places", marks.map((m) => circle.slice(m.start, m.end)), ["A -> B", "B -> C", "C -> A"], circle);
const rows = readRows('a,"b ""x""",n\r\n1,"p,q",2\n1,r,3\n');
same("a CSV", rows, [["a", 'b "x"', "n"], ["1", "p,q", "2"], ["1", "r", "3"]], "");
same("levels", [...levelsOf(rows, ["a"], "n").get("a")], [["1", 5]], "");

same("some sets are no instruments", bounded.none > bounded.all / 20 && bounded.none < bounded.all, true, JSON.stringify(bounded));
if (KNOWN.natural) {
  same("natural effects of each kind", [natural.formula, natural.hedge].every((n) => n > accepted / 50), true, JSON.stringify(natural));
  testReadTwice();
  same("some read both values", natural.witness + natural.district > 20, true, JSON.stringify(natural));
}
same("some tables lack records", missed > accepted / 20, true, missed);
console.log(`${compared} comparisons on ${accepted} random diagrams, ${wrong} wrong`);
process.exit(wrong ? 1 : 0);
