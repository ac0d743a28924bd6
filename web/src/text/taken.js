// Texts as DAGitty, R and a pasted page have them, in the form that the program reads. What was changed is told.
import { write } from "./edit.js";

/** @typedef {{text: string, changes: string[]}} Taken */

/** A text in the form of the program; null where nothing has to be changed. @returns {Taken | null} */
export function taken(text) {
  const changes = [];
  let now = text;
  for (const [step, what] of STEPS) {
    const next = step(now);
    if (next === null || next === now) continue;
    now = next;
    changes.push(what);
  }
  return changes.length ? { text: now, changes } : null;
}

// ---- R's call

const CALL = /^\s*(?:library\(\s*["']?dagitty["']?\s*\)\s*;?\s*)?(?:[\w.]+\s*(?:<-|=)\s*)?(?:dagitty::)?dagitty\(\s*(["'])([\s\S]*)\1\s*(?:,[^"']*)?\)\s*;?\s*$/;
const ESCAPES = { n: "\n", t: "\t", r: "\r" };

/** The text that a call such as dagitty("dag { .. }") holds. */
function outOfCall(text) {
  const m = CALL.exec(text);
  return m && `${m[2].replace(/\\([^])/g, (_, c) => ESCAPES[c] ?? c).trim()}\n`;
}

// ---- Comments and arrows: outside of quotes

const isStart = (text, at) => at === 0 || /[\s{}[\];,]/.test(text[at - 1]);

function withoutComments(text) {
  return text.replace(/"[^"\r\n]*"|\/\*[^]*?\*\/|(?:\/\/|#)[^\r\n]*/g, (part, at) => {
    if (part.startsWith('"') || !isStart(text, at)) return part;
    return "";
  }).replace(/[ \t]+(?=\r?\n)/g, "").replace(/\n(\s*\n)+/g, "\n");
}

const hasComments = (text) => [...text.matchAll(/"[^"\r\n]*"|\/\*[^]*?\*\/|(?:\/\/|#)[^\r\n]*/g)]
  .some((m) => !m[0].startsWith('"') && isStart(text, m.index));

const ARROWS = { "→": "->", "⟶": "->", "←": "<-", "⟵": "<-", "↔": "<->", "⟷": "<->" };

const plainArrows = (text) => text.replace(/"[^"\r\n]*"|\s*([→⟶←⟵↔⟷])\s*/g, (part, arrow) => (arrow ? ` ${ARROWS[arrow]} ` : part));

// ---- DAGitty's older form

const OLD_MARKS = { E: "exposure", O: "outcome", A: "adjusted", U: "latent", 1: null };
const OLD_VERTEX = /^(\S+)\s+([EOAU]|1)(?:\s+@\s*(-?[\d.]+)\s*,\s*(-?[\d.]+))?\s*$/;

/** The text of DAGitty's older form: a block of vertices with their marks, and a block with each vertex's children. */
function fromOldForm(text) {
  const lines = text.trim().split(/\r?\n/), gap = lines.findIndex((line) => !line.trim());
  const heads = (gap < 0 ? lines : lines.slice(0, gap)).map((line) => OLD_VERTEX.exec(line.trim()));
  if (!text.trim() || heads.some((m) => !m)) return null;
  const vertices = heads.map((m) => ({ name: decoded(m[1]), role: OLD_MARKS[m[2]] })), known = new Set(vertices.map((v) => v.name));
  const places = new Map(heads.filter((m) => m[3]).map((m) => [decoded(m[1]), { x: Number(m[3]), y: Number(m[4]) }]));
  const rows = gap < 0 ? [] : lines.slice(gap).map((line) => line.trim().split(/\s+/).filter((word) => word && !word.startsWith("@")).map(decoded));
  const edges = rows.flatMap(([a, ...children]) => children.map((b) => ({ a, b, both: false })));
  return edges.every(({ a, b }) => known.has(a) && known.has(b)) ? write({ vertices, edges }, places) : null;
}

/** A name as the older form has it, with signs of an address for blanks and the like. */
function decoded(name) {
  try {
    return decodeURIComponent(name);
  } catch {
    return name;
  }
}

// ---- Quotation marks, and DAGitty's short marks

/** A text with straight quotation marks, but for those in a name that has them. */
export const straightQuotes = (text) => text.replace(/"[^"\r\n]*"|[\u201c\u201d\u201e\u201f\u00ab\u00bb]/g, (part) => (part.startsWith('"') ? part : '"'));

const MARKS = { e: "exposure", o: "outcome", a: "adjusted", u: "latent", unobserved: "latent", l: "latent" };

/** Marks such as [e] and [unobserved] in full; a mark that stands for nothing, as [observed], goes. */
function longMarks(text) {
  return text.replace(/"[^"\r\n]*"|\[((?:[^\]"]|"[^"]*")*)\]/g, (part, inside) => {
    if (inside === undefined) return part;
    const items = inside.match(/(?:[^,"]|"[^"]*")+/g) ?? [], kept = items.map((item) => MARKS[item.trim()] ?? item.trim()).filter((item) => item !== "observed");
    return kept.join() === items.map((item) => item.trim()).join() ? part : kept.length ? `[${kept.join(",")}]` : "";
  });
}

// ---- Graphviz, dagify and lavaan

const DIGRAPH = /^\s*(?:strict\s+)?digraph\b(?:\s+(?:"[^"]*"|[\w.]+))?\s*\{([\s\S]*)\}\s*$/;

/** A digraph of Graphviz: its attributes go, and an edge with two heads is a common hidden cause. */
function fromDigraph(text) {
  const m = DIGRAPH.exec(text);
  if (!m) return null;
  const plain = m[1].replace(/\/\*[^]*?\*\/|(?:\/\/|#)[^\r\n]*/g, "").replace(/\b(?:node|edge|graph)\s*\[[^\]]*\]\s*;?/g, "").replace(/\b\w+\s*=\s*(?:"[^"]*"|[^\s;"\]]+)\s*;?(?![^[]*\])/g, "");
  const edges = plain.replace(/->((?:[^;\n[])*)\[([^\]]*)\]/g, (all, end, marks) => (/dir\s*=\s*"?both/.test(marks) ? `<->${end}` : `->${end}`)).replace(/\[[^\]]*\]/g, "");
  const lines = edges.split(/[;\r\n]+/).map((line) => line.trim()).filter(Boolean);
  return `dag {\n${lines.join("\n")}\n}\n`;
}

const termsOf = (side) => side.split("+").map((term) => term.replace(/^.*\*/, "").trim()).filter((term) => /^[\p{L}.][\p{L}\p{N}._]*$/u.test(term));

/** Edges of formulas such as y ~ x + z, x ~~ y and f =~ x1 + x2; null where one is none of these. */
function edgesOfFormulas(formulas) {
  const edges = [], latent = new Set();
  for (const formula of formulas) {
    const m = /^([^~=]+?)\s*(~~|=~|~)\s*([^~=]+)$/.exec(formula), left = m && termsOf(m[1]), right = m && termsOf(m[3]);
    if (!m || !left.length || (!right.length && m[2] !== "~")) return null;
    for (const y of left) {
      if (m[2] === "=~") latent.add(y);
      for (const x of right) if (x !== y) edges.push(m[2] === "=~" ? { a: y, b: x, both: false } : { a: x, b: y, both: m[2] === "~~" });
    }
  }
  return { edges, latent };
}

function fromFormulas(formulas, roles) {
  const found = formulas.length ? edgesOfFormulas(formulas) : null;
  if (!found || !found.edges.length) return null;
  const names = [...new Set([...found.edges.flatMap(({ a, b }) => [a, b]), ...roles.keys()])];
  const vertices = names.map((name) => ({ name, role: roles.get(name) ?? (found.latent.has(name) ? "latent" : null) }));
  return write({ vertices, edges: found.edges }, new Map());
}

const DAGIFY = /^\s*(?:library\(\w+\)\s*;?\s*)*(?:[\w.]+\s*(?:<-|=)\s*)?(?:ggdag::)?dagify\(([\s\S]*)\)\s*;?\s*$/;

/** A call of dagify, of R's package ggdag. */
function fromDagify(text) {
  const m = DAGIFY.exec(text);
  if (!m) return null;
  const args = m[1].replace(/#[^\r\n]*/g, "").match(/(?:[^,()"']|\([^()]*(?:\([^()]*\)[^()]*)*\)|"[^"]*"|'[^']*')+/g) ?? [], roles = new Map();
  for (const [word, role] of [["exposure", "exposure"], ["outcome", "outcome"], ["latent", "latent"]]) {
    const arg = args.find((a) => new RegExp(`^\\s*${word}\\s*=`).test(a));
    for (const name of (arg ?? "").matchAll(/["']([^"']*)["']/g)) roles.set(name[1], role);
  }
  return fromFormulas(args.map((a) => a.trim()).filter((a) => a.includes("~") && !/^\w+\s*=[^~]/.test(a)), roles);
}

/** A model of lavaan: a formula in each line, and nothing else. */
function fromLavaan(text) {
  const inside = /^\s*(?:[\w.]+\s*(?:<-|=)\s*)?(['"])([\s\S]*)\1\s*$/.exec(text)?.[2] ?? text;
  const lines = inside.replace(/#[^\r\n]*/g, "").split(/[;\r\n]+/).map((line) => line.trim()).filter(Boolean);
  return lines.length && lines.every((line) => line.includes("~")) ? fromFormulas(lines, new Map()) : null;
}

/** @type {[(text: string) => string | null, string][]} */
const STEPS = [
  [straightQuotes, "quotation marks are straight"],
  [outOfCall, "the text was taken out of R's call"],
  [fromDagify, "R's dagify was written as a dag"],
  [fromLavaan, "lavaan's formulas were written as arrows"],
  [fromDigraph, "Graphviz's digraph was written as a dag, without its attributes"],
  [(text) => (hasComments(text) ? withoutComments(text) : null), "comments were left out"],
  [plainArrows, "arrows are written with < - >"],
  [fromOldForm, "DAGitty's older form was written in its newer one"],
  [longMarks, "short marks were written in full"],
];
