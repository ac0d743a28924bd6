// What to do about a text that the program refuses: the fault in plain words, and a text without it where that is clear.
import { bare, tokens } from "./tokens.js";

/** @typedef {{sentence: string, fixed?: string, label?: string}} Advice */

const NAME = "[\\p{L}\\p{N}_.]+";
const HYPHENED = new RegExp(`${NAME}(?:-${NAME})+`, "gu");
const ODD_ARROW = /(?:[=~]+>|-{2,}>|-\s+>)|(?:<[=~]+|<-{2,}|<\s+-)/g;
const OUTSIDE = /"[^"\r\n]*"|([^"]+)/g;

/** Changes what stands outside of quotes. */
const outside = (text, change) => text.replace(OUTSIDE, (part, free) => (free === undefined ? part : change(free)));

const touches = (m, at) => m.index <= at && at <= m.index + m[0].length;

/** @param {import("../faults.js").Fault} fault @param {number} at its place @returns {Advice | null} */
export function adviceOn({ number, name, names, stage = "graph" }, text, at) {
  if (!stage.endsWith("graph")) return null;
  if (!text.trim()) return { sentence: "The text is empty.", fixed: "dag {\n}\n", label: "Begin a diagram" };
  if (number === 4) return notADag(text);
  if (number === 5) return arrow(text, at) ?? { sentence: "This edge has no direction. Write -> or <-, or <-> for a common hidden cause." };
  if (number === 7) return { sentence: `${name} is marked selected. Selection isn't handled here: take the mark away only if records weren't selected by ${name}.` };
  if (number === 8) return { sentence: `An edge joins ${name} to itself. Take it away.` };
  if (number === 9) return { sentence: "There are more than 64 variables. Leave out what the question doesn't need." };
  if (number === 10) return { sentence: `${name} has two marks. Keep one of exposure, outcome, adjusted and latent.` };
  if (number === 11 && names) return { sentence: `These arrows have a cycle: ${[...names, names[0]].join(" → ")}. Turn one round, or take one away: nothing can be its own cause.` };
  if (number === 6) return unknownMark(text, at);
  return [hyphen, arrow, brace].map((look) => look(text, at)).find(Boolean) ?? null;
}

function notADag(text) {
  const word = /^\s*([\p{L}_]+)/u.exec(text)?.[1]?.toLowerCase() ?? "";
  if (["pdag", "mag", "pag"].includes(word)) return { sentence: `A ${word} isn't read, since some of its edges have no direction. Give each edge one, and begin with dag {.` };
  return { sentence: "A diagram begins with dag {. Read and rewritten are also R's dagitty and dagify, lavaan's formulas, Graphviz's digraph and DAGitty's older form." };
}

function unknownMark(text, at) {
  const token = tokens(text).find((t) => t.start <= at && at < t.end);
  return { sentence: `[${token ? bare(token.text) : "…"}] isn't known here. Marks are exposure, outcome, adjusted and latent (unmeasured); an edge has none.` };
}

function hyphen(text, at) {
  const found = [...text.matchAll(HYPHENED)].find((m) => touches(m, at));
  if (!found) return null;
  return {
    sentence: `A name with a hyphen needs quotation marks: "${found[0]}".`, label: "Put them",
    fixed: outside(text, (free) => free.replace(HYPHENED, (name) => `"${name}"`)),
  };
}

function arrow(text, at) {
  const found = [...text.matchAll(ODD_ARROW)].find((m) => touches(m, at));
  if (!found) return null;
  const plain = (sign) => (sign.startsWith("<") ? " <- " : " -> ");
  return {
    sentence: `An arrow is written -> or <-, not ${found[0].replace(/\s+/g, " ")}.`, label: "Write it so",
    fixed: outside(text, (free) => free.replace(/\s*((?:[=~]+>|-{2,}>|-\s+>)|(?:<[=~]+|<-{2,}|<\s+-))\s*/g, (_, sign) => plain(sign))),
  };
}

function brace(text) {
  const plain = text.replace(/"[^"\r\n]*"/g, ""), count = (sign) => plain.split(sign).length - 1;
  if (count('"') % 2) return { sentence: "A quotation mark is missing: a name stands between two of them, in one line." };
  if (count("{") > count("}")) return { sentence: "A closing brace } is missing at the end.", fixed: `${text.trimEnd()}\n}\n`, label: "Put it" };
  if (count("[") > count("]")) return { sentence: "A closing bracket ] is missing behind a variable's marks." };
  return null;
}
