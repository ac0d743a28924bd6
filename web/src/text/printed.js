// How the program prints names, sets and paths, and the words in which it takes them.

/** @typedef {{name: string, role: string | null}} Vertex */
/** @typedef {{a: string, b: string, both: boolean}} Edge from a to b, or in both directions */
/** @typedef {{vertices: Vertex[], edges: Edge[]}} Graph */

export const ROLES = ["exposure", "outcome", "adjusted", "latent"];

// ---- As it prints them

const QUOTED = /[ \t\r\n{}[\]";=,<>\-@()|*/]|^[#\u2190-\u21FF\u27F0-\u27FF\u2900-\u297F]/;

/** A name, between quotation marks where it needs them. */
export const nameText = (name) => (QUOTED.test(name) ? `"${name}"` : name);

const namesText = (names) => names.map(nameText).join(",");

export const setText = (names) => `{${namesText(names)}}`;

/** @param {import("../objects.js").Path} path */
export const pathText = ({ vertices, marks }) => vertices.map((name, i) => (i ? `${marks[i - 1]} ` : "") + nameText(name)).join(" ");

/** A term such as P(Y|do(X),Z). @param {import("../expression.js").Term} term */
export function termText({ term, do: doing, given }) {
  const conditions = [...(doing.length ? [`do(${namesText(doing)})`] : []), ...given.map(nameText)];
  return `P(${namesText(term)}${conditions.length ? `|${conditions.join(",")}` : ""})`;
}

/** Levels such as S=large,"b c"=1. @param {import("../objects.js").Level[]} levels */
export const levelsText = (levels) => levels.map(({ name, level }) => `${nameText(name)}=${levelText(level)}`).join(",");

const SIGNS = { "\n": "\\n", "\r": "\\r", '"': '\\"', "\\": "\\\\" };

/** A level as it stands; between quotation marks where it has one, or would break a line. */
const levelText = (level) => (/[\n\r"]/.test(level) ? `"${level.replace(/[\n\r"\\]/g, (sign) => SIGNS[sign])}"` : level);

// ---- As it takes them

const quotedWhere = (marks) => (name) => (marks.test(name) ? `"${name}"` : name);

/** A list of names as one word of the command line. */
export const listWord = (names, needsQuotes = /,|^-|^\{/) => names.map(quotedWhere(needsQuotes)).join(",") || "{}";

/** Lists of names as one word. @param {string[][]} sets */
export const experimentsWord = (sets) => sets.map((names) => listWord(names, /[,;]|^-|^\{/)).join(";");
