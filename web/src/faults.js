// What the program refuses, as a sentence, and where in a text it stands.
import { bare, isEdgeMark, tokens } from "./text/tokens.js";

/**
 * The members of the program's object, `number` 0 where there is none; behind them the fault as a sentence, and as the program's line.
 * @typedef {{number: number, stage?: string, byte?: number, line?: number, column?: number, name?: string, names?: string[], row?: number,
 *   definition?: number | null, node?: number, cell?: [string, string | number[]][], sentence: string, told: string}} Fault
 */
/** @typedef {{start: number, end: number}} Mark a place in a text */

/** The fault of an object, or of a line without one. @returns {Fault} */
export function faultOf(object, err) {
  const told = err.trim();
  return object ? { ...object, sentence: sentenceOf(object), told } : { number: 0, sentence: told || "No answer.", told };
}

/** The program's message, and behind it what it is about. The names x, y and z stay small: they are no vertices. */
function sentenceOf({ stage, number, message, name, names, row }) {
  if (lacksMark({ stage, number })) return LACKING[message[0]] ?? LACKING.x;
  const about = names ? (stage.endsWith("graph") ? [...names, names[0]].join(" → ") : names.join(" ↔ ")) : name ?? (row && `row ${row}`);
  return `${message.replace(/^(?![xyz]\b)[a-z]/, (letter) => letter.toUpperCase())}${about ? `: ${about}` : ""}.`;
}

/** What to do where a list is empty: y, x, or z of a rule. */
const LACKING = { y: "Mark an outcome", x: "Mark an exposure", z: "Choose z, or mark an exposure" };

/** Whether the lists lack an outcome, or an exposure. */
export const lacksMark = ({ stage, number }) => stage === "target" && (number === 4 || number === 5);

/** Whether the formula has no value since some combination of levels has no record. @param {Fault} fault */
export const isWithoutRecords = ({ stage, number }) => stage === "evaluation" && number === 1;

/** Where in the text a fault of the graph stands. @returns {Mark[]} one at least, in order */
export function placesOf({ number, byte, name, names }, text) {
  const list = tokens(text), end = { start: text.length, end: text.length };
  if (byte !== undefined) return [atByte(byte, list, text)];
  if (names) return aroundCircle(names, list) ?? [end];
  if (number === NOT_A_DAG) return [list[0] ?? end];
  return [list.find((t) => bare(t.text) === name) ?? end];
}

const NOT_A_DAG = 4; // the text begins with another word

const beforeByte = (byte, text) => new TextDecoder().decode(new TextEncoder().encode(text).slice(0, byte));

function atByte(byte, list, text) {
  const start = beforeByte(byte, text).length;
  const token = list.find((t) => t.start <= start && start < t.end);
  return { start, end: token?.end ?? Math.max(start, text.length) };
}

/** The arrows of a circle, each from its first end to its second; where one is said by groups, the names. */
function aroundCircle(names, list) {
  const marks = names.map((a, i) => arrow(a, names[(i + 1) % names.length], list));
  const found = marks.every(Boolean) ? marks : list.filter((t) => names.includes(bare(t.text)));
  const inOrder = found.sort((p, q) => p.start - q.start);
  return inOrder.length ? inOrder : null;
}

function arrow(a, b, list) {
  for (let i = 1; i + 1 < list.length; i++) {
    if (!isEdgeMark(list[i])) continue;
    const [left, right] = [bare(list[i - 1].text), bare(list[i + 1].text)];
    const goes = list[i].text === "->" ? left === a && right === b : list[i].text === "<-" && left === b && right === a;
    if (goes) return { start: list[i - 1].start, end: list[i + 1].end };
  }
  return null;
}
