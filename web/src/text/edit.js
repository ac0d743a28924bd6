// Changing the user's text with as little disturbance as possible. Each text here was accepted by the program.

/** @typedef {import("./printed.js").Graph} Graph  @typedef {import("./printed.js").Edge} Edge */
/** @typedef {{x: number, y: number}} Point  @typedef {{role?: string | null, pos?: string | null}} Wish */

import { ROLES } from "./printed.js";
import { bare, survey } from "./tokens.js";

/** How a name may not begin without quotes: as a comment, or as an arrow of Unicode. */
const ODD_FRONT = /^(\/\/|\/\*|#|[\u2190-\u21ff\u27f0-\u27ff\u2900-\u297f])/;

const nameText = (name) => (/^[^\s{}[\]";=,<>\-@]+$/.test(name) && !ODD_FRONT.test(name) ? name : `"${name}"`);

const edgeText = ({ a, b, both }) => `${nameText(a)} ${both ? "<->" : "->"} ${nameText(b)}`;

/** Whether a text can be a vertex's name. */
export const isName = (name) => /^[^"\r\n]+$/.test(name);

/** The places that a text gives by pos="x,y". @returns {Map<string, Point>} */
export function positions(text) {
  const places = new Map();
  for (const { name, attrs } of survey(text).vertices) {
    const pos = attrs?.items.find((a) => a.key === "pos")?.value?.split(",").map(Number);
    if (pos?.length === 2 && pos.every(Number.isFinite)) places.set(name, { x: pos[0], y: pos[1] });
  }
  return places;
}

const splice = (text, edits) =>
  edits.sort((p, q) => q.start - p.start).reduce((t, e) => t.slice(0, e.start) + e.text + t.slice(e.end), text);

/** Puts lines before the last brace. */
function append(text, close, lines) {
  const lead = /\n[ \t]*$/.test(text.slice(0, close)) ? "" : "\n";
  return text.slice(0, close) + lead + lines.map((line) => `${line}\n`).join("") + text.slice(close);
}

const wanted = ({ role, pos }) => [...(role ? [role] : []), ...(pos ? [`pos="${pos}"`] : [])];

/** Sets or drops attributes of vertices. @param {Map<string, Wish>} wishes */
export function change(text, wishes) {
  const { vertices, close } = survey(text), edits = [], seen = new Set();
  for (const { name, end, attrs } of vertices) {
    const wish = wishes.get(name);
    if (!wish) continue;
    const goes = (a) => ("role" in wish && !a.value && ROLES.includes(a.key)) || ("pos" in wish && a.key === "pos");
    const kept = (attrs?.items ?? []).filter((a) => !goes(a)).map((a) => a.text);
    const list = [...(seen.has(name) ? [] : wanted(wish)), ...kept];
    seen.add(name);
    edits.push({ start: end, end: attrs?.end ?? end, text: list.length ? ` [${list.join(",")}]` : "" });
  }
  const fresh = [...wishes].filter(([name, wish]) => !seen.has(name) && wanted(wish).length);
  const lines = fresh.map(([name, wish]) => `${nameText(name)} [${wanted(wish).join(",")}]`);
  return splice(lines.length ? append(text, close, lines) : text, edits);
}

export const addVertex = (text, name, pos) =>
  append(text, survey(text).close, [nameText(name) + (pos ? ` [pos="${pos}"]` : "")]);

export const addEdge = (text, edge) => append(text, survey(text).close, [edgeText(edge)]);

export function rename(text, old, name) {
  const named = survey(text).names.filter((token) => bare(token.text) === old);
  return splice(text, named.map((token) => ({ ...token, text: nameText(name) })));
}

/** The edges of a statement such as A -> {B C} <-> D. @returns {Edge[]} */
function edgesOf({ groups, marks }) {
  return marks.flatMap((mark, i) => groups[i].flatMap((p) => groups[i + 1].map((q) => {
    const [a, b] = [bare(p.text), bare(q.text)];
    return mark === "<-" ? { a: b, b: a, both: false } : { a, b, both: mark === "<->" };
  })));
}

/** Whether two edges are the same one. */
export const isSame = (e, f) =>
  e.both === f.both && ((e.a === f.a && e.b === f.b) || (e.both && e.a === f.b && e.b === f.a));

/**
 * Puts edges in the place of one. Only the statements that say it change, where the vertices keep their order;
 * else the text is written anew.
 * @param {Graph} graph the text's own
 */
export function replaceEdge(text, graph, edge, by) {
  const edits = [];
  let left = by;
  for (const statement of survey(text).edges) {
    const edges = edgesOf(statement);
    if (!edges.some((e) => isSame(e, edge))) continue;
    const kept = edges.filter((e) => !isSame(e, edge));
    edits.push({ start: statement.start, end: statement.end, text: [...left, ...kept].map(edgeText).join("\n") });
    left = [];
  }
  return checked(dropBlankLines(splice(text, edits), text), graph.vertices.map((v) => v.name))
    ?? write({ ...graph, edges: graph.edges.flatMap((e) => (isSame(e, edge) ? by : [e])) }, positions(text));
}

/** Takes a vertex with its edges out of the text. @param {Graph} graph the text's own */
export function removeVertex(text, graph, name) {
  const at = (e) => e.a === name || e.b === name, { vertices, edges } = survey(text), edits = [];
  for (const v of vertices.filter((v) => v.name === name)) {
    const start = v.end - (text[v.end - 1] === '"' ? name.length + 2 : name.length);
    edits.push({ start, end: v.attrs?.end ?? v.end, text: "" });
  }
  for (const statement of edges) {
    const all = edgesOf(statement);
    if (all.some(at)) {
      const kept = all.filter((e) => !at(e));
      edits.push({ start: statement.start, end: statement.end, text: kept.map(edgeText).join("\n") });
    }
  }
  const rest = graph.vertices.filter((v) => v.name !== name);
  return checked(dropBlankLines(splice(text, edits), text), rest.map((v) => v.name))
    ?? write({ vertices: rest, edges: graph.edges.filter((e) => !at(e)) }, positions(text));
}

const dropBlankLines = (changed, text) =>
  /\n[ \t;]*\n/.test(text) ? changed : changed.replace(/\n([ \t;]*\n)+/g, "\n");

/** A changed text where its vertices are these in this order, else null. */
function checked(changed, order) {
  const names = [...new Set(survey(changed).names.map((token) => bare(token.text)))];
  return names.length === order.length && names.every((name, i) => name === order[i]) ? changed : null;
}

/** The whole text anew. @param {Graph} graph @param {Map<string, Point>} places */
export function write({ vertices, edges }, places) {
  const line = ({ name, role }) => {
    const p = places.get(name), list = wanted({ role, pos: p && `${p.x},${p.y}` });
    return nameText(name) + (list.length ? ` [${list.join(",")}]` : "");
  };
  return ["dag {", ...vertices.map(line), ...edges.map(edgeText), "}", ""].join("\n");
}
