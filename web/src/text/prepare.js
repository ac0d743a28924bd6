// How a table comes to be as the program reads it: columns by their vertices, rows with missing values left out, levels joined, numbers cut.

/** @typedef {{points: number[], groups: number}} Cut where a column of numbers is cut; `groups` of equal size, or 0 where points were chosen */
/**
 * What the user chose for a table: the column of a vertex, or "" for none; whether rows with missing values are left out, and levels
 * that differ by blanks or case joined; and cuts by vertex.
 * @typedef {{matched: Map<string, string>, leavesOut: boolean, joins: boolean, cuts: Map<string, Cut>}} Reading
 */

const MISSING = /^\s*(|NA|N\/A|NaN|null|missing|\.|\?)\s*$/i;
const FEW = 12;

export const isMissing = (level) => MISSING.test(level);
const isNumber = (level) => /^\s*[-+]?(\d+[.,]?\d*|[.,]\d+)([eE][-+]?\d+)?\s*$/.test(level);
const numberOf = (level) => Number(level.trim().replace(",", "."));

const exact = (name) => name.trim();
const lower = (name) => name.trim().toLowerCase();
/** As R and statistics packages write names: letters and digits alone, without the X that R puts before a digit. */
const loose = (name) => name.toLowerCase().replace(/[^\p{L}\p{N}]+/gu, "").replace(/^x(?=\d)/, "");

/**
 * The column of each vertex: the one of its name, or the only one that is it but for blanks, case or signs.
 * @param {string[]} header @param {string[]} names @param {Map<string, string>} [matched] chosen by hand
 * @returns {Map<string, string>} columns by vertices
 */
export function columnsOf(header, names, matched = new Map()) {
  const found = new Map(), taken = new Set();
  const put = (name, column) => {
    if (column !== "") found.set(name, column);
    taken.add(column);
  };
  for (const [name, column] of matched) if (names.includes(name) && (column === "" || header.includes(column))) put(name, column);
  const open = () => names.filter((name) => !found.has(name) && matched.get(name) !== "");
  for (const name of open()) if (header.includes(name) && !taken.has(name)) put(name, name);
  for (const form of [exact, lower, loose]) {
    const columns = header.filter((column) => !taken.has(column));
    for (const name of open()) {
      const like = columns.filter((column) => form(column) === form(name)), rivals = names.filter((other) => form(other) === form(name));
      if (like.length === 1 && rivals.length === 1) put(name, like[0]);
    }
  }
  return found;
}

/** The points that cut numbers into groups of about equal size. */
export function quantiles(values, groups) {
  const ordered = [...values].sort((p, q) => p - q), points = [];
  for (let k = 1; k < groups; k++) points.push(ordered[Math.floor((k * ordered.length) / groups)]);
  return [...new Set(points)].filter((point) => point > ordered[0]);
}

/** The name of the group in which a number lies. @param {number[]} points in order */
export function groupOf(value, points) {
  const i = points.findIndex((point) => value < point);
  if (i === 0) return `< ${points[0]}`;
  return i < 0 ? `>= ${points.at(-1)}` : `${points[i - 1]} to < ${points[i]}`;
}

/** How often each level comes, by rows. @returns {Map<string, number>} */
function levelsAt(rows, i) {
  const levels = new Map();
  for (const row of rows) levels.set(row[i], (levels.get(row[i]) ?? 0) + 1);
  return levels;
}

/** For each level that differs from a more frequent one by blanks or case alone, that one. */
export function spellingsOf(levels) {
  const best = new Map(), plain = (level) => level.trim().replace(/\s+/g, " ").toLowerCase();
  for (const [level, count] of levels) {
    const key = plain(level), had = best.get(key);
    if (!had || count > levels.get(had)) best.set(key, level);
  }
  const joined = new Map();
  for (const level of levels.keys()) if (best.get(plain(level)) !== level) joined.set(level, best.get(plain(level)).trim());
  return joined;
}

/**
 * What there is to say of a column that is a vertex's.
 * @typedef {{name: string, missing: number, spellings: string[][], size: number, isNumeric: boolean, values: () => number[]}} ColumnNote
 */
/**
 * A table as it is read: rows with a header, and what there is to say of it.
 * @typedef {{rows: string[][], columns: Map<string, string>, notes: ColumnNote[], all: number, incomplete: number}} Prepared
 */

/** @param {string[][]} table rows with a header @param {string[]} names @param {Reading} reading @returns {Prepared} */
export function prepared([header, ...rows], names, reading) {
  const columns = columnsOf(header, names, reading.matched), vertexOf = new Map([...columns].map(([name, column]) => [column, name]));
  const used = [...columns].map(([name, column]) => ({ name, i: header.indexOf(column) }));
  const shown = header.map((column) => vertexOf.get(column) ?? (columns.has(column) || names.includes(column) ? `${column} (file)` : column));
  const isFull = (row) => used.every(({ i }) => !isMissing(row[i] ?? "")), incomplete = rows.filter((row) => !isFull(row)).length;
  const kept = reading.leavesOut ? rows.filter(isFull) : rows;
  const work = used.map(({ name, i }) => ({ name, i, ...columnWork(rows, kept, name, i, reading) }));
  const changing = work.filter(({ change }) => change);
  const changed = changing.length === 0 ? kept : kept.map((row) => {
    const next = [...row];
    for (const { i, change } of changing) next[i] = change(row[i]);
    return next;
  });
  return { rows: [shown, ...changed], columns, notes: work.map(({ note }) => note), all: rows.length, incomplete };
}

/** What is done to a column's levels, and what there is to say of it. */
function columnWork(rows, kept, name, i, { joins, cuts }) {
  const levels = levelsAt(kept, i), present = [...levels.keys()].filter((level) => !isMissing(level ?? "")), spellings = spellingsOf(new Map(present.map((l) => [l, levels.get(l)])));
  const isNumeric = present.length > 0 && present.every(isNumber), cut = isNumeric ? cuts.get(name) : undefined;
  const values = () => kept.filter((row) => !isMissing(row[i])).map((row) => numberOf(row[i]));
  const points = cut && (cut.groups ? quantiles(values(), cut.groups) : cut.points);
  const note = {
    name, missing: rows.filter((row) => isMissing(row[i] ?? "")).length, spellings: [...groupedSpellings(spellings)], size: levels.size,
    isNumeric, isFine: present.length > FEW, points, values,
  };
  if (points?.length) return { note, change: (level) => (isMissing(level) ? level : groupOf(numberOf(level), points)) };
  return { note, change: joins && spellings.size ? (level) => spellings.get(level) ?? level : null };
}

function groupedSpellings(spellings) {
  const groups = new Map();
  for (const [level, best] of spellings) groups.set(best, [...(groups.get(best) ?? [best]), level]);
  return groups.values();
}
