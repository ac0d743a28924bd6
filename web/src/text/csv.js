// A look at a table of counts, for showing what is in it. The program reads it by itself.

/** The rows of a CSV text, its header first. @param {string} mark what parts fields @returns {string[][]} */
export function readRows(text, mark = ",") {
  const pattern = new RegExp(`(?:"((?:[^"]|"")*)"|([^"${mark}\\r\\n]*))(${mark}|\\r?\\n|$)`, "gy"), rows = [[]];
  const source = text.replace(/^\uFEFF/, "");
  for (let m; (m = pattern.exec(source)); ) {
    rows.at(-1).push(m[1]?.replaceAll('""', '"') ?? m[2]);
    if (pattern.lastIndex >= source.length && m[3] !== mark) break;
    if (m[3] !== mark) rows.push([]);
  }
  return rows.filter((row) => row.length > 1 || row[0] !== "");
}

const firstLine = (text) => text.slice(0, 1 << 16).split(/\r?\n/, 1)[0];

/** The names in a CSV's header. */
export const headerOf = (text, mark) => readRows(firstLine(text), mark)[0] ?? [];

/** What parts the fields of a table. */
export function markOf(text) {
  const line = firstLine(text).replace(/"[^"]*"/g, "");
  return line.includes(",") ? "," : [";", "\t"].find((mark) => line.includes(mark)) ?? ",";
}

const field = (value) => (/[",\r\n]/.test(value) ? `"${value.replaceAll('"', '""')}"` : value);

/** Rows as a text with commas. */
export const written = (rows) => rows.map((row) => `${row.map(field).join(",")}\n`).join("");

/**
 * The levels of columns in order of first appearance, with the sums of their counts.
 * @param {string[][]} rows with a header @param {string[]} columns @param {string} count its column, or ""
 * @returns {Map<string, Map<string, number>>}
 */
export function levelsOf([header, ...rows], columns, count) {
  const at = header.indexOf(count), levels = new Map();
  for (const column of columns) {
    const i = header.indexOf(column), sums = new Map();
    for (const row of rows) sums.set(row[i], (sums.get(row[i]) ?? 0) + (at < 0 ? 1 : Number(row[at])));
    levels.set(column, sums);
  }
  return levels;
}
