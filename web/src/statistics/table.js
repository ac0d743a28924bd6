// A table of counts as cells, which are the same for records in any order.

/** @typedef {{names: string[], levels: string[][], cells: {at: number[], count: number}[]}} Table */

/**
 * The counts of some columns' levels. Levels and cells stand in the order of their first appearance.
 * @param {string[][]} rows with a header @param {string[]} names @param {string} count its column, or "" @returns {Table}
 */
export function tableOf([header, ...rows], names, count) {
  const columns = names.map((name) => header.indexOf(name)), counted = header.indexOf(count);
  const places = names.map(() => new Map()), cells = new Map();
  for (const row of rows) {
    const at = columns.map((column, i) => {
      if (!places[i].has(row[column])) places[i].set(row[column], places[i].size);
      return places[i].get(row[column]);
    });
    const key = at.join(), cell = cells.get(key) ?? { at, count: 0 };
    cell.count += counted < 0 ? 1 : Number(row[counted]);
    cells.set(key, cell);
  }
  return { names, levels: places.map((levels) => [...levels.keys()]), cells: [...cells.values()] };
}

const field = (value) => (/[",\r\n]/.test(value) ? `"${value.replaceAll('"', '""')}"` : value);

/** A table as CSV with a column of counts. @param {Table} table @param {number[]} counts in the place of its own */
export function csvOf({ names, levels, cells }, count, counts = cells.map((cell) => cell.count)) {
  const row = ({ at }, i) => [...at.map((level, k) => field(levels[k][level])), counts[i]].join(",");
  return `${[[...names, count].map(field).join(","), ...cells.map(row)].join("\n")}\n`;
}

/** A name for the column of counts that no other column has. */
export function countName(names) {
  let name = "count";
  while (names.includes(name)) name += "_";
  return name;
}
