// A table that the user took, and how it is read: the program gets what comes of it.
import { markOf, readRows, written } from "./text/csv.js";
import { prepared } from "./text/prepare.js";

/**
 * A table as the program gets it; `how` is null where it is the file as it is.
 * @typedef {{name: string, text: string, content: string | Uint8Array, how: {mark: string, renamed: [string, string][]} | null, rows: string[][],
 *   lacking: string[], header: string[]} & import("./text/prepare.js").Prepared} Csv
 */

export class Table {
  /** @type {import("./text/prepare.js").Reading} */ reading = { matched: new Map(), leavesOut: false, joins: false, cuts: new Map() };
  #rows = null;
  #last = { key: "", csv: null };

  constructor(name, bytes) {
    Object.assign(this, { name, bytes, text: new TextDecoder().decode(bytes) });
    this.mark = markOf(this.text);
  }

  get rows() {
    return (this.#rows ??= readRows(this.text, this.mark));
  }

  /** The table for these vertices. @param {string[]} names @returns {Csv} */
  read(names) {
    const { matched, leavesOut, joins, cuts } = this.reading, key = JSON.stringify([names, [...matched], leavesOut, joins, [...cuts]]);
    if (this.#last.key === key) return this.#last.csv;
    const made = prepared(this.rows, names, this.reading), [header] = this.rows;
    const renamed = [...made.columns].filter(([name, column]) => name !== column).map(([name, column]) => [column, name]);
    const isAsItIs = this.mark === "," && made.rows[0].every((column, i) => column === header[i]) && made.rows.length === this.rows.length
      && made.rows.every((row, i) => i === 0 || row === this.rows[i]);
    const name = isAsItIs ? this.name : this.name.replace(/(\.\w+)?$/, ".read.csv"), text = isAsItIs ? this.text : written(made.rows);
    const lacking = names.filter((vertex) => !made.columns.has(vertex));
    const csv = { ...made, name, text, content: isAsItIs ? this.bytes : text, how: isAsItIs ? null : { mark: this.mark, renamed }, lacking, header };
    this.#last = { key, csv };
    return csv;
  }
}
