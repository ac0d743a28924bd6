// Which kind of file the page is given: a diagram's text, a table, or one of another kind, which isn't read.
import { markOf, readRows } from "../text/csv.js";

const OTHER_KINDS = /\.(xlsx?|ods|sav|dta|sas7bdat|rds|rda|rdata|pdf|docx?|png|jpe?g|gif|svg|zip|gz)$/i;
const TABLES = /\.(csv|tsv|tab)$/i;
const LOOKED_AT = 4096; // bytes
const MARKS = /[{}~@>]|\bdag\b/; // of a diagram's first line, in one of its forms

/** Whether a file's name says that it is a table. @param {File} file */
export const isCalledTable = ({ name }) => TABLES.test(name);

/** @param {File} file @returns {Promise<"diagram" | "table" | "other">} */
export async function kindOf(file) {
  const head = await file.slice(0, LOOKED_AT).text();
  if (OTHER_KINDS.test(file.name) || head.includes("\0")) return "other";
  return isCalledTable(file) || isTable(head) ? "table" : "diagram";
}

/** Whether a text begins as a table: with two rows of as many fields, two at least. */
export function isTable(text) {
  const [head, next] = text.split(/\r?\n/);
  if (!next || MARKS.test(head)) return false;
  const [names, cells] = readRows(`${head}\n${next}`, markOf(head));
  return names?.length > 1 && names.length === cells?.length;
}

/** What is said of a file of another kind. */
export const notRead = ({ name }) =>
  `${name} can't be read here. Read are diagrams as text (.dag, .txt, .R, .gv) and tables with commas, semicolons or tabs (.csv, .tsv, .tab).`;
