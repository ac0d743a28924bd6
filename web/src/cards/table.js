// The table that was taken: where it is dropped, how its columns are read, and what there is to say of it.
import { button, h, save } from "../dom.js";
import { headerOf, levelsOf } from "../text/csv.js";
import { tableOf } from "../statistics/table.js";
import { fold, listed } from "./parts.js";

const COUNT_NAMES = /^(count|counts|n|freq|frequency|weight)$/i;
const MOST_LEVELS = 12;
const MOST_GROUPS = 6;

/** The name under which a table is given to the program. */
export const tableName = (name) => (name.startsWith("-") ? `./${name}` : name);

/** The option for the column of counts: the one that was chosen, or else one with such a name. */
export function countWords(ctx) {
  const { memory } = ctx, others = otherColumns(ctx);
  memory.count = memory.count ?? others.find((column) => COUNT_NAMES.test(column)) ?? "";
  return memory.count ? [`--count=${memory.count}`] : [];
}

const otherColumns = ({ memory, observed }) => headerOf(memory.csv.text).filter((c) => !observed.includes(c));

/** Where a first table is dropped or chosen; an example's is offered where it has a column for each vertex. */
export function asksForTable(ctx) {
  return [
    dropZone(ctx, [h("b", {}, "Drop a CSV file here"), ", or click to choose one. It stays in this page."]),
    sampleRow(ctx),
  ];
}

/** An example's table that has a column for each vertex, unless it's the one that was taken. */
function sampleRow(ctx) {
  const { observed, samples, memory } = ctx;
  const holdsAll = ({ columns }) => columns.filter((c) => observed.includes(c)).length === observed.length;
  const sample = observed.length ? samples.find(holdsAll) : undefined;
  return sample && memory.table?.text !== sample.text && h("p", {},
    button(`Use ${sample.name}`, () => ctx.take(new File([sample.text], sample.name)), { id: "sample" }),
    " from the examples");
}

function dropZone({ take }, content) {
  const choose = (e) => e.target.files[0] && take(e.target.files[0]);
  const input = h("input", { type: "file", accept: ".csv,.tsv,.tab,.txt,text/csv,text/tab-separated-values", id: "csv", class: "unseen", onchange: choose });
  const zone = h("label", {
    class: "drop", for: "csv", ondragover: () => zone.classList.add("over"),
    ondragleave: () => zone.classList.remove("over"), ondrop: () => zone.classList.remove("over"),
  }, content, input);
  return zone;
}

/** The table's name, how it is read, and the choice of its column of counts. */
export function tableRow(ctx) {
  const { memory } = ctx, others = otherColumns(ctx);
  const choose = (e) => {
    memory.count = e.target.value;
    ctx.refresh();
  };
  const option = (column) => h("option", { value: column, selected: column === memory.count }, column);
  return [
    dropZone(ctx, [h("b", {}, memory.csv.name), ". Drop another file here, or click."]),
    sampleRow(ctx),
    tableNotes(ctx),
    h("label", { class: "count" }, "Count column ", h("select", { data: { key: "count" }, onchange: choose },
      h("option", { value: "" }, "none: each row counts 1"), others.map(option))),
    fold(ctx, "columns", "Match columns to variables", () => matching(ctx)),
    fold(ctx, "levels", "What is in the file", () => levels(ctx)),
  ];
}

// ---- What there is to say, with what can be done about it

/** Changes how the table is read. */
function reads(ctx, change) {
  return () => {
    change(ctx.memory.table.reading);
    ctx.readAgain();
  };
}

/** What was changed in a file so that the program reads it, and what it may want: the same wherever the table is used. */
export function tableNotes(ctx) {
  const notes = [asRead(ctx), lackingNote(ctx), missingNote(ctx), spellingNote(ctx), ...ctx.memory.csv.notes.map((note) => cutNote(ctx, note))].filter(Boolean);
  return notes.length ? h("ul", { class: "notes", id: "read-notes" }, notes) : null;
}

function asRead({ memory: { csv } }) {
  const marks = { ";": "semicolons", "\t": "tabs" }, { mark, renamed = [] } = csv.how ?? {};
  return csv.how && h("li", {}, "Read as ", h("b", {}, csv.name), marks[mark] || renamed.length ? ":" : ".",
    marks[mark] ? ` ${marks[mark]} as commas${renamed.length ? ";" : "."}` : "",
    renamed.map(([from, to], i) => [i ? ", " : " ", h("code", {}, from), " as ", h("code", {}, to)]), " ",
    button("Save it", () => save(csv.name, csv.text, "text/csv")));
}

function lackingNote(ctx) {
  const { csv } = ctx.memory;
  const open = () => {
    ctx.memory.open.add("columns");
    ctx.show("data");
  };
  return csv.lacking.length ? h("li", {}, "No column for ", listed(csv.lacking), ". ", button("Match columns", open, { data: { key: "match" } })) : null;
}

function missingNote(ctx) {
  const { csv, table } = ctx.memory, columns = csv.notes.filter(({ missing }) => missing);
  if (!csv.incomplete) return null;
  const where = columns.map(({ name, missing }, i) => [i ? ", " : "", h("b", {}, name), ` (${missing})`]);
  return table.reading.leavesOut
    ? h("li", {}, `Missing values: ${csv.incomplete} of ${csv.all} rows are left out. That is right if they are missing by chance alone. `,
      button("Take them back", reads(ctx, (r) => (r.leavesOut = false)), { data: { key: "missing" } }))
    : h("li", {}, `Missing values in ${csv.incomplete} of ${csv.all} rows: `, where, ". They count as a level like any other. ",
      button("Leave these rows out", reads(ctx, (r) => (r.leavesOut = true)), { data: { key: "missing" } }));
}

function spellingNote(ctx) {
  const { csv, table } = ctx.memory, columns = csv.notes.filter(({ spellings, points }) => spellings.length && !points);
  if (!columns.length) return null;
  const levels = columns.map(({ name, spellings }, i) => [i ? "; " : "", h("b", {}, name), ": ", spellings.map((group) => group.map((l) => `“${l}”`).join(", ")).join("; ")]);
  return table.reading.joins
    ? h("li", {}, "Joined are levels that differ by blanks or case alone: ", levels, ". ", button("Part them", reads(ctx, (r) => (r.joins = false)), { data: { key: "join" } }))
    : h("li", {}, "Levels that differ by blanks or case alone: ", levels, ". ", button("Join them", reads(ctx, (r) => (r.joins = true)), { data: { key: "join" } }));
}

/** A column of many values: it is cut at quantiles, or at points that are chosen. */
function cutNote(ctx, { name, points, isFine, isNumeric, size }) {
  if (points?.length) {
    return h("li", {}, h("b", {}, name), ` is cut at ${points.join(", ")}. `,
      button("Don't cut it", reads(ctx, (r) => r.cuts.delete(name)), { data: { key: `uncut ${name}` } }));
  }
  if (!isFine) return null;
  if (!isNumeric) return h("li", {}, h("b", {}, name), ` has ${size} different values. Put a few groups in their place in the table.`);
  const groups = h("select", { "aria-label": `Groups of ${name}`, data: { key: `groups ${name}` } },
    Array.from({ length: MOST_GROUPS - 1 }, (_, i) => h("option", { value: i + 2, selected: i === 2 }, String(i + 2))));
  const at = h("input", { "aria-label": `Points at which ${name} is cut`, placeholder: "40, 65", size: 10, data: { key: `points ${name}` } });
  const equal = () => reads(ctx, (r) => r.cuts.set(name, { groups: Number(groups.value), points: [] }))();
  const chosen = () => {
    const list = at.value.split(/[;,\s]+/).filter(Boolean).map(Number).filter(Number.isFinite).sort((p, q) => p - q);
    if (list.length) reads(ctx, (r) => r.cuts.set(name, { groups: 0, points: [...new Set(list)] }))();
  };
  return h("li", {}, h("b", {}, name), ` has ${size} different values. Cut it into `, groups, " groups of equal size ",
    button("Cut", equal, { data: { key: `cut ${name}` } }), " or at ", at, " ", button("Cut there", chosen, { data: { key: `cut at ${name}` } }));
}

/** The column of each vertex, to be chosen. */
function matching(ctx) {
  const { csv, table } = ctx.memory;
  const row = (name) => {
    const now = csv.columns.get(name) ?? "", choose = (e) => reads(ctx, (r) => {
      for (const [other, column] of r.matched) if (column === e.target.value) r.matched.delete(other);
      r.matched.set(name, e.target.value);
    })();
    return h("tr", {}, h("th", { scope: "row" }, name), h("td", {}, h("select", { "aria-label": `Column of ${name}`, data: { key: `column ${name}` }, onchange: choose },
      h("option", { value: "" }, "none"), csv.header.map((column) => h("option", { value: column, selected: column === now }, column)))));
  };
  return h("table", {}, h("caption", {}, `Columns of ${table.name}`), h("tbody", {}, ctx.observed.map(row)));
}

const readTables = new WeakMap();

/** The levels of a table's columns that are vertices. */
function tableLevels({ memory, observed }) {
  const { csv, count = "" } = memory, key = JSON.stringify([observed, count]), kept = readTables.get(csv);
  if (kept?.key === key) return kept.levels;
  const levels = levelsOf(csv.rows, csv.rows[0].filter((c) => observed.includes(c)), count);
  readTables.set(csv, { key, levels });
  return levels;
}

/** The table's cells over the columns that are vertices. */
export function cellsOf({ memory: { csv, count }, observed }) {
  return tableOf(csv.rows, csv.rows[0].filter((column) => observed.includes(column)), count ?? "");
}

/** The levels of the columns that are vertices, with their counts. */
function levels(ctx) {
  const found = tableLevels(ctx), { rows } = ctx.memory.csv;
  const line = ([column, sums]) => {
    const list = [...sums], shown = list.slice(0, MOST_LEVELS).map(([level, sum]) => `${level.trim() ? level : "blank"} (${sum})`).join(", ");
    return h("tr", {}, h("th", { scope: "row" }, column),
      h("td", {}, shown, list.length > MOST_LEVELS ? ` and ${list.length - MOST_LEVELS} more` : ""));
  };
  return h("table", {}, h("caption", {}, `${rows.length - 1} rows; levels with their counts, as this page reads them`),
    h("tbody", {}, [...found].map(line)));
}
