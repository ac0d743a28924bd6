// The diagrams that this browser keeps, each with its name, and which of them this tab shows.

/** @typedef {{id: string, name: string, text: string, at: number, scale?: number}} Entry `at` is when it was changed last, in milliseconds */
/** @typedef {{id: string | null, name: string, text: string, source: string, scale?: number}} Shown `id` is null where it isn't kept */

const KEY = "causal.named";
const OLD_KEY = "causal.diagrams"; // a list of texts, which an earlier page kept
const TAB = "causal.tab";
const TITLE_LENGTH = 40;

/** What is kept. `store` is the browser's and `tab` this tab's own, or what stands for them in a test. */
export class Kept {
  /** @type {Shown} */ shown = { id: null, name: "", text: "", source: "" };
  #opened = ""; // an example, or a text of another page, isn't kept before it is changed
  #written = ""; // what this tab kept last; where another stands there, another tab wrote it
  /** Whether the text that is shown is kept. */ isSafe = true;

  constructor(store = storeOf("localStorage"), tab = storeOf("sessionStorage")) {
    Object.assign(this, { store, tab });
  }

  /** What is kept, the newest first. @returns {Entry[]} */
  list() {
    const list = read(this.store, KEY);
    if (Array.isArray(list)) return list.filter((entry) => typeof entry?.text === "string" && typeof entry.id === "string");
    const old = read(this.store, OLD_KEY);
    return Array.isArray(old) ? old.filter((text) => typeof text === "string").map((text, i) => ({ id: `old ${i}`, name: "", text, at: 0 })) : [];
  }

  /** What this tab showed when it was left. @returns {Shown | null} */
  left() {
    const shown = read(this.tab, TAB);
    if (typeof shown?.text !== "string") return null;
    const isOurs = this.list().some(({ id, text }) => id === shown.id && text === shown.text);
    return { name: "", source: "", ...shown, id: isOurs ? shown.id : null };
  }

  /** Another diagram is opened; what was kept stays. @param {Partial<Shown> & {text: string}} shown */
  begin({ id = null, name = "", text, source = "", scale }) {
    this.shown = { id, name, text, source, scale };
    this.#opened = this.#written = text;
    this.isSafe = true;
    this.#tell();
  }

  /** Keeps the text that is shown. What another tab made of the same diagram meanwhile stays beside it. */
  keep(text, scale) {
    const { shown } = this;
    if (text === this.#written && scale === shown.scale) return;
    Object.assign(shown, { text, scale });
    if (shown.id !== null || text !== this.#opened) this.#put();
    this.#tell();
  }

  /** Another tab wrote the list: where it changed the diagram that is shown here, this one is kept beside it. */
  heard() {
    const { shown } = this, there = this.list().find(({ id }) => id === shown.id);
    if (!there) return;
    if (there.text !== this.#written) this.#put();
    else shown.name = there.name;
    this.#tell();
  }

  /** Gives the diagram that is shown a name, and keeps it. Where another has it already, a number stands behind. @returns {string} the name it has */
  rename(name) {
    const { shown } = this;
    shown.name = freeName(name, this.list().filter(({ id }) => id !== shown.id));
    this.#put();
    this.#tell();
    return shown.name;
  }

  #put() {
    const { shown } = this, list = this.list(), there = list.find(({ id }) => id === shown.id);
    if (shown.id === null || (there && there.text !== this.#written)) {
      shown.id = freshId(list);
      shown.name = freeName(shown.name, list);
    }
    const { id, name, text, scale } = shown;
    this.#written = text;
    this.isSafe = this.#write([{ id, name, text, at: Date.now(), scale }, ...list.filter((entry) => entry.id !== id)]);
  }

  /** Takes one out of the list. */
  remove(id) {
    this.#write(this.list().filter((entry) => entry.id !== id));
    if (id !== this.shown.id) return;
    this.shown.id = null;
    this.#opened = this.shown.text;
    this.#tell();
  }

  /** Puts one back that was taken out. @param {Entry} entry */
  restore(entry) {
    this.#write([entry, ...this.list()].sort((one, other) => other.at - one.at));
  }

  #write(list) {
    return write(this.store, KEY, list);
  }

  /** Keeps for this tab what it shows. */
  #tell() {
    write(this.tab, TAB, this.shown);
  }
}

const freshId = (list) => {
  let id;
  do id = Math.random().toString(36).slice(2); while (list.some((entry) => entry.id === id));
  return id;
};

/** A name that none of these has: one that is taken gets the next number, beside a year too. Those without a name keep none. @param {string} name @param {Entry[]} list */
export function freeName(name, list) {
  const isTaken = (other) => list.some((entry) => entry.name === other);
  if (!name || !isTaken(name)) return name;
  const stem = name.replace(/ \d{1,3}$/, "") || name;
  let n = 2;
  while (isTaken(`${stem} ${n}`)) n++;
  return `${stem} ${n}`;
}

/** Which of several with one name an entry is, the oldest first; empty where no other has its name. @param {Entry} entry @param {Entry[]} list */
export function whichOf({ id, name }, list) {
  const same = list.filter((entry) => entry.name === name).sort((one, other) => one.at - other.at);
  return name && same.length > 1 ? `${same.findIndex((entry) => entry.id === id) + 1} of ${same.length} with this name` : "";
}

function read(store, key) {
  try {
    return JSON.parse(store.getItem(key));
  } catch {
    return null;
  }
}

function write(store, key, value) {
  try {
    store.setItem(key, JSON.stringify(value));
    return true;
  } catch {
    return false;
  }
}

function storeOf(name) {
  try {
    return globalThis[name];
  } catch {
    return undefined;
  }
}

/** A text in a line of a list. */
export function titleOf(text) {
  const line = text.replace(/^\s*dag\b[^{]*\{/, "").replace(/\[[^\]]*\]|bb="[^"]*"|\}\s*$/g, "").replace(/\s+/g, " ").trim();
  return line.length > TITLE_LENGTH ? `${line.slice(0, TITLE_LENGTH)} …` : line || "empty";
}

/** The name of a file for a diagram: its own, without signs that a file's name can't have. */
export const fileName = (name, kind) => `${name.replace(/[\\/:*?"<>|\p{Cc}]+/gu, " ").replace(/\s+/g, " ").trim().replace(/^\.+/, "") || "diagram"}.${kind}`;
