// The tokens of a graph text, and where an accepted text says what.

/** @typedef {{text: string, start: number, end: number}} Token */

const PATTERN = /\s+|"[^"\r\n]*"|[{}[\];=,]|[<>\-@]+|[^\s{}[\]";=,<>\-@]+|./gsu;
const UNQUOTED_VALUE = /\s*([^\s,\]};"]+)/y; // a value without quotes may hold what elsewhere are marks

/** The tokens of a text, white space left out. @returns {Token[]} */
export function tokens(text) {
  const found = [], pattern = new RegExp(PATTERN);
  for (let m; (m = pattern.exec(text)); ) {
    if (/^\s/.test(m[0])) continue;
    found.push({ text: m[0], start: m.index, end: pattern.lastIndex });
    if (m[0] !== "=") continue;
    UNQUOTED_VALUE.lastIndex = pattern.lastIndex;
    const value = UNQUOTED_VALUE.exec(text);
    if (!value) continue;
    pattern.lastIndex = UNQUOTED_VALUE.lastIndex;
    found.push({ text: value[1], start: pattern.lastIndex - value[1].length, end: pattern.lastIndex });
  }
  return found;
}

export const isEdgeMark = (token) => /^[<>-]+$/.test(token?.text ?? "");
export const isMark = (token) => !token || /^[{}[\];=,]$/.test(token.text) || isEdgeMark(token);

/** A name without its quotes. */
export const bare = (name) => (name.startsWith('"') ? name.slice(1, -1) : name);

/** @typedef {{key: string, value: string | null, text: string}} Attribute */
/** @typedef {{name: string, end: number, attrs: {end: number, items: Attribute[]} | null}} VertexStatement */
/** @typedef {{start: number, end: number, groups: Token[][], marks: string[], plain: boolean}} EdgeStatement */

/** Reads an accepted text, statement by statement. */
class Surveyor {
  /** @type {VertexStatement[]} */ vertices = [];
  /** @type {EdgeStatement[]} */ edges = [];
  /** @type {Token[]} */ names = [];
  /** Statements such as bb="0,0,1,1", which say nothing of the graph. @type {{name: string, value: string}[]} */ dropped = [];
  #at;

  constructor(text) {
    this.text = text;
    this.list = tokens(text);
    this.#at = this.list[1]?.text === "{" ? 2 : 3;
    while (this.#at < this.list.length && this.list[this.#at].text !== "}") this.#statement();
    /** Where the last brace stands. */
    this.close = this.list[this.#at]?.start ?? text.length;
  }

  #statement() {
    const first = this.list[this.#at], next = this.list[this.#at + 1];
    if (first.text === ";") this.#at++;
    else if (next?.text === "=") {
      this.dropped.push({ name: bare(first.text), value: this.list[this.#at + 2]?.text ?? "" });
      this.#at += 3;
    }
    else if (!isMark(first) && !isEdgeMark(next)) {
      this.names.push(first);
      this.#at++;
      this.vertices.push({ name: bare(first.text), end: first.end, attrs: this.#attributes() });
    } else this.#chain(first.start);
  }

  #chain(start) {
    const groups = [this.#group()], marks = [];
    while (isEdgeMark(this.list[this.#at])) {
      marks.push(this.list[this.#at++].text);
      groups.push(this.#group());
    }
    const last = this.list[this.#at - 1], attrs = this.#attributes();
    this.edges.push({ start, end: attrs?.end ?? last.end, groups, marks, plain: !attrs });
  }

  #group() {
    const group = [];
    if (this.list[this.#at].text !== "{") group.push(this.list[this.#at++]);
    else {
      for (this.#at++; this.list[this.#at].text !== "}"; this.#at++) {
        if (this.list[this.#at].text !== ";") group.push(this.list[this.#at]);
      }
      this.#at++;
    }
    this.names.push(...group);
    return group;
  }

  #attributes() {
    const { list, text } = this;
    if (list[this.#at]?.text !== "[") return null;
    const items = [];
    this.#at++;
    while (list[this.#at].text !== "]") {
      const key = list[this.#at++];
      if (key.text === ",") continue;
      const value = list[this.#at].text === "=" ? list[this.#at + 1] : null;
      if (value) this.#at += 2;
      items.push({
        key: bare(key.text), value: value && bare(value.text), text: text.slice(key.start, (value ?? key).end),
      });
    }
    return { end: list[this.#at++].end, items };
  }
}

/** Where an accepted text says its vertices and edges. */
export const survey = (text) => new Surveyor(text);
