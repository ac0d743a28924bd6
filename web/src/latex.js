// The program's LaTeX for the eye: long names as words, marks on named parts and bound names, and places where a line
// may break.

/**
 * How a formula is written: its parentheses, and what joins names in a list and under a sum.
 * @typedef {{parentheses: [string, string], list: string, under: (names: string[]) => string}} Manner
 */

/** @type {Manner} */
const WHOLE = { parentheses: ["\\left( ", "\\right)"], list: ", ", under: (names) => names.join(", ") };

const ROW = 8; // names under a sum, in a row of so many letters
const ROW_LETTERS = 40;
const WIDE_LETTERS = 20; // of a sum behind which a line may break

const lettersOf = (name) => name.replace(/\\htmlClass\{bound\}\{|\\text\{|\}/g, "").length;
const lettersIn = (names) => names.reduce((sum, name) => sum + lettersOf(name), 0);

/** For a formula that is too wide for one line. @type {Manner} */
const BROKEN = {
  parentheses: ["\\Bigl( ", "\\Bigr)"],
  list: ", \\allowbreak ",
  under: (names) => {
    const rows = [[]];
    for (const name of names) {
      const row = rows.at(-1), isFull = row.length === ROW || lettersIn([...row, name]) > ROW_LETTERS;
      if (row.length && isFull) rows.push([name]);
      else row.push(name);
    }
    const lines = rows.map((row) => row.join(", "));
    return lines.length > 1 ? `\\substack{${lines.join(",\\\\")}}` : lines[0];
  },
};

/** A name set as a word, without quotes where it can't be mistaken; its primes behind it. */
function nice(tex) {
  const [, quote, name, primes] = /^("?)(.+?)('*)\1$/.exec(tex);
  if (!quote && [...name].length === 1) return name + primes;
  return `\\text{${quote && /[,()|]/.test(name) ? `“${name}”` : name}}${primes}`;
}

/** The parts of a list of names or conditions. */
const PIECES = /"[^"]*"|, | \\mid |\\mathrm\{do\}\(|\)|\}_\{|[{}]|[^\s",(){}]+/g; // braces are those of a natural effect; a name has them between quotes
const isName = (piece) => !/^(, | \\mid |\\mathrm\{do\}\(|\)|\}_\{|[{}])$/.test(piece);

const PARTS = /\\left\( |\\right\)|\\sum_\{((?:\\.|[^\\}])*)\} |q_\{\d+\}|P\(|\\frac\{|\}\{|\}|[^]/g;

// Signs that the program writes with braces stand as single letters while a formula is walked through.
const SIGNS = [["\\^{}", "\ue000", "\\textasciicircum"], ["\\~{}", "\ue001", "\\textasciitilde"], ["\\textbackslash{}", "\ue002", "\\textbackslash"]];
const hideSigns = (tex) => SIGNS.reduce((text, [sign, letter]) => text.replaceAll(sign, letter), tex);
const showSigns = (tex) => SIGNS.reduce((text, [, letter, shown]) => text.replaceAll(letter, `{${shown}}`), tex);

/** Walks through LaTeX of the program. A sum reaches as far right as its parenthesis or its part of a quotient. */
class Annotator {
  /** Between these a line may break, where the manner allows that. @type {string[]} */ pieces = [""];
  #scopes = [new Set()]; // names that a sum binds here
  #fractions = 0;
  #hasEnded = false; // whether an operand just ended

  /** @param {string} tex @param {Manner} manner */
  constructor(tex, manner) {
    this.tex = tex;
    this.manner = manner;
    const pattern = new RegExp(PARTS);
    for (let m; (m = pattern.exec(tex)); ) {
      if (m[1] !== undefined) this.#sum(m[1]);
      else if (m[0] === "P(") pattern.lastIndex = this.#term(pattern.lastIndex);
      else this.#sign(m[0]);
    }
  }

  get #bound() {
    return this.#scopes[this.#scopes.length - 1];
  }

  #name(name) {
    return this.#bound.has(name) ? `\\htmlClass{bound}{${nice(name)}}` : nice(name);
  }

  #put(text, { begins = false, ends = false } = {}) {
    if (begins && this.#hasEnded && !this.#fractions) this.pieces.push("");
    this.pieces[this.pieces.length - 1] += text;
    if (text.trim()) this.#hasEnded = ends;
  }

  #sum(over) {
    const names = over.match(PIECES).filter(isName), isWide = lettersIn(names) > WIDE_LETTERS;
    for (const name of names) this.#bound.add(name);
    this.#put(`\\sum_{${this.manner.under(names.map((name) => this.#name(name)))}} `, { begins: true, ends: isWide });
  }

  /** A probability whose parenthesis opened before this place. @returns {number} the place behind it */
  #term(start) {
    const end = closing(this.tex, start), { list } = this.manner;
    const inside = this.tex.slice(start, end).match(PIECES);
    const set = inside.map((p) => (isName(p) ? this.#name(p) : p === ", " ? list : p)).join("");
    this.#put(`P(${set})`, { begins: true, ends: true });
    return end + 1;
  }

  #open() {
    this.#scopes.push(new Set(this.#bound));
  }

  #sign(sign) {
    const [left, right] = this.manner.parentheses;
    if (sign.startsWith("q_")) this.#put(`\\htmlClass{part}{${sign}}`, { begins: true, ends: true });
    else if (sign === "\\left( ") {
      this.#open();
      this.#put(left, { begins: true });
    } else if (sign === "\\right)") {
      this.#scopes.pop();
      this.#put(right, { ends: true });
    } else if (sign === "\\frac{") {
      this.#open();
      this.#put(sign, { begins: true });
      this.#fractions++;
    } else if (this.#fractions && sign.startsWith("}")) this.#endPart(sign);
    else this.#put(sign, { ends: this.#hasEnded });
  }

  /** The end of a part of a quotient. */
  #endPart(sign) {
    this.#scopes.pop();
    if (sign === "}{") this.#open();
    else this.#fractions--;
    this.#put(sign, { ends: sign === "}" });
  }
}

/** Where the parenthesis that is open at this place closes. */
function closing(tex, at) {
  for (let depth = 1; at < tex.length; at++) {
    if (tex[at] === '"') at = tex.indexOf('"', at + 1);
    if (tex[at] === "(") depth++;
    if (tex[at] === ")" && --depth === 0) return at;
  }
  return at;
}

/** The LaTeX for one line. */
export const annotate = (tex) => showSigns(new Annotator(hideSigns(tex), WHOLE).pieces.join(""));

/** The same in pieces, for a formula that is too wide. @returns {string[]} */
export const annotatePieces = (tex) => new Annotator(hideSigns(tex), BROKEN).pieces.map((piece) => `\\displaystyle ${showSigns(piece)}`);
