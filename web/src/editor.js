import { button, byId, h } from "./dom.js";
import { placesOf } from "./faults.js";
import { adviceOn } from "./text/advice.js";
import { ROLES } from "./text/printed.js";
import { taken } from "./text/taken.js";
import { isEdgeMark, isMark, tokens } from "./text/tokens.js";

const LINE_HEIGHT = 21.6;
const PATIENCE_MS = 400; // a fault of a text that is being typed is said after this

/** The text with its colours, and the line that says its fault. */
export class Editor {
  #area = byId("text");
  #inner = byId("paint").appendChild(h("div"));
  #lines = []; // as they are painted
  #saying;

  /** @param {{typed: (text: string) => void, pasted: (text: string) => void, mended: (text: string) => void, opened: () => void, judged: () => void}} on */
  constructor(on) {
    this.on = on;
    this.#area.addEventListener("input", (e) => {
      this.paint();
      if (e.inputType === "insertFromPaste") on.pasted(this.text);
      else on.typed(this.text);
    });
    this.#area.addEventListener("scroll", () => this.#scroll());
    byId("text-pane").addEventListener("click", (e) => e.target === e.currentTarget && this.#area.focus());
  }

  get text() {
    return this.#area.value;
  }

  /** Shows a text that wasn't typed here. */
  set(text) {
    if (this.#area.value !== text) this.#area.value = text;
    this.paint();
  }

  /** Says a fault under the text, with its place; null where there's none. */
  judge(fault, text, typed) {
    clearTimeout(this.#saying);
    if (fault && typed) this.#saying = setTimeout(() => this.#say(fault, text), PATIENCE_MS);
    else this.#say(fault, text);
  }

  #say(fault, text) {
    const line = byId("fault");
    line.hidden = !fault;
    this.#area.setAttribute("aria-invalid", String(Boolean(fault)));
    document.body.classList.toggle("faulty", Boolean(fault));
    this.on.judged();
    if (!fault) return this.paint();
    if (!fault.number) return line.replaceChildren(fault.sentence);
    const marks = placesOf(fault, text), other = taken(text), advice = adviceOn(fault, text, marks[0].start);
    line.title = fault.told;
    line.replaceChildren(...[
      text.trim() && this.#placeButton(marks[0], text), ` ${advice?.sentence ?? fault.sentence} `,
      other && button("Write it as the program reads it", () => this.on.pasted(text), { data: { key: "take text" } }),
      !other && advice?.fixed && button(advice.label, () => this.on.mended(advice.fixed), { data: { key: "mend" } }),
    ].filter(Boolean));
    this.paint(marks);
  }

  /** Says what else there is to say of the text; an empty list ends it. @param {import("./text/warnings.js").Note[]} notes */
  note(notes) {
    const list = byId("text-notes");
    list.replaceChildren(...notes.map(({ sentence, fixed, label }) => h("li", {}, sentence,
      fixed && [" ", button(label, () => this.on.mended(fixed), { data: { key: "mend" } })])));
    list.hidden = !notes.length;
    document.body.classList.toggle("warned", notes.length > 0);
  }

  /** A button that tells a place of the text, and goes there. */
  #placeButton(mark, text) {
    const before = text.slice(0, mark.start).split("\n");
    const go = () => {
      this.on.opened();
      this.#area.focus();
      this.#area.setSelectionRange(mark.start, mark.end);
    };
    return button(`line ${before.length}, column ${before.at(-1).length + 1}`, go, { title: "Go to the place" });
  }

  /** The text behind the text area, in colours and with the fault's places marked. Only lines that changed are made. */
  paint(marks = []) {
    const lines = paintedLines(this.text, marks), shown = this.#lines;
    let first = 0, last = 0;
    while (first < Math.min(lines.length, shown.length) && lines[first].key === shown[first].key) first++;
    const most = Math.min(lines.length, shown.length) - first;
    while (last < most && lines.at(-1 - last).key === shown.at(-1 - last).key) last++;
    const behind = last ? shown.at(-last).el : null, fresh = lines.slice(first, lines.length - last);
    for (const { el } of shown.slice(first, shown.length - last)) el.remove();
    for (const line of fresh) {
      line.el = h("div", {}, line.parts.map(([cls, text]) => (cls ? h("span", { class: cls }, text) : text)), "\n");
      this.#inner.insertBefore(line.el, behind);
    }
    this.#lines = [...shown.slice(0, first), ...fresh, ...(last ? shown.slice(-last) : [])];
    if (lines.length !== shown.length) byId("editor").style.flexBasis = `${lines.length * LINE_HEIGHT + 50}px`;
  }

  /** Follows the text area. */
  #scroll() {
    this.#inner.style.transform = `translate(${-this.#area.scrollLeft}px, ${-this.#area.scrollTop}px)`;
  }
}

/**
 * The lines of a text with the class of each part.
 * @param {import("./faults.js").Mark[]} marks
 * @returns {{key: string, parts: [string, string][], el?: HTMLElement}[]}
 */
function paintedLines(text, marks) {
  const lines = [[]];
  let at = 0;
  const put = (end, cls) => {
    text.slice(at, end).split("\n").forEach((part, i) => {
      if (i) lines.push([]);
      if (part) lines.at(-1).push([cls, part]);
    });
    at = Math.max(at, end);
  };
  for (const t of tokens(text)) {
    put(t.start, marks.some((mark) => mark.start <= at && t.start < mark.end) ? "fault" : "");
    const isFaulty = marks.some((mark) => t.start < mark.end && t.end > mark.start);
    put(t.end, `${colour(t)}${isFaulty ? " fault" : ""}`);
  }
  put(text.length, "");
  if (marks.some((mark) => mark.start >= text.trimEnd().length)) lines.at(-1).push(["fault end", " "]);
  return lines.map((parts) => ({ key: JSON.stringify(parts), parts }));
}

function colour(token) {
  if (isEdgeMark(token) || token.text.includes("@")) return "t-edge";
  if (isMark(token)) return "t-mark";
  if (token.text === "dag" || ROLES.includes(token.text)) return `t-word ${token.text}`;
  return token.text.startsWith('"') ? "t-text" : "";
}
