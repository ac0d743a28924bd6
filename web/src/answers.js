import { CARDS } from "./cards/index.js";
import { drawFirst } from "./cards/parts.js";
import { tableName } from "./cards/table.js";
import { byId, h, speak } from "./dom.js";
import { AS_JSON } from "./names.js";
import { saidOf } from "./objects.js";
import { kindOf, notRead } from "./page/files.js";
import { toast } from "./page/notices.js";
import { forgetGone } from "./seen.js";
import { Table } from "./table.js";

const MOST_BYTES = 1 << 26; // what the program reads of a table

/** @type {import("./cards/parts.js").Shown} */
const EMPTY = { dot: "", view: drawFirst };

/** @typedef {import("./cards/parts.js").Card} Card  @typedef {import("./cards/parts.js").Context} Context */

/** The cards with their tabs. */
export class Answers {
  #tabs = byId("tabs");
  #panel = byId("panel");
  #graph = null;
  #text = "";
  #turn = 0;
  #shown = ""; // the card and the answers that the panel was made from
  #memory = { open: new Set(), sets: {}, armed: null };
  #marks = {};

  /**
   * @param {import("./program.js").Program} program
   * @param {Pick<Context, "drawing" | "acts" | "places" | "samples" | "nameOf" | "kept" | "open">} around
   */
  constructor(program, around) {
    this.program = program;
    this.around = around;
    this.active = CARDS[0];
    this.#tabs.append(...CARDS.map((card) => this.#tab(card)));
    this.#tabs.addEventListener("keydown", (e) => this.#key(e));
    this.show(this.active.id);
  }

  #tab({ id, title, about, hasDot }) {
    return h("button", {
      type: "button", role: "tab", id: `tab-${id}`, "aria-controls": "panel", title: about, onclick: () => this.show(id),
    }, hasDot ? h("span", { class: "dot", "aria-hidden": "true" }) : null, title,
    hasDot ? h("span", { class: "unseen dot-words" }) : null);
  }

  #key(e) {
    const i = CARDS.indexOf(this.active), n = CARDS.length;
    const to = { ArrowRight: i + 1, ArrowLeft: i - 1 + n, Home: 0, End: n - 1 }[e.key];
    if (to === undefined) return;
    e.preventDefault();
    this.show(CARDS[to % n].id, true);
  }

  /** Shows a card. */
  show(id, focus = false) {
    this.active = CARDS.find((card) => card.id === id) ?? this.active;
    this.#memory.armed = null;
    for (const tab of this.#tabs.children) {
      const isOn = tab.id === `tab-${this.active.id}`;
      tab.setAttribute("aria-selected", String(isOn));
      tab.tabIndex = isOn ? 0 : -1;
      if (isOn) this.#tabs.scrollLeft = tab.offsetLeft - this.#tabs.offsetLeft - 40;
      if (isOn && focus) tab.focus();
    }
    this.#panel.setAttribute("aria-labelledby", `tab-${this.active.id}`);
    this.#panel.scrollTop = 0;
    return this.refresh();
  }

  /** Asks with a text's graph what the card that is seen will ask. @param {import("./program.js").Reading} reading */
  askAhead(reading) {
    for (const words of this.active.ahead ?? []) reading.read(words);
  }

  /** Forgets what was chosen for another diagram: the way to the formula and its form, the condition of the effect, and the trials. */
  forgetChoices() {
    const { sets } = this.#memory;
    Object.assign(this.#memory, { by: "", boundSet: "", procedure: false, zero: false, kind: "total", wish: {} });
    if (this.#memory.secondIs === "chosen") this.#memory.secondIs = null;
    for (const key of Object.keys(sets)) if (/^(condition|also set|through|instrument|strata|experiment \d+)$/.test(key)) delete sets[key];
    this.#memory.experiments = 1;
  }

  /** Shows the answers about a graph that was accepted. */
  update(graph, text) {
    const isNew = JSON.stringify(graph) !== JSON.stringify(this.#graph);
    this.#graph = graph;
    this.#text = text;
    if (isNew) this.#memory.shows = null;
    if (isNew) this.#readTable();
    return this.refresh({ isAnew: false });
  }

  /** Asks again: the card that is seen first, then the others that have a dot. */
  async refresh({ isAnew = true } = {}) {
    if (!this.#graph) return;
    const turn = ++this.#turn, { active } = this;
    if (isAnew) this.#shown = "";
    this.around.drawing.pick = null;
    const { ctx, asked } = this.#context(), shown = active.wantsVariables && !this.#graph.vertices.length ? EMPTY : await active.answer(ctx);
    if (turn !== this.#turn) return;
    this.#setDot(active, shown);
    this.#marks = shown.marks ?? {};
    const key = JSON.stringify([active.id, this.#graph, asked]);
    if (key !== this.#shown) this.#fill(shown.view());
    this.#shown = key;
    this.around.drawing.diagram.mark(this.#marks);
    this.around.drawing.sayWaiting();
    for (const card of CARDS) {
      if (card === active || !card.hasDot) continue;
      const other = await card.answer(this.#context().ctx);
      if (turn !== this.#turn) return;
      this.#setDot(card, other);
    }
  }

  #setDot({ id, hasDot, dotWords: usual }, { dot, dotWords = usual }) {
    if (!hasDot) return;
    const tab = byId(`tab-${id}`);
    tab.querySelector(".dot").className = `dot ${dot}`;
    tab.querySelector(".dot-words").textContent = dot ? `: ${dotWords[dot]}` : "";
  }

  /** Puts a card's view into the panel; what had the focus keeps it. */
  #fill(view) {
    const panel = this.#panel, had = document.activeElement;
    const key = panel.contains(had) && had.dataset.key, caret = had.selectionStart;
    panel.replaceChildren(view);
    forgetGone();
    const again = key ? [...panel.querySelectorAll("[data-key]")].find((el) => el.dataset.key === key) : null;
    again?.focus({ preventScroll: true });
    if (again?.tagName === "TEXTAREA") again.setSelectionRange(caret, caret);
    speak(panel.querySelector(".verdict")?.textContent ?? "");
  }

  /** Takes a table of counts, and shows what it gives for the effect, or for what is implied. @param {File} file */
  async take(file) {
    if (file.size > MOST_BYTES) return toast(`${file.name} has ${Math.ceil(file.size / 2 ** 20)} MB. A table has 64 MB at most.`);
    if ((await kindOf(file)) === "other") return toast(notRead(file));
    const table = new Table(file.name, new Uint8Array(await file.arrayBuffer()));
    Object.assign(this.#memory, { table, csv: null, count: undefined, zero: false });
    this.#readTable();
    this.show(this.active.id === "implications" ? "implications" : "data");
  }

  /** Gives the program the table, as it is read for the diagram. */
  #readTable() {
    const { table, csv: had } = this.#memory;
    if (!table) return;
    const csv = table.read(this.#observed());
    if (csv === had) return;
    this.#memory.csv = csv;
    this.program.put(tableName(csv.name), csv.content);
  }

  #observed() {
    return (this.#graph?.vertices ?? []).filter((v) => v.role !== "latent").map((v) => v.name);
  }

  /** What a report asks with. */
  context() {
    return this.#context().ctx;
  }

  /** Ends the choosing of a set by clicks. @returns {boolean} whether there was one */
  disarm() {
    if (!this.#memory.armed) return false;
    this.#memory.armed = null;
    this.refresh();
    return true;
  }

  /** What a card sees, with a record of the answers that it got. */
  #context() {
    const graph = this.#graph, text = this.#text, reading = this.program.of(text), asked = [];
    const { diagram } = this.around.drawing;
    const ask = async (words) => {
      const answer = await reading.ask(words);
      asked.push([words, answer.status, answer.out, answer.err]);
      return answer;
    };
    const read = async (words) => saidOf(await ask([...words, AS_JSON]));
    const print = async (words) => (await reading.ask(words)).out;
    const turn = this.#turn;
    const ctx = {
      ...this.around, graph, text, ask, read, print, memory: this.#memory,
      observed: this.#observed(),
      put: (name, content) => this.program.put(name, content),
      askAbout: (other, words) => this.program.ask(other, words),
      compute: (message) => this.program.compute({ text, ...message }),
      refresh: () => this.refresh(),
      isShown: () => turn === this.#turn,
      show: (id) => this.show(id),
      mark: (marks) => diagram.mark(marks ?? this.#marks),
      take: (file) => this.take(file),
      readAgain: () => {
        this.#readTable();
        this.refresh();
      },
    };
    return { ctx, asked };
  }
}
