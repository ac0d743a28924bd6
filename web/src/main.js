import { Answers } from "./answers.js";
import { byId, copy, h, save } from "./dom.js";
import { summary } from "./diagram/describe.js";
import { waysToSave } from "./diagram/export.js";
import { Draft } from "./draft.js";
import { Editor } from "./editor.js";
import { Acts } from "./page/acts.js";
import { Drawing } from "./page/drawing.js";
import { closeMenu, openMenu } from "./page/menu.js";
import { toast } from "./page/notices.js";
import { Diagrams } from "./page/diagrams.js";
import { isCalledTable, kindOf, notRead } from "./page/files.js";
import { fileName, Kept } from "./page/kept.js";
import { resizePanes } from "./page/panes.js";
import { followLink, hasLink, partOf, readLink, writeLink } from "./page/link.js";
import { pathClasses } from "./paths.js";
import { Places } from "./places.js";
import { Program } from "./program.js";
import { Runner } from "./runner.js";
import { gather } from "./report/gather.js";
import { htmlOf, latexOf } from "./report/write.js";
import { taken } from "./text/taken.js";
import { warningsOf } from "./text/warnings.js";
import { Ways } from "./ways.js";

const inlined = (id) => byId(id).textContent.trim();
const examples = JSON.parse(inlined("examples")), exampleGraphs = examples.fields.flatMap(({ graphs }) => graphs);

const program = new Program(new Runner(inlined("worker-source"), inlined("module")));
const drawing = new Drawing(), { diagram } = drawing;
const places = new Places(new Runner(inlined("arranger-source")), diagram);

const kept = new Kept();
const nameOf = (kind) => fileName(kept.shown.name, kind);
const askAbout = (text, words) => program.ask(text, words);
let turnOfPaths = null;
let drawn = null; // when the drawing is right; nothing else waits for it

const draft = new Draft(program, {
  text: (text, { typed }) => typed || editor.set(text),
  asking: (reading) => answers.askAhead(reading),
  judged: (fault, text, { typed }) => {
    editor.judge(fault, text, typed);
    if (fault) keep(text, kept.shown.scale);
    if (fault) editor.note([]); // what was said of an earlier text isn't said of this one
    if (!fault) followLink(text, answers.active.id);
    byId("undo").disabled = !draft.canUndo;
    byId("redo").disabled = !draft.canRedo;
  },
  accepted: async (graph, text, how) => {
    byId("drawing").setAttribute("aria-label",
      `Diagram of ${summary(graph)}. Tab goes through the vertices, Enter opens a vertex's menu`);
    sayOrigin(graph);
    editor.note([...(text === rewritten.text ? [{ sentence: rewritten.words }] : []), ...warningsOf(text, graph)]);
    byId("welcome").hidden = graph.vertices.length > 0;
    drawn = places.draw(graph, text, how);
    keep(text, places.scaleOf(text));
    drawing.follow(graph);
    drawing.ways = new Ways(askAbout, graph);
    await answers.update(graph, text);
    colourPaths(graph);
  },
});
const editor = new Editor({
  typed: (text) => draft.follow(text), pasted: (text) => take(text), mended: (text) => draft.show(text), opened: () => toggleText(true),
  judged: () => drawing.sayWaiting(),
});
const acts = new Acts(draft, places, diagram);
drawing.use(acts);
const answers = new Answers(program, { drawing, acts, places, samples: examples.data, nameOf, kept: () => kept.list(), open: (text) => open(text) });

// ---- The head

const menu = byId("examples-menu");
menu.append(h("option", { value: "" }, "Examples"));
menu.append(...examples.fields.map(({ field, graphs }) => h("optgroup", { label: field }, graphs.map((e) => h("option", { value: e.name }, e.title)))));
menu.addEventListener("change", () => {
  const found = exampleGraphs.find((e) => e.name === menu.value);
  if (found) open(found.text, { name: found.title, source: found.source });
  menu.value = "";
});

const diagrams = new Diagrams(kept, (entry) => open(entry.text, entry));

/** Keeps what is shown. */
function keep(text, scale) {
  kept.keep(text, scale);
  diagrams.tell();
}

byId("new").onclick = () => open(EMPTY);
addEventListener("beforeunload", (e) => kept.isSafe || e.preventDefault());
byId("undo").onclick = () => draft.undo();
byId("redo").onclick = () => draft.redo();
byId("share").onclick = async () => {
  const link = await writeLink(draft.text, answers.active.id);
  history.replaceState(null, "", link);
  const isFile = location.protocol === "file:";
  await copy(isFile ? partOf(link) : link);
  toast(isFile
    ? "Copied is the end of the address, from # on. This page is a file of yours: put it behind the address of any other copy."
    : "The link with this diagram in it is copied.");
};
byId("about").onclick = () => byId("about-box").showModal();
byId("licences-box").ontoggle = () => (byId("licences-text").textContent = inlined("licences"));

// ---- The text

const EMPTY = "dag {\n}\n";
const MOST_BYTES = 2e6; // the program says the fault of a text that is only a little too long
let origin = { source: "", graph: "" };
let rewritten = { text: null, words: "" };

/** Shows a text that came from elsewhere, written as the program reads it; what was pasted comes back by undo. */
async function take(text) {
  const found = taken(text);
  await draft.show(text, { typed: !found });
  if (!found) return;
  rewritten = { text: found.text, words: `Written as the program reads it: ${found.changes.join("; ")}. Undo brings the pasted text back.` };
  await draft.show(found.text, { fit: true });
}

/** Shows another diagram, when what was begun with the one before is done. @param {Partial<import("./page/kept.js").Shown>} what */
async function open(text, what = {}) {
  closeMenu();
  await acts.settled();
  drawing.endEdge();
  places.reset(what.scale);
  answers.forgetChoices();
  origin = { source: what.source ?? "", graph: "" };
  kept.begin({ ...what, text });
  diagrams.tell();
  return taken(text) ? take(text) : draft.show(text, { fit: true });
}

/** Says where an example comes from, while it has the vertices and edges that it had when it was opened. */
function sayOrigin({ vertices, edges }) {
  const graph = JSON.stringify([vertices.map((v) => v.name), edges]);
  origin.graph ||= graph;
  byId("source").textContent = graph === origin.graph ? origin.source : "";
}

function toggleText(isOn = document.body.classList.contains("no-text")) {
  document.body.classList.toggle("no-text", !isOn);
  byId("fold").setAttribute("aria-expanded", String(isOn));
  requestAnimationFrame(() => {
    diagram.resized();
    if (!draft.isFaulty) places.useRoom(draft.accepted.graph, draft.accepted.text);
  });
}

/** Opens a file's text, or takes a table. What is far longer than a diagram's text may be isn't read. */
async function openFile(file) {
  const kind = await kindOf(file);
  if (kind === "other") toast(notRead(file));
  else if (kind === "table") answers.take(file);
  else if (file.size > MOST_BYTES) toast(`${file.name} has ${Math.ceil(file.size / 1e6)} MB. A diagram's text has 1 MB at most.`);
  else open(await file.text(), { name: file.name.replace(/\.\w+$/, "") });
}

byId("fold").onclick = () => toggleText();
byId("open-text").onchange = async (e) => {
  const [file] = e.target.files;
  if (file) openFile(file);
  e.target.value = "";
};
byId("save-text").onclick = () => save(nameOf("dag"), draft.text, "text/plain");
document.addEventListener("dragover", (e) => e.preventDefault());
document.addEventListener("drop", (e) => {
  e.preventDefault();
  const [file] = e.dataTransfer.files;
  if (file && (isCalledTable(file) || e.target.closest?.(".drop"))) answers.take(file);
  else if (file) openFile(file);
});

// ---- The drawing

byId("add").onclick = () => drawing.add();
byId("arrange").onclick = () => acts.arrange();
byId("fit").onclick = () => diagram.fit();
byId("in").onclick = () => diagram.zoomBy(1.3);
byId("out").onclick = () => diagram.zoomBy(1 / 1.3);
byId("export").onclick = (e) => {
  const { left, bottom } = e.currentTarget.getBoundingClientRect();
  if (diagram.graph.vertices.length) openMenu({ x: left, y: bottom + 6 }, "Save as", [...reports(), ...waysToSave(diagram, draft.accepted.text, nameOf)], e.currentTarget);
  else toast("There is nothing to save yet.");
};
/** A report of all answers, as a file. */
function reports() {
  const made = (kind, type, write) => async () => {
    toast("The report is being made …");
    const report = await gather(answers.context(), kept.shown.name || "A causal diagram");
    save(nameOf(kind), write(report, diagram), type);
    toast(`The report is saved as ${nameOf(kind)}.`);
  };
  return [
    { text: "Report, to print (HTML)", act: made("report.html", "text/html", htmlOf) },
    { text: "Report, as LaTeX", act: made("report.tex", "text/plain", latexOf) },
  ];
}

byId("paths").onclick = () => {
  const isOn = byId("paths").getAttribute("aria-pressed") !== "true", has = (role) => draft.accepted.graph.vertices.some((v) => v.role === role);
  if (isOn && !(has("exposure") && has("outcome"))) return toast("Mark an exposure and an outcome first: paths lead from the one to the other.");
  byId("paths").setAttribute("aria-pressed", String(isOn));
  colourPaths(draft.accepted.graph);
};

/** Colours the edges on causal and biasing paths, where that is wanted. */
async function colourPaths(graph) {
  const isOn = byId("paths").getAttribute("aria-pressed") === "true", mine = (turnOfPaths = {});
  document.body.classList.toggle("with-paths", isOn);
  if (!isOn) return diagram.show({ colours: new Map() });
  const colours = await pathClasses(askAbout, graph);
  if (mine === turnOfPaths) diagram.show({ colours });
}
addEventListener("resize", () => diagram.resized());
resizePanes(() => diagram.resized());
addEventListener("beforeprint", () => diagram.fitToPaper());
addEventListener("afterprint", () => diagram.backFromPaper());

// ---- Keys and links

document.addEventListener("keydown", (e) => {
  if (e.key === "Escape") drawing.endEdge() || drawing.endJoining() || answers.disarm() || drawing.endSelection() || drawing.unpin();
  handToHovered(e);
  const key = e.key.toLowerCase();
  if (!(e.ctrlKey || e.metaKey) || (key !== "z" && key !== "y") || e.target.closest("#panel textarea")) return;
  e.preventDefault();
  if (key === "y" || e.shiftKey) draft.redo();
  else draft.undo();
});

const TAKES_KEYS = "input, textarea, select, .menu, dialog, .vertex, #tabs, .splitter";

/** A key that nothing else takes is for the vertex under the pointer. */
function handToHovered(e) {
  if (e.ctrlKey || e.metaKey || e.altKey || /^(Enter|Tab|Escape|Shift| )$/.test(e.key) || e.target.closest?.(TAKES_KEYS)) return;
  const vertex = document.querySelector("#drawing .vertex:hover");
  if (!vertex) return;
  e.preventDefault();
  vertex.dispatchEvent(new KeyboardEvent("keydown", { key: e.key, shiftKey: e.shiftKey }));
}

/** Shows the diagram of the link, or else what this tab showed, or else what was changed last. */
async function start() {
  const { text, card } = await readLink();
  if (card) answers.show(card);
  const [first] = exampleGraphs, left = kept.left() ?? kept.list()[0];
  if (text !== null) await open(text, left?.text === text ? left : {});
  else if (left) await open(left.text, left);
  else await open(first.text, { name: first.title, source: first.source });
}

addEventListener("hashchange", () => hasLink() && start());

await start();
await drawn;
document.body.dataset.ready = String(Math.round(performance.now()));
