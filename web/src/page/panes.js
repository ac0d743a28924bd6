import { byId } from "../dom.js";

// The panes' sizes: each border can be dragged, or moved by arrows when it has the focus; Home, or a double click, gives the usual size.

const KEY = "causal.panes";
const STEP = 16;
const NARROW = matchMedia("(max-width: 1080px)"); // the text stands below the drawing then

const BORDERS = [
  { id: "split-text", pane: "text-pane", least: 150, of: () => (NARROW.matches ? "text-height" : "text-width") },
  { id: "split-answers", pane: "answers-pane", least: 300, of: () => "answers-width" },
];

/** Lets the panes be resized. @param {() => void} resized */
export function resizePanes(resized) {
  const sizes = kept();
  const apply = () => {
    for (const name of ["text-width", "text-height", "answers-width"]) {
      if (sizes[name]) document.documentElement.style.setProperty(`--${name}`, `${sizes[name]}px`);
      else document.documentElement.style.removeProperty(`--${name}`);
    }
    for (const border of BORDERS) tell(border);
    resized();
  };
  for (const border of BORDERS) listen(border, (size) => {
    sizes[border.of()] = size;
    keep(sizes);
    apply();
  });
  NARROW.addEventListener("change", apply);
  addEventListener("resize", () => BORDERS.forEach(tell));
  apply();
}

const sizeOf = ({ pane, of }) => byId(pane).getBoundingClientRect()[of() === "text-height" ? "height" : "width"];
const mostOf = ({ of }) => 0.6 * (of() === "text-height" ? innerHeight : innerWidth);

/** Says to a screen reader where the border stands. */
function tell(border) {
  const el = byId(border.id), isFlat = border.of() === "text-height";
  const values = { orientation: isFlat ? "horizontal" : "vertical", valuenow: sizeOf(border), valuemin: border.least, valuemax: mostOf(border) };
  for (const [name, value] of Object.entries(values)) el.setAttribute(`aria-${name}`, typeof value === "number" ? Math.round(value) : value);
}

function listen(border, set) {
  const el = byId(border.id), isText = border.pane === "text-pane", isFlat = () => border.of() === "text-height";
  const grow = (by) => set(Math.max(border.least, Math.min(mostOf(border), sizeOf(border) + by)));
  const outward = (e) => (isFlat() ? -e.movementY : isText ? e.movementX : -e.movementX);
  el.addEventListener("pointerdown", (e) => {
    e.preventDefault();
    el.setPointerCapture(e.pointerId);
    let last = e;
    const move = (now) => {
      grow(outward({ movementX: now.clientX - last.clientX, movementY: now.clientY - last.clientY }));
      last = now;
    };
    el.addEventListener("pointermove", move);
    el.addEventListener("pointerup", () => el.removeEventListener("pointermove", move), { once: true });
  });
  el.addEventListener("dblclick", () => set(0));
  el.addEventListener("keydown", (e) => {
    const by = { ArrowRight: { movementX: STEP, movementY: 0 }, ArrowLeft: { movementX: -STEP, movementY: 0 },
      ArrowDown: { movementX: 0, movementY: STEP }, ArrowUp: { movementX: 0, movementY: -STEP } }[e.key];
    if (!by && e.key !== "Home") return;
    e.preventDefault();
    if (by) grow(outward(by));
    else set(0);
  });
}

function kept() {
  try {
    return JSON.parse(localStorage.getItem(KEY)) ?? {};
  } catch {
    return {};
  }
}

function keep(sizes) {
  try {
    localStorage.setItem(KEY, JSON.stringify(sizes));
  } catch {
    // a browser that keeps nothing: the sizes last as long as the page
  }
}
