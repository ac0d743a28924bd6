// Shapes and lines of a drawing: how wide vertices are, how edges bend round them, where they end.

/** @typedef {{x: number, y: number}} Point  @typedef {import("../text/printed.js").Edge} Edge */

export const HEIGHT = 36;

const ruler = globalThis.document?.createElement("canvas").getContext("2d");

const MOST_LETTERS = 32;

/** What a vertex's shape shows of its name; the whole one is in its title. */
export const shownName = (name) => ([...name].length > MOST_LETTERS ? `${[...name].slice(0, MOST_LETTERS - 2).join("")} …` : name);

const SHORT = 12; // letters that stay in one line
const LINE = 17; // pixels from a line to the next
export const LINES_AT = [-LINE / 2, LINE / 2];

/** The lines of a vertex's name: two where it can be parted and is long, about equally long. */
export function linesOf(name) {
  const shown = shownName(name), breaks = [...shown.matchAll(/[\s_.\/-]+/g)].map((m) => m.index + m[0].length).filter((at) => at < shown.length);
  if ([...shown].length <= SHORT || !breaks.length) return [shown];
  const longest = (at) => Math.max(at, shown.length - at), at = breaks.reduce((best, other) => (longest(other) < longest(best) ? other : best));
  return longest(at) > 0.75 * shown.length ? [shown] : [shown.slice(0, at), shown.slice(at)];
}

/** Half the height of a vertex's shape. @param {{name: string}} vertex */
export const halfHeight = ({ name }) => HEIGHT / 2 + (linesOf(name).length > 1 ? LINE / 2 : 0);

/** Half the width of a vertex's shape. @param {import("../text/printed.js").Vertex} vertex */
export function halfWidth({ name, role }) {
  ruler.font = "500 15px system-ui, sans-serif";
  const mark = role === "exposure" || role === "outcome" ? 18 : 0, widths = linesOf(name).map((line) => ruler.measureText(line.trimEnd()).width);
  return Math.max(widths.length > 1 ? 28 : 22, (Math.max(...widths) + mark) / 2 + 13);
}

/** What a layout has to know of a graph: bidirected edges are drawn round what is placed by the others. */
export const outline = ({ vertices, edges }) => ({
  vertices: vertices.map((v) => ({ name: v.name, width: 2 * halfWidth(v), height: 2 * halfHeight(v) })),
  edges: edges.filter((e) => !e.both).map((e) => [e.a, e.b]),
  arcs: edges.filter((e) => e.both).map((e) => [e.a, e.b]),
});

/** A place for a vertex that has none: near the middle of its neighbours, clear of all others. */
export function placeNear(name, edges, /** @type {Map<string, Point>} */ places) {
  const other = (e) => (e.a === name ? [e.b] : e.b === name ? [e.a] : []);
  const beside = edges.flatMap(other).map((n) => places.get(n)).filter(Boolean);
  const around = beside.length ? beside : [...places.values()];
  const mean = (k) => around.reduce((sum, p) => sum + p[k], 0) / (around.length || 1);
  const middle = { x: mean("x"), y: mean("y") };
  const isClear = (p) => [...places.values()].every((q) => Math.hypot((p.x - q.x) / 1.3, p.y - q.y) > 62);
  for (let i = 0; ; i++) {
    const r = 26 * Math.sqrt(i), p = { x: middle.x + r * Math.cos(2.4 * i), y: middle.y + r * Math.sin(2.4 * i) };
    if (isClear(p)) return p;
  }
}

/** A vertex's shape: its middle, and half of its width and height. @typedef {{x: number, y: number, half: number, tall?: number}} Shape */
const tallOf = ({ tall = HEIGHT / 2 }) => tall;

const SPACE = { x: 14, y: 12 }; // pixels between a new shape and others
const STRIDE = { x: 20, y: 16 };

/**
 * The place nearest to a point where a shape meets no other: within what is seen, where there is one.
 * @param {number} half of its width @param {Point} near @param {Shape[]} others
 * @param {{left: number, right: number, top: number, bottom: number}} seen @param {number} tall half of its height
 */
export function freePlace(half, near, others, seen, tall = HEIGHT / 2) {
  const meets = (p) => others.some((o) => Math.abs(p.x - o.x) < half + o.half + SPACE.x && Math.abs(p.y - o.y) < tall + tallOf(o) + SPACE.y);
  if (!meets(near)) return near;
  const isSeen = ({ x, y }) => x - half >= seen.left && x + half <= seen.right && y - tall >= seen.top && y + tall <= seen.bottom;
  const free = (steps, test) => {
    const found = [];
    for (let i = -steps; i <= steps; i++) {
      for (let j = -steps; j <= steps; j++) {
        const p = { x: near.x + i * STRIDE.x, y: near.y + j * STRIDE.y };
        if (test(p) && !meets(p)) found.push(p);
      }
    }
    const far = (p) => Math.hypot(p.x - near.x, p.y - near.y);
    return found.sort((p, q) => far(p) - far(q))[0];
  };
  const reach = Math.ceil(Math.max((seen.right - seen.left) / STRIDE.x, (seen.bottom - seen.top) / STRIDE.y));
  let place = free(Math.min(80, reach), isSeen);
  for (let steps = 20; !place; steps *= 2) place = free(steps, () => true);
  return place;
}

/** A name for an edge, the same for both ways to say a bidirected one. */
export function keyOf({ a, b, both }) {
  if (!both) return `${a}\n->\n${b}`;
  return a < b ? `${a}\n<->\n${b}` : `${b}\n<->\n${a}`;
}

/** A point of the curve from p to q with the control point c. */
export const curve = (p, c, q, t) => ({
  x: (1 - t) ** 2 * p.x + 2 * t * (1 - t) * c.x + t * t * q.x,
  y: (1 - t) ** 2 * p.y + 2 * t * (1 - t) * c.y + t * t * q.y,
});

/** Where the ray from a vertex's middle toward a point leaves its shape (a box with round ends), with a gap. */
export function rim(p, half, toward, gap, tall = HEIGHT / 2) {
  const dx = toward.x - p.x, dy = toward.y - p.y, d = Math.hypot(dx, dy);
  if (d < 1e-6) return p;
  const r = tall + gap, flat = half - tall;
  let t = Math.abs(dy) < 1e-9 ? Infinity : r / Math.abs(dy);
  if (t * Math.abs(dx) > flat) { // it leaves by a round end: |t(dx,dy) - (flat,0)| = r
    const b = Math.abs(dx) * flat, c = flat * flat - r * r;
    t = (b + Math.sqrt(b * b - d * d * c)) / (d * d);
  }
  return { x: p.x + dx * t, y: p.y + dy * t };
}

const HEIGHTS = [0, 34, 64, 100, 140, 190, 250, 320, 400]; // of a bend, in pixels
const SIDES = [0.5, 0.3, 0.7, 0.15, 0.85]; // where along an edge its bend is
const STRAIGHT_FIRST = HEIGHTS.flatMap((height) => (height ? SIDES.flatMap((side) => [[height, side], [-height, side]]) : [[0, 0.5]]));
const ARC_HEIGHTS = [1, -1, 1.7, -1.7, 0.6, -0.6, 2.5, -2.5, 3.5, -3.5];
const STEP = 9; // pixels, about, between the points at which a curve is looked at
const MOST_STEPS = 80;

/**
 * The control point of an edge's curve: the first of some bends that meets no other vertex and none of the arcs that are there
 * already, or else the one that meets the least.
 * @param {Shape[]} others @param {Point[]} arcs the middles of arcs
 * @param {number} [tries] how many bends are looked at
 */
export function bend(p, q, both, others, arcs, tries = Infinity) {
  const d = Math.hypot(q.x - p.x, q.y - p.y) || 1, nx = (q.y - p.y) / d, ny = -(q.x - p.x) / d;
  const base = Math.min(110, 26 + 0.26 * d), above = nx * 0.2 + ny < 0 ? 1 : -1;
  const bends = both ? ARC_HEIGHTS.flatMap((k) => SIDES.slice(0, 3).map((side) => [k * base, side])) : STRAIGHT_FIRST;
  let best = null;
  for (const [height, side] of bends.slice(0, tries)) {
    const up = 2 * height * above, c = { x: p.x + side * (q.x - p.x) + up * nx, y: p.y + side * (q.y - p.y) + up * ny };
    const met = meetings(p, c, q, others, arcs, best?.met ?? Infinity);
    if (!best || met < best.met) best = { c, met };
    if (!met) break;
  }
  return best.c;
}

/** How often a curve meets others; it is left where it meets as many as another does. */
function meetings(p, c, q, others, arcs, most) {
  const low = { x: Math.min(p.x, c.x, q.x), y: Math.min(p.y, c.y, q.y) }, high = { x: Math.max(p.x, c.x, q.x), y: Math.max(p.y, c.y, q.y) };
  const near = others.filter((o) => o.x + o.half + 5 > low.x && o.x - o.half - 5 < high.x && o.y + 2 * tallOf(o) > low.y && o.y - 2 * tallOf(o) < high.y);
  const steps = near.length ? Math.min(MOST_STEPS, Math.ceil((Math.hypot(c.x - p.x, c.y - p.y) + Math.hypot(q.x - c.x, q.y - c.y)) / STEP)) : 10;
  let met = 0;
  for (let i = 1; i < steps && met < most && near.length + arcs.length; i++) {
    const at = curve(p, c, q, i / steps);
    for (const o of near) if (Math.abs(at.x - o.x) < o.half + 5 && Math.abs(at.y - o.y) < tallOf(o) + 7) met++;
    for (const arc of arcs) if (Math.hypot(at.x - arc.x, at.y - arc.y) < 9) met += 0.2;
  }
  return met;
}

/** Whether a curve runs behind one of these. */
export const runsBehind = (p, c, q, others) => meetings(p, c, q, others, [], 1) > 0;
