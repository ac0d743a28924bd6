// Fitting the places that a text gives to the sizes of names, so that no two names lie on one another.

/** @typedef {{x: number, y: number}} Point */

const TYPICAL = 140; // pixels between neighbours
const MOST_GROWTH = 6; // beyond this, vertices that nearly coincide are pushed apart instead
const FAR = 600;
const GAP = { x: 24, y: 20 };
const MOST_ROUNDS = 200;

const LOOSE = 1.1; // how much further apart names stand than they must, where there is no room for more

/**
 * The pixels of a unit at which names don't overlap; `scale` where it will do, or less where that shows names larger in their room.
 * @param {Map<string, Point>} given @param {Map<string, number>} halves half of each name's width @param {{width: number, height: number}} [room]
 */
export function scaleFor(given, halves, height, scale, room) {
  const points = [...given].map(([name, p]) => ({ ...p, half: halves.get(name) ?? 0 }));
  const typical = median(points.map((p) => Math.min(...points.filter((q) => q !== p).map((q) => distance(p, q)))));
  if (!(typical > 0 && Number.isFinite(typical))) return scale;
  const needed = Math.max(...points.flatMap((p, i) => points.slice(i + 1).map((q) => needs(p, q, height))));
  const wished = needed <= scale && typical * scale <= FAR ? scale : Math.min(Math.max(needed, TYPICAL / typical), (MOST_GROWTH * TYPICAL) / typical);
  return room ? Math.min(wished, Math.max(LOOSE * needed, filling(points, height, room))) : wished;
}

/** The scale at which the names fill their room. */
function filling(points, height, room) {
  const span = (k) => Math.max(...points.map((p) => p[k])) - Math.min(...points.map((p) => p[k])), widest = 2 * Math.max(...points.map((p) => p.half));
  return Math.max(0, Math.min((room.width - widest) / span("x"), (room.height - height) / span("y")));
}

const distance = (p, q) => Math.hypot(p.x - q.x, p.y - q.y);
const median = (list) => list.sort((a, b) => a - b)[list.length >> 1];

/** The scale at which two names stand clear of one another, side by side or one above the other. */
const needs = (p, q, height) =>
  Math.min((p.half + q.half + GAP.x) / Math.abs(p.x - q.x), (height + GAP.y) / Math.abs(p.y - q.y));

/** Pushes names apart that still overlap. @param {Map<string, Point>} places in pixels @returns {Map<string, Point>} */
export function apart(places, halves, height) {
  const all = [...places].map(([name, p]) => ({ name, ...p, half: halves.get(name) ?? 0 }));
  for (let round = 0; round < MOST_ROUNDS && pushOnce(all, height); round++);
  return new Map(all.map(({ name, x, y }) => [name, { x, y }]));
}

/** @returns {boolean} whether two names overlapped */
function pushOnce(all, height) {
  let met = false;
  all.forEach((p, i) => {
    for (const q of all.slice(i + 1)) {
      const x = p.half + q.half + GAP.x - Math.abs(p.x - q.x), y = height + GAP.y - Math.abs(p.y - q.y);
      if (x <= 0.01 || y <= 0.01) continue;
      met = true;
      const k = x < y ? "x" : "y", by = Math.min(x, y) / 2 + 0.01, side = p[k] > q[k] ? 1 : -1;
      p[k] += side * by;
      q[k] -= side * by;
    }
  });
  return met;
}

/** Places on a circle, for a graph whose layout takes too long. */
export function circle(names, halves) {
  const widest = Math.max(22, ...names.map((name) => halves.get(name) ?? 0));
  const radius = Math.max(120, (names.length * (2 * widest + GAP.x)) / (2 * Math.PI));
  return new Map(names.map((name, i) => {
    const angle = (2 * Math.PI * i) / names.length - Math.PI / 2;
    return [name, { x: radius * Math.cos(angle), y: radius * Math.sin(angle) }];
  }));
}
