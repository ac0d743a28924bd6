import dagre from "dagre";
import { circle } from "./diagram/fitting.js";
import { bend, runsBehind } from "./diagram/geometry.js";

/** @typedef {{x: number, y: number}} Point  @typedef {{width: number, height: number}} Size */

const SIDEWAYS_FIRST = 1.2; // how much larger a drawing from top to bottom is, where it is taken
const QUICK_MS = 400; // a layout that took longer isn't computed the other way as well
const MOST_STRETCH = 2.2;
const MOST_EDGES = 150; // beyond it edges may run behind vertices
const DENSE = 300; // edges beyond which those that longer ways make superfluous don't count, since dagre takes seconds for them
const RANK_GAP = 84; // pixels
const WIDER = 1.15; // how much a layout grows at once, so that no edge does
const MOST_ROUNDS = 8;

/**
 * Places for a graph by dagre: from left to right, or from top to bottom where that shows it clearly larger in its room.
 * @param {{vertices: {name: string, width: number, height: number}[], edges: [string, string][], arcs?: [string, string][], room?: Size}} outline
 * @returns {[string, Point][]}
 */
export function arrange(outline, quickMs = QUICK_MS) {
  if (outline.edges.length > DENSE) return listed(arrangeDense(outline));
  const began = performance.now(), sideways = arrangeBy("LR", outline), { room } = outline, isQuick = performance.now() - began < quickMs;
  const down = room && isQuick ? arrangeBy("TB", outline) : sideways, isDown = room && scaleIn(room, down) > SIDEWAYS_FIRST * scaleIn(room, sideways);
  const chosen = isDown ? down : sideways;
  if (room) stretch(chosen, room);
  widen(chosen, outline);
  return listed(chosen);
}

/** A layout of many edges, or a circle where that shows it larger. */
function arrangeDense({ vertices, edges, room }) {
  const outline = { vertices, edges: reduced(edges) };
  if (!room) return arrangeBy("LR", outline);
  const places = circle(vertices.map(({ name }) => name), new Map(vertices.map(({ name, width }) => [name, width / 2])));
  const round = vertices.map((v) => ({ ...v, ...places.get(v.name) }));
  if (scaleIn(room, round) > mostIn(room, outline)) return round;
  return [round, arrangeBy("LR", outline), arrangeBy("TB", outline)].reduce((best, other) => (scaleIn(room, other) > scaleIn(room, best) ? other : best));
}

/** How large a layout in ranks is shown at the most: they stand side by side, or one above the other. */
function mostIn(room, { vertices, edges }) {
  const next = new Map(), known = new Map();
  for (const [a, b] of edges) next.set(a, [...(next.get(a) ?? []), b]);
  const ranksFrom = (name) => {
    if (!known.has(name)) known.set(name, 1 + Math.max(0, ...(next.get(name) ?? []).map(ranksFrom)));
    return known.get(name);
  };
  const ranks = Math.max(...vertices.map(({ name }) => ranksFrom(name))), span = (side) => ranks * Math.min(...vertices.map((v) => v[side])) + (ranks - 1) * RANK_GAP;
  return Math.max(room.width / span("width"), room.height / span("height"));
}

/** The arrows of a graph without cycles that no longer way makes superfluous. @param {[string, string][]} edges */
function reduced(edges) {
  const next = new Map(), known = new Map();
  for (const [a, b] of edges) next.set(a, [...(next.get(a) ?? []), b]);
  const behind = (name) => {
    if (!known.has(name)) known.set(name, new Set((next.get(name) ?? []).flatMap((b) => [b, ...behind(b)])));
    return known.get(name);
  };
  return edges.filter(([a, b]) => !next.get(a).some((other) => behind(other).has(b)));
}

/** Widens a layout until each edge can be bent round the vertices that aren't its ends. */
function widen(placed, { edges, arcs = [] }) {
  const by = new Map(placed.map((p) => [p.name, p]));
  const meets = (isArc) => ([a, b]) => {
    const others = placed.filter(({ name }) => name !== a && name !== b).map((p) => ({ ...p, half: p.width / 2, tall: p.height / 2 })), [p, q] = [by.get(a), by.get(b)];
    return runsBehind(p, bend(p, q, isArc, others, []), q, others);
  };
  const isBehind = () => edges.some(meets(false)) || arcs.some(meets(true));
  for (let round = 0; round < MOST_ROUNDS && edges.length + arcs.length <= MOST_EDGES && isBehind(); round++) {
    for (const p of placed) Object.assign(p, { x: p.x * WIDER, y: p.y * WIDER });
  }
}

const listed = (placed) => placed.map(({ name, x, y }) => [name, { x, y }]);

function arrangeBy(rankdir, { vertices, edges }) {
  const graph = new dagre.graphlib.Graph();
  graph.setGraph({ rankdir, ranksep: RANK_GAP, nodesep: 54 });
  graph.setDefaultEdgeLabel(() => ({}));
  for (const { name, width, height } of vertices) graph.setNode(name, { width, height });
  for (const [a, b] of edges) graph.setEdge(a, b, {});
  dagre.layout(graph);
  const placed = vertices.map(({ name, width, height }) => ({ name, width, height, ...pointOf(graph.node(name)) }));
  if (rankdir === "LR") press(placed, Math.max(0, ...vertices.map((v) => v.height)) + 24);
  return placed;
}

const pointOf = ({ x, y }) => ({ x, y });

/** How wide and high a layout is, with its vertices. */
function sizeOf(placed) {
  const span = (k, size) => Math.max(...placed.map((p) => p[k] + p[size] / 2)) - Math.min(...placed.map((p) => p[k] - p[size] / 2));
  return { width: span("x", "width"), height: span("y", "height") };
}

function scaleIn(room, placed) {
  const { width, height } = sizeOf(placed);
  return Math.min(1.3, room.width / width, room.height / height);
}

/** A layout that fills its room one way alone is stretched the other way. */
function stretch(placed, room) {
  if (placed.length < 2) return;
  const size = sizeOf(placed), k = scaleIn(room, placed);
  for (const [at, side] of [["x", "width"], ["y", "height"]]) {
    const factor = Math.min(MOST_STRETCH, room[side] / k / size[side]);
    if (k < 1 && factor > 1) for (const p of placed) p[at] *= factor;
  }
}

/** Many long edges make the layout high: it is pressed together, with each rank's order and least distances kept. */
function press(points, least) {
  const span = (k) => Math.max(...points.map((p) => p[k])) - Math.min(...points.map((p) => p[k]));
  const factor = (0.75 * span("x")) / span("y");
  if (!(factor < 1) || points.length < 8) return;
  const ranks = new Map();
  for (const p of points) ranks.set(p.x, [...(ranks.get(p.x) ?? []), p]);
  for (const rank of ranks.values()) pressRank(rank.sort((p, q) => p.y - q.y), factor, least);
}

function pressRank(rank, factor, least) {
  const mean = () => rank.reduce((sum, p) => sum + p.y, 0) / rank.length;
  const middle = mean() * factor;
  rank.forEach((p, i) => (p.y = Math.max(p.y * factor, i ? rank[i - 1].y + least : -Infinity)));
  const shift = middle - mean();
  for (const p of rank) p.y += shift;
}
