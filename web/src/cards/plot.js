import { svg } from "../dom.js";

const WIDTH = 400;
const ROW = 22;
const MOST_GROUPS = 12;
const MOST_ROWS = 20;
const TICKS = [0, 0.25, 0.5, 0.75, 1];

/**
 * Values between 0 and 1 as dots: a group per outcome, and per level of a condition, a row per value of the exposure.
 * @param {import("../objects.js").Cell[]} cells
 */
export function dotPlot(cells) {
  const groupOf = (c) => (c.given ? `${c.y} among ${c.given}` : c.y), groups = [...new Set(cells.map(groupOf))].slice(0, MOST_GROUPS);
  const left = Math.min(190, 24 + 7 * Math.max(3, ...cells.map((c) => c.x.length)));
  const scale = (value) => left + value * (WIDTH - left - 48);
  let y = 8;
  const body = groups.flatMap((group) => {
    const parts = [svg("text", { x: 0, y: (y += 14), class: "group" }, group)];
    const rows = cells.filter((c) => groupOf(c) === group).slice(0, MOST_ROWS);
    for (const cell of rows) parts.push(...dot(cell, (y += ROW), scale));
    y += 16;
    return parts;
  });
  const tick = (t) => svg("text", { x: scale(t), y: y + 10, "text-anchor": "middle", class: "tick" }, String(t));
  const words = cells.map((c) => `${groupOf(c)}${c.x ? ` when ${c.x} is set` : ""}: ${c.value.toFixed(3)}`).join("; ");
  return svg("svg", { viewBox: `0 0 ${WIDTH} ${y + 16}`, class: "plot", role: "img", "aria-label": words },
    body, TICKS.map(tick));
}

function dot({ x, value }, y, scale) {
  const at = scale(value);
  return [
    svg("text", { x: scale(0) - 10, y: y + 4, "text-anchor": "end" }, x || "all"),
    svg("line", { x1: scale(0), x2: scale(1), y1: y, y2: y, class: "rail" }),
    svg("line", { x1: scale(0), x2: at, y1: y, y2: y, class: "bar" }),
    svg("circle", { cx: at, cy: y, r: 5 }),
    svg("text", { x: at + 9, y: y + 4, class: "value" }, value.toFixed(3)),
  ];
}
