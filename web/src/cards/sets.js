import { h } from "../dom.js";

/**
 * A set of vertices that the user chooses: from a list, or by clicks in the drawing while its button is pressed.
 * @param {import("./parts.js").Context} ctx
 * @param {string[]} fallback what it holds until something is chosen
 * @returns {{names: string[], row: () => HTMLElement}}
 */
export function chosenSet(ctx, key, label, fallback) {
  const { memory, observed } = ctx, names = (memory.sets[key] ?? fallback).filter((n) => observed.includes(n));
  const toggle = (name) => {
    const wanted = names.includes(name) ? names.filter((n) => n !== name) : [...names, name];
    memory.sets[key] = observed.filter((n) => wanted.includes(n));
    ctx.refresh();
  };
  if (memory.armed === key) ctx.drawing.pick = { label, toggle };
  return { names, row: () => row(ctx, key, label, names, toggle) };
}

function row(ctx, key, label, names, toggle) {
  const { memory, observed } = ctx, isArmed = memory.armed === key;
  const arm = () => {
    memory.armed = isArmed ? null : key;
    ctx.refresh();
  };
  const chip = (name) => h("button", {
    type: "button", class: "chip", data: { key: `${key} ${name}` }, "aria-label": `leave ${name} out of ${label}`,
    onclick: () => toggle(name),
  }, name, h("span", { "aria-hidden": "true" }, " ×"));
  const rest = observed.filter((name) => !names.includes(name));
  const add = h("select", {
    "aria-label": `add to ${label}`, data: { key: `add ${key}` }, onchange: (e) => toggle(e.target.value),
  }, h("option", { value: "" }, "+"), rest.map((name) => h("option", { value: name }, name)));
  return h("div", { class: "picker", role: "group", "aria-label": label },
    h("button", {
      type: "button", class: "arm", data: { key: `arm ${key}` }, "aria-pressed": String(isArmed),
      title: "Choose by clicking variables in the drawing", onclick: arm,
    }, label),
    h("div", { class: "chips" }, names.map(chip), rest.length ? add : null));
}

export const howToChoose = () => h("p", { class: "small-print" },
  "Press a row's name, then click variables in the drawing; or take them from the list.");
