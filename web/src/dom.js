/**
 * Makes an element. `on*` properties are listeners, `data` is a data set, others are attributes; null, undefined and
 * false are left out.
 */
export function h(tag, props = {}, ...children) {
  return fill(document.createElement(tag), props, children);
}

/** The same for SVG. */
export function svg(tag, props = {}, ...children) {
  return fill(document.createElementNS("http://www.w3.org/2000/svg", tag), props, children);
}

const isGiven = (value) => value !== null && value !== undefined && value !== false;

function fill(el, props, children) {
  for (const [key, value] of Object.entries(props)) {
    if (!isGiven(value)) continue;
    if (key.startsWith("on")) el.addEventListener(key.slice(2), value);
    else if (key === "data") Object.assign(el.dataset, value);
    else el.setAttribute(key, value === true ? "" : value);
  }
  el.append(...children.flat(9).filter(isGiven));
  return el;
}

export const byId = (id) => document.getElementById(id);

/** Says a sentence to a screen reader. */
export function speak(sentence) {
  byId("spoken").textContent = sentence;
}

/** Saves a text, or bytes, as a file of the user's. */
export function save(name, text, type) {
  const link = h("a", { href: URL.createObjectURL(new Blob([text], { type })), download: name });
  link.click();
  setTimeout(() => URL.revokeObjectURL(link.href), 1000);
}

/** Copies a text; by a selection where the browser refuses the clipboard, as it may for a file. */
export async function copy(text) {
  try {
    await navigator.clipboard.writeText(text);
  } catch {
    const area = h("textarea", { class: "unseen", "aria-hidden": "true", tabindex: -1 });
    area.value = text;
    (document.querySelector("dialog[open]") ?? document.body).append(area);
    area.select();
    document.execCommand("copy");
    area.remove();
  }
}

/** A small button. */
export const button = (text, act, props = {}) =>
  h("button", { type: "button", class: "small", onclick: act, ...props }, text);

/** A button that copies a text; `what` says to a screen reader which. */
export function copyButton(text, what, label = "Copy") {
  const el = button(label, async () => {
    await copy(text);
    el.textContent = "Copied";
    speak(`${what} copied`);
    setTimeout(() => (el.textContent = label), 1200);
  }, { "aria-label": `Copy ${what}` });
  return el;
}
