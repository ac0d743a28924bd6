import { byId, h } from "../dom.js";

/** @typedef {{text: string, act: () => void, key?: string, checked?: boolean, cls?: string}} Item */
/** @typedef {{x: number, y: number, beside?: {x: number, y: number}}} Place `beside` is for what is too high for it */

/** Opens a menu at a place. @param {Place} at @param {Item[]} items @param {Element} [back] */
export function openMenu(at, label, items, back) {
  closeMenu();
  const box = h("div", { class: "menu", role: "menu", "aria-label": label, id: "menu" },
    h("div", { class: "menu-title", "aria-hidden": "true" }, label), items.map(itemButton));
  box.addEventListener("keydown", (e) => {
    moveInMenu(e, box, back);
    chooseByKey(e, items);
  });
  show(box, at);
  box.querySelector("button")?.focus();
}

function itemButton({ text, act, key, checked, cls }) {
  const isRadio = checked !== undefined;
  return h("button", {
    type: "button", role: isRadio ? "menuitemradio" : "menuitem", "aria-checked": isRadio ? String(checked) : null,
    "aria-keyshortcuts": key ?? null, class: cls ?? null, tabindex: -1,
    onclick: () => {
      closeMenu();
      act();
    },
  }, text, key && h("kbd", { "aria-hidden": "true" }, key === "Delete" ? "Del" : key));
}

/** The letter of an item chooses it. */
function chooseByKey(e, items) {
  if (e.ctrlKey || e.metaKey || e.altKey) return;
  const found = items.find(({ key }) => key === e.key || (key === "Delete" && e.key === "Backspace"));
  if (!found) return;
  e.preventDefault();
  closeMenu();
  found.act();
}

function moveInMenu(e, box, back) {
  const all = [...box.querySelectorAll("button")], i = all.indexOf(document.activeElement);
  const to = { ArrowDown: i + 1, ArrowUp: i - 1 + all.length, Home: 0, End: all.length - 1 }[e.key];
  if (to !== undefined && all.length) {
    e.preventDefault();
    all[to % all.length].focus();
  }
  if (e.key !== "Escape" && e.key !== "Tab") return;
  e.preventDefault();
  e.stopPropagation();
  closeMenu();
  back?.focus();
}

/**
 * Asks for a name at a place. What was typed is taken by Enter and by OK, and also when the user goes elsewhere; Escape drops it.
 * @param {(name: string, isLeft: boolean) => void} take `isLeft` where the user is elsewhere already
 */
export function askText(at, label, value, take, back) {
  closeMenu();
  const input = h("input", { "aria-label": label, autocomplete: "off", enterkeyhint: "done" }), done = (isLeft) => {
    const text = input.value.trim();
    left = null;
    closeMenu();
    take(text, isLeft);
  };
  const onkeydown = (e) => {
    if (e.key === "Escape") left = null;
    else if (e.key !== "Enter" && e.key !== "Tab") return;
    e.preventDefault();
    e.stopPropagation();
    if (e.key !== "Escape") return done(false);
    closeMenu();
    back?.focus();
  };
  input.value = value;
  const box = h("div", { class: "menu", role: "dialog", "aria-label": label, id: "menu", onkeydown },
    h("div", { class: "menu-title", "aria-hidden": "true" }, label),
    h("div", { class: "asked-name" }, input, h("button", { type: "button", class: "small primary", onclick: () => done(false) }, "OK")));
  show(box, at);
  left = { box, done };
  input.focus();
  input.select();
}

let left = null; // an open question, whose answer is taken when the user goes elsewhere

function show(box, place) {
  document.body.append(box);
  const at = place.beside && place.y + box.offsetHeight > innerHeight ? place.beside : place;
  box.style.left = `${Math.max(8, Math.min(at.x, innerWidth - box.offsetWidth - 8))}px`;
  box.style.top = `${Math.max(8, Math.min(at.y, innerHeight - box.offsetHeight - 8))}px`;
}

export function closeMenu() {
  const { box, done } = left ?? {};
  left = null;
  if (box?.isConnected) done(true);
  byId("menu")?.remove();
}

document.addEventListener("pointerdown", (e) => !e.target.closest("#menu") && closeMenu(), true);
