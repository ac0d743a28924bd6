// The list of the diagrams that this browser keeps, with their names.
import { button, byId, h } from "../dom.js";
import { titleOf, whichOf } from "./kept.js";
import { toast } from "./notices.js";

const UNTITLED = "Untitled";

/** The button that names the diagram, and opens the list. */
export class Diagrams {
  #button = byId("diagrams");
  #box = byId("diagrams-box");

  /** @param {import("./kept.js").Kept} kept @param {(entry: import("./kept.js").Entry) => void} open */
  constructor(kept, open) {
    Object.assign(this, { kept, open });
    this.#button.onclick = () => {
      this.#fill();
      this.#box.showModal();
    };
    addEventListener("storage", () => {
      kept.heard();
      this.tell();
      if (this.#box.open) this.#fillList();
    });
  }

  /** Shows the name of what is shown, and whether it is kept. */
  tell() {
    const { kept } = this, name = kept.shown.name || UNTITLED;
    this.#button.replaceChildren(h("span", { class: "name" }, name), h("span", { "aria-hidden": "true" }, " ▾"));
    this.#button.setAttribute("aria-label", `Diagram: ${name}. Name it, or open another of yours`);
    byId("not-kept").hidden = kept.isSafe;
  }

  #fill() {
    const { kept } = this, field = byId("diagram-name");
    field.value = kept.shown.name;
    field.placeholder = UNTITLED;
    field.onchange = () => {
      const wanted = field.value.trim(), name = kept.rename(wanted);
      field.value = name;
      byId("diagram-taken").textContent = name === wanted ? "" : `Another of your diagrams is called ${wanted}, so this one is ${name}. You can give it any other name.`;
      this.tell();
      this.#fillList();
    };
    byId("diagram-taken").textContent = "";
    this.#fillList();
  }

  #fillList() {
    const list = this.kept.list(), items = list.map((entry) => this.#item(entry, whichOf(entry, list)));
    byId("diagrams-list").replaceChildren(...(items.length ? items : [h("li", {}, "None yet: a diagram is kept from its first change on.")]));
  }

  /** @param {import("./kept.js").Entry} entry @param {string} which among those with its name */
  #item(entry, which) {
    const { id, name, text, at } = entry, isShown = id === this.kept.shown.id, title = name || UNTITLED;
    const item = h("li", { "aria-current": isShown ? "true" : null });
    const remove = () => {
      this.kept.remove(id);
      const back = () => {
        this.kept.restore(entry);
        this.#fillList();
      };
      item.replaceChildren(h("span", {}, `${title} is taken out of the list. `), button("Bring it back", back, { data: { key: "restore" } }));
    };
    item.append(
      h("button", { type: "button", class: "open", onclick: () => this.#open(entry), title: "Open it" },
        h("b", {}, title), isShown ? " (shown)" : "", which && ` (${which})`, h("small", {}, titleOf(text), at ? ` · ${new Date(at).toLocaleString()}` : "")),
      button("Delete", remove, { "aria-label": `Delete ${title}` }));
    return item;
  }

  #open(entry) {
    this.#box.close();
    if (entry.id === this.kept.shown.id) return;
    this.open(entry);
    toast(`${entry.name || UNTITLED} is opened; the one before stays in the list, if it was changed.`);
  }
}
