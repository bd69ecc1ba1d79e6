// Cards over the picture: one of them is open at a time, besides that of the tile.
import { byId, onEscape, picture } from "./page.js";

const CARDS = ["tilings", "look", "places", "save", "help"];
const openers = (name) => document.querySelectorAll(`[aria-controls="${name}"]`);

export class Cards {
  /** `opened(name)` is called when a card opens. */
  constructor(opened) {
    this.opened = opened;
    this.open = null;
    this.opener = null;
    for (const name of CARDS) {
      for (const button of openers(name)) button.addEventListener("click", () => this.toggle(name, button));
      byId(name).querySelector(".close").addEventListener("click", () => this.close(true));
      onEscape(byId(name), () => this.close(true));
    }
    byId("fault").querySelector(".close").addEventListener("click", () => this.closeFault());
    onEscape(byId("fault"), () => this.closeFault());
  }

  toggle(name, button) {
    if (this.open === name) this.close(true);
    else this.show(name, button);
  }

  show(name, opener) {
    this.close(false);
    this.open = document.body.dataset.card = name;
    this.opener = opener;
    byId(name).hidden = false;
    for (const button of openers(name)) button.setAttribute("aria-expanded", "true");
    this.opened(name);
    const hasMouse = !matchMedia("(pointer: coarse)").matches,
        search = byId(name).querySelector("[type=search]");
    (hasMouse && search ? search : byId(name)).focus({ preventScroll: true });
  }

  /** Closes the open card; `isDone` gives the focus back. */
  close(isDone) {
    if (!this.open) return;
    byId(this.open).hidden = true;
    for (const button of openers(this.open)) button.setAttribute("aria-expanded", "false");
    this.open = null;
    document.body.dataset.card = "";
    if (isDone) this.opener?.focus();
  }

  /** Says a fault, with the engine's line and a picture if there are any. */
  fault(title, words, line = "", svg = "") {
    byId("fault-title").textContent = title;
    byId("fault-words").textContent = words;
    byId("fault-line").textContent = line;
    byId("fault-line").hidden = !line;
    const pictures = svg ? [picture(svg, `The rule, with the fault in red. ${words}`)] : [];
    byId("fault-picture").replaceChildren(...pictures);
    byId("fault").hidden = false;
    byId("fault").querySelector(".close").focus();
  }

  closeFault() {
    byId("fault").hidden = true;
    byId("tiling").focus({ preventScroll: true });
  }
}
