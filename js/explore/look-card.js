// The card with what the tiling looks like: colours, whole tiles or halves, lines, supertiles.
import { PALETTES, chosenBy, classesOf, coloursOf, hasOwn } from "./palettes.js";
import { kindName, starName } from "./catalogue.js";
import { byId, element } from "./page.js";

const HINTS = {
  kind: "Each kind of tile has its colour.",
  turn: "Tiles that are turned alike have one colour.",
  child: "The colour shows which child of its supertile a tile is.",
  star: "The colour shows the rarest star at a tile’s corners.",
};
const CLASS = { turn: "Turn", child: "Child" };
const MOST_WELLS = 24;

export class LookCard {
  constructor(app) {
    this.app = app;
    const choose = (name, chosen) =>
      document.querySelectorAll(`input[name="${name}"]`)
          .forEach((radio) => radio.addEventListener("change", () => chosen(radio.value)));
    choose("by", (by) => app.change({ by }));
    choose("whole", (value) => app.change({ isWhole: value === "whole" }));
    byId("lines").addEventListener("change", () => app.change({ lines: byId("lines").checked }));
    byId("level").addEventListener("input", () => app.change({ level: Number(byId("level").value) }));
    byId("palettes").append(...PALETTES.map((palette) => this.palette(palette)));
  }

  palette({ name, title, kinds }) {
    const strip = element("span", { class: "strip" },
        ...kinds.slice(0, 6).map((colour) => element("i", { style: `background:${colour}` })));
    const radio = element("input",
        { type: "radio", name: "palette", value: name,
        onchange: () => this.app.change({ palette: name, own: new Map() }) });
    return element("label", { class: "palette" }, radio, element("span", {}, strip, title));
  }

  show() {
    const { state, told } = this.app;
    if (!told) return;
    const by = chosenBy(state, told), check = (name, value) => {
      const radio = document.querySelector(`input[name="${name}"][value="${value}"]`);
      if (radio) radio.checked = true;
    };
    check("by", by);
    check("whole", state.isWhole ? "whole" : "halves");
    check("palette", state.palette);
    if (hasOwn(state, by)) this.unmark();
    byId("by-hint").textContent = HINTS[by];
    byId("tiles-as").hidden = !told.hasHalves;
    byId("lines").checked = state.lines;
    byId("level").value = state.level;
    byId("level-value").textContent = state.level ? `level ${state.level}` : "none";
    this.showWells(by);
  }

  /** Own colours are of no palette, so that each palette can be chosen then. */
  unmark() {
    document.querySelectorAll('input[name="palette"]').forEach((radio) => (radio.checked = false));
  }

  /** A well for each colour. Those that are there stay, so that one in use isn't closed. */
  showWells(by) {
    const { state, told } = this.app, classes = classesOf(state, told).slice(0, MOST_WELLS),
        colours = coloursOf(state, told);
    const key = `${state.tiling} ${state.isWhole} ${by} ${classes}`, wells = byId("wells");
    if (wells.dataset.key !== key) wells.replaceChildren(...classes.map((number) => this.well(by, number)));
    wells.dataset.key = key;
    classes.forEach((number, i) => (wells.children[i].querySelector("input").value = colours[number]));
  }

  well(by, number) {
    const input = element("input", { type: "color" });
    input.addEventListener("input", () => {
      const own = new Map(this.app.state.own);
      this.app.change({ own: own.set(by[0] + number, input.value) });
    });
    return element("label", {}, this.className(by, number), input);
  }

  /** What a class of tiles is called: kinds as the tile's card calls them. */
  className(by, number) {
    const { tiling, isWhole } = this.app.state;
    if (by === "kind") return kindName(tiling, number, isWhole) ?? `Kind ${number}`;
    return by === "star" ? starName(number) : `${CLASS[by]} ${number}`;
  }
}
