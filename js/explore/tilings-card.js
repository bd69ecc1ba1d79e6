// The card with the tilings to choose from, each with a small picture.
import { GROUPS, TILING_COUNT, tilingNamed } from "./catalogue.js";
import { coloursOf, paletteNamed } from "./palettes.js";
import { byId, element } from "./page.js";

const [WIDE, HIGH, TILES] = [76, 52, 46]; // a small picture: its size, and about how many tiles it has

export class TilingsCard {
  /** `choose(name)` is called for a tiling that is chosen, `openFile(file)` for a file. */
  constructor(app, choose, openFile) {
    this.app = app;
    this.choose = choose;
    this.own = [];
    this.pictures = new Map();
    this.line = Promise.resolve();
    this.watch = new IntersectionObserver((seen) => this.seen(seen), { root: byId("tiling-list") });
    byId("search").placeholder = `Search ${TILING_COUNT} tilings`;
    byId("search").addEventListener("input", () => this.list());
    byId("search").addEventListener("keydown", (event) => event.key === "Enter" && this.chooseFirst());
    byId("open-file").addEventListener("click", () => byId("file").click());
    byId("file").addEventListener("change", () => {
      openFile(byId("file").files[0]);
      byId("file").value = "";
    });
  }

  /** Adds a rule file of the reader's own. */
  add(name) {
    this.own = [tilingNamed(name), ...this.own.filter((tiling) => tiling.name !== name)];
    this.pictures.delete(name);
  }

  /** Shows all tilings: what was searched before is forgotten. */
  show() {
    byId("search").value = "";
    this.list();
  }

  chooseFirst() {
    byId("tiling-list").querySelector(".choice")?.click();
  }

  /** Lists the tilings that have the word that is searched. */
  list() {
    const wanted = byId("search").value.trim().toLowerCase();
    const fits = ({ name, title, note }) => `${name} ${title} ${note}`.toLowerCase().replaceAll("–", "-")
        .includes(wanted.replaceAll("–", "-"));
    const groups = [{ title: "Your rule files", tilings: this.own }, ...GROUPS];
    const found = groups.map(({ title, tilings }) => ({ title, tilings: tilings.filter(fits) }))
        .filter(({ tilings }) => tilings.length);
    this.watch.disconnect();
    byId("tiling-list").replaceChildren(
      ...found.flatMap(({ title, tilings }) =>
          [element("h3", { class: "group" }, title), ...tilings.map((it) => this.entry(it))]),
      ...(found.length ? [] : [element("p", { class: "hint" }, "No tiling has this name.")]),
    );
  }

  entry({ name, title, note }) {
    const picture = this.pictures.get(name)
        ?? element("canvas", { width: 2 * WIDE, height: 2 * HIGH, "aria-hidden": "true" });
    if (!this.pictures.has(name)) {
      picture.dataset.tiling = name;
      this.watch.observe(picture);
    }
    const words = element("span", {}, element("strong", {}, title), element("small", {}, note));
    const isCurrent = name === this.app.state.tiling;
    return element("button", { class: "choice", "data-name": name, "aria-current": isCurrent ? "true" : null,
        onclick: () => this.choose(name) }, picture, words);
  }

  /** Draws the small pictures that have come into sight, one after the other. */
  seen(entries) {
    for (const { target, isIntersecting } of entries) {
      if (!isIntersecting || this.pictures.has(target.dataset.tiling)) continue;
      this.pictures.set(target.dataset.tiling, target);
      this.line = this.line.then(() => this.draw(target)).catch(() => {});
    }
  }

  async draw(canvas) {
    const told = await this.app.open(canvas.dataset.tiling),
        scale = 2 * Math.sqrt((WIDE * HIGH * told.density) / TILES / (told.hasHalves ? 2 : 1));
    const plain = { isWhole: true, by: "", palette: "lake", own: new Map() };
    const look = { tiling: told.name, seed: [1, 0], base: "0:", isWhole: true, by: told.classes.true.usual,
        colours: coloursOf(plain, told) };
    const part = { at: [7, 5, 0, 0], left: -WIDE / scale, top: HIGH / scale, wide: 2 * WIDE, high: 2 * HIGH,
        scale, ratio: 2 };
    const { bitmap } = await this.app.workers.paint(
        { ...look, lines: true, line: paletteNamed("lake").line, level: 0 }, part);
    canvas.getContext("2d").drawImage(bitmap, 0, 0);
    bitmap.close();
  }
}
