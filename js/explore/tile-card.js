// The card about a tile: its address, its neighbours, and the star at its nearest corner.
import { tileName, tilingNamed } from "./catalogue.js";
import { byId, copyText, drawing, element, onEscape, withSign } from "./page.js";

/** A text of the engine, which may be broken in lines after its commas. */
function code(text) {
  const parts = text.split(/(?<=[,+])(?!…)/);
  return element("code", {}, ...parts.flatMap((part, i) => (i ? [element("wbr"), part] : [part])));
}

const ALIKE = 3; // so many digits that are alike, and more, are left out

const digitsOf = (address) => address.slice(address.indexOf(":") + 1).split(",");

/** The address of a neighbour, without the digits at its coarse end that are those of the tile too. */
function shortened(name, tile) {
  const [own] = tile.split(" + ").map(digitsOf);
  const shorter = (address) => {
    const digits = digitsOf(address);
    let count = digits.length;
    while (count > 1 && digits[count - 1] === own[count - 1]) count--;
    return digits.length - count < ALIKE ? address : `${address.split(":")[0]}:${digits.slice(0, count)},…`;
  };
  return name.split(" + ").map(shorter).join(" + ");
}

export class TileCard {
  constructor(app) {
    this.app = app;
    this.element = byId("tile");
    byId("tile").querySelector(".close").addEventListener("click", () => app.keep(null));
    onEscape(byId("tile"), () => app.keep(null));
  }

  /** Shows a tile that is kept, else one that is pointed at, else nothing. */
  show(kept, pointed) {
    const tile = kept ?? pointed;
    this.element.hidden = !tile;
    this.element.classList.toggle("brief", !kept);
    this.element.setAttribute("aria-live", kept ? "polite" : "off");
    if (!tile) return;
    byId("tile-title").textContent = tileName(this.app.state.tiling, tile.kind, this.app.state.isWhole);
    byId("tile-body").replaceChildren(
        this.facts(tile), ...(kept ? [this.neighbours(tile), ...this.star(tile)] : []));
    byId("tile-body").scrollTop = 0;
  }

  facts(tile) {
    const { order } = this.app.told, degrees = (360 * tile.turn) / order;
    const facts = [["Address", code(tile.name), " ", this.copyOf(tile.name)],
        ["Turn", `${tile.turn} of ${order}, which is ${degrees}°`], ["Position", code(tile.shift.join())]];
    return element("dl", { class: "facts" },
        ...facts.flatMap(([name, ...value]) => [element("dt", {}, name), element("dd", {}, ...value)]));
  }

  copyOf(address) {
    return element("button", { class: "link more", onclick: () => copyText(address, "Address") }, "Copy");
  }

  neighbours({ name, edges }) {
    const texts = edges.map((edge) => edge && shortened(edge.name, name));
    const rows = edges.flatMap((edge, number) => [element("dt", {}, `Edge ${number}`),
        element("dd", {}, edge ? this.link(edge, texts[number]) : "not known here")]);
    const isShorter = texts.some((text) => text?.includes("…"));
    const hint = element("p", { class: "hint" }, "Where … stands, the digits go on as above.");
    return element("div", { class: "more" }, element("h3", {}, "Across its edges"),
        element("dl", { class: "facts" }, ...rows), ...(isShorter ? [hint] : []));
  }

  /** A button that goes to a neighbour, and marks it while the pointer or the focus is there. */
  link(edge, text) {
    const { app } = this, mark = () => app.marks.point(edge), unmark = () => app.marks.point(null);
    return element("button", { class: "link", title: edge.name, onclick: () => app.goToTile(edge.middle),
        onpointerenter: mark, onpointerleave: unmark, onfocus: mark, onblur: unmark }, code(text));
  }

  star({ star, name, corner }) {
    if (!star) return [];
    const { app } = this, colours = app.coloursNow(), tiles = withSign(star.tiles.length, "tile");
    const picture = drawing(star.tiles.map((it) => ({ ...it, colour: colours[it.class % colours.length] })),
        star.place, `a star of ${tiles}`);
    const words = element("p", {}, `${tiles} meet at the nearest corner, the point `,
        code(star.point.join()));
    const parts = [element("h3", {}, "Star"), element("div", { class: "star-here" }, picture, words)];
    if (!name.includes(" + ")) parts.push(this.starCommand(name, corner));
    return [element("div", { class: "more" }, ...parts)];
  }

  /** The command that lists the star; a tile of one part has the same corners there. */
  starCommand(name, corner) {
    const { rule, file } = this.app.ruleWords();
    const words = `star rule=${rule} seed=${this.app.state.seed} addr=${name} vertex=${corner}`;
    const command = `./tiling ${words}${file ? ` < ${file}` : ""}`;
    return element("p", { class: "command" }, code(command), " ",
        element("button", { class: "link", onclick: () => copyText(command, "Command") }, "Copy"));
  }
}


