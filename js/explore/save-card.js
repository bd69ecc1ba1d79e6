// The card with what can be saved and copied.
import { tilingNamed } from "./catalogue.js";
import { byId, copyText, saveFile, say } from "./page.js";
import { written } from "./state.js";

const MOST_PIXELS = 64e6; // of a PNG
const MOST_TILES = 50000; // of a board

export class SaveCard {
  constructor(app) {
    this.app = app;
    byId("save-svg").addEventListener("click", () => this.svg());
    byId("save-png").addEventListener("click", () => this.png());
    byId("copy-command").addEventListener("click", () => this.copyCommand());
    byId("copy-link").addEventListener("click", () => this.copyLink());
    byId("board-form").addEventListener("submit", (event) => {
      event.preventDefault();
      this.board();
    });
  }

  async show() {
    const found = await this.app.commandNow();
    byId("command").textContent = found?.command ?? "";
  }

  get name() {
    return this.app.state.tiling.replace(/\.toml$/, "");
  }

  async svg() {
    const { app } = this, view = app.viewNow(), found = await app.commandNow();
    const title = tilingNamed(app.state.tiling).title, command = found?.command ?? "";
    const text = await app.ask("svg", { look: app.lookNow(), view: { ...view, title, command } });
    if (text) saveFile(`${this.name}.svg`, text, "image/svg+xml");
  }

  async png() {
    const { app } = this, part = app.partNow(Number(byId("png-size").value));
    if (part.wide * part.high > MOST_PIXELS) return say("This picture is too large. Choose a smaller size.");
    const picture = await app.ask("png", { look: app.lookNow(), part });
    if (picture) saveFile(`${this.name}.png`, picture);
  }

  async board() {
    const { app } = this, tiles = Number(byId("board-tiles").value);
    const isRight = Number.isInteger(tiles) && tiles >= 1 && tiles <= MOST_TILES;
    if (!isRight) return say("A board has 1 to 50,000 tiles.");
    const { at, x, y } = app.state, where = { at, x, y, tiles };
    const made = await app.ask("board", { look: app.lookNow(), where });
    if (made) saveFile(`${this.name}-board.json`, made, "application/json");
  }

  copyLink() {
    return copyText(`${location.href.replace(/#.*$/, "")}#${written()}`, "Link");
  }

  async copyCommand() {
    const found = await this.app.commandNow();
    if (!found) return;
    byId("command").textContent = found.command;
    copyText(found.command, "Command");
  }
}
