// The card with help: what hands and keys do, and how the tiling is made.
import { tilingNamed } from "./catalogue.js";
import { byId, picture } from "./page.js";

export class HelpCard {
  constructor(app) {
    this.app = app;
    this.shown = "";
  }

  async show() {
    const { tiling } = this.app.state;
    if (this.shown === tiling) return;
    this.shown = tiling;
    const svg = await this.app.ask("rulePicture", { name: tiling });
    if (svg) byId("rule-picture").replaceChildren(
        picture(svg, `The rule of the tiling ${tilingNamed(tiling).title}`));
  }
}
