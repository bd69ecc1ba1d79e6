// The card with places to go to: the start, far away, stars, points, seeds.
import { isAddress, isSeed, pointOf } from "./state.js";
import { byId, drawing, element, say, withSign } from "./page.js";
import { starName, tileName } from "./catalogue.js";

const FAR = 1000000, SIDEWAYS = 40000, TRIES = 12;

export class PlacesCard {
  constructor(app) {
    this.app = app;
    byId("go-home").addEventListener("click", () => app.home());
    byId("far").addEventListener("click", () => this.goFar());
    byId("find-stars").addEventListener("click", () => this.findStars());
    byId("another").addEventListener("click", () => this.seed(String(Math.floor(Math.random() * 1e6))));
    this.onSubmit("seed-form", () => this.seed(byId("seed").value.trim()));
    this.onSubmit("point-form", () => this.point(byId("point").value));
    this.onSubmit("base-form", () => this.base(byId("base").value.trim()));
  }

  onSubmit(id, submitted) {
    byId(id).addEventListener("submit", (event) => {
      event.preventDefault();
      submitted();
    });
  }

  async show() {
    byId("seed").value = this.app.state.seed;
    byId("base").value = this.app.state.base;
    const found = await this.app.commandNow();
    if (found) byId("middle").textContent = found.point.join();
  }

  seed(seed) {
    if (!isSeed(seed)) return say("A seed is a whole number below 2^64.");
    byId("seed").value = seed;
    this.app.change({ seed });
  }

  point(text) {
    const at = pointOf(text);
    if (!at) return say("A point is four whole numbers up to 1,048,576, with commas between them.");
    this.app.jump(at);
  }

  /** The tile with this address is the first one; of a whole tile it is the first half. */
  base(text) {
    const [base] = text.split(" + ");
    if (!isAddress(base)) return say("An address is a kind, a colon, and digits such as 1/0,2/0.");
    this.app.change({ base, at: [0, 0, 0, 0], x: 0, y: 0 });
  }

  /** Far out some seeds have no answer at some places, so several are tried. */
  async goFar() {
    const { app } = this, free = app.told.order > 6 ? 4 : 2;
    const points = Array.from({ length: TRIES }, () => {
      const at = [0, 1, 2, 3].map((i) => (i < free ? Math.round(SIDEWAYS * (Math.random() - 0.5)) : 0));
      at[Math.floor(Math.random() * free)] = Math.random() < 0.5 ? FAR : -FAR;
      return at;
    });
    const at = await app.ask("firstOf", { look: app.lookNow(), points });
    if (at) app.jump(at);
    else say("This seed has no answer that far out. Try another seed.");
  }

  async findStars() {
    const { app } = this, stars = await app.ask("stars", { look: app.lookNow(), view: app.viewNow() });
    byId("find-stars").textContent = "Find the stars again";
    if (stars) byId("star-list").replaceChildren(...stars.map((star) => this.starButton(star)));
  }

  starButton(star) {
    const { app } = this, colours = app.coloursNow(), share = `${(100 * star.share).toFixed(1)} %`,
        words = `${starName(star.number)}: ${this.wordsOf(star)}`;
    const picture = drawing(star.tiles.map((it) => ({ ...it, colour: colours[it.class % colours.length] })),
        star.place, "");
    picture.setAttribute("aria-hidden", "true");
    return element("button", { "aria-label": `${words}, ${share}`, title: words,
        onclick: () => app.goToStar(star) }, picture, share);
  }

  /** Such as "5 tiles: 5 × thick rhomb". */
  wordsOf({ tiles }) {
    const counts = new Map(), { state } = this.app;
    for (const { kind } of tiles) counts.set(kind, (counts.get(kind) ?? 0) + 1);
    const parts = [...counts].map(
        ([kind, count]) => `${count} × ${tileName(state.tiling, kind, state.isWhole).toLowerCase()}`);
    return `${withSign(tiles.length, "tile")}: ${parts.join(", ")}`;
  }

  /** What was found is of another view. */
  forget() {
    byId("star-list").replaceChildren();
    byId("find-stars").textContent = "Find the stars";
  }
}
