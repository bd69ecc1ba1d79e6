// The page: it keeps the state, asks the workers, and tells the picture, the marks and the cards what has
// changed.
import { Cards } from "./cards.js";
import { tilingNamed } from "./catalogue.js";
import { Gestures } from "./gestures.js";
import { HelpCard } from "./help-card.js";
import { LookCard } from "./look-card.js";
import { Marks } from "./marks.js";
import { byId, isTyped, say } from "./page.js";
import { chosenBy, coloursOf, paletteNamed } from "./palettes.js";
import { PlacesCard } from "./places-card.js";
import { SaveCard } from "./save-card.js";
import { Screen } from "./screen.js";
import { MOST_SCALE, SCALE, fileName, packed, read, seedOf, state, unpacked, written } from "./state.js";
import { TileCard } from "./tile-card.js";
import { TilingsCard } from "./tilings-card.js";
import { ruleOf } from "./rules.js";

const MOST_TILES = { star: 40000, child: 120000 }; // in a view, for colours that take longer
const MOST_PLAIN = 220000;
const MOST_FILE = 1 << 20, MOST_KEPT = 1 << 16; // bytes of a rule file, and of one in the page's address
const APART = 12; // pixels between a tile and its card
const NEAR = 16; // pixels: so near to a corner a click means its star too
const KEYS = { t: "tilings", l: "look", p: "places", s: "save", h: "help", "?": "help" };
const FAULTS = {
  BadWords: "This place is too far out: the coordinates of a point go up to 1,048,576.",
  BadAddress: "This address names no tile of this tiling.",
  CoordLimit: "The engine has no answer so far out with this seed. Try another seed.",
  DepthLimit: "The engine has no answer here with this seed. Try another seed.",
  TooManyTiles: "There are too many tiles in this view. Zoom in.",
  NoMemory: "The browser gives this page no more memory.",
  RuleTooLong: "A rule file has at most 1,048,576 bytes.",
};

class Explorer {
  constructor() {
    this.state = state;
    this.told = null; // what the worker tells of the tiling
    this.tilings = new Map(); // promises of that, by name
    this.files = new Map(); // the text of each rule file that was opened, for addresses
    this.workers = window.startedWorkers;
    this.screen = new Screen(byId("picture"), state, this.workers,
        () => (this.isKnown ? this.lookNow() : null), (refusal) => this.refuse(refusal));
    this.marks = new Marks(byId("tiling"), state);
    this.tileCard = new TileCard(this);
    this.look = new LookCard(this);
    this.places = new PlacesCard(this);
    this.save = new SaveCard(this);
    this.help = new HelpCard(this);
    this.menu = new TilingsCard(this, (name) => this.chooseTiling(name), (file) => this.openFile(file));
    const contents = { tilings: this.menu, look: this.look, places: this.places, save: this.save,
        help: this.help };
    this.cards = new Cards((name) => contents[name].show());
    this.gestures = new Gestures(byId("tiling"), this);
    this.listen();
  }

  listen() {
    byId("zoom-in").addEventListener("click", () => this.zoom(1.4, 0, 0));
    byId("zoom-out").addEventListener("click", () => this.zoom(1 / 1.4, 0, 0));
    byId("home").addEventListener("click", () => this.home());
    addEventListener("keydown", (event) => this.keyAnywhere(event));
    addEventListener("hashchange", () => this.recall());
    addEventListener("dragover", (event) => this.dragged(event, true));
    addEventListener("dragleave", (event) => event.relatedTarget || this.dragged(event, false));
    addEventListener("drop", (event) => this.dropped(event));
    new ResizeObserver(() => this.changed()).observe(byId("stage"));
    const { classList } = byId("invitation"), canvas = byId("tiling");
    for (const name of ["pointerdown", "wheel", "keydown"]) {
      canvas.addEventListener(name, () => classList.add("gone"), { once: true });
    }
    canvas.addEventListener("focus", () => this.cross(canvas.matches(":focus-visible")));
    canvas.addEventListener("blur", () => this.cross(false));
  }

  // ---- what is shown -----------------------------------------------------------------------------
  /** How the worker draws the state. */
  lookNow() {
    const { tiling, seed, base, isWhole, lines, level, palette } = state, by = chosenBy(state, this.told);
    const isAsked = isWhole && this.told.hasHalves;
    return { tiling, seed: seedOf(seed), base, isWhole: isAsked, by, colours: this.coloursNow(), lines,
        level, line: paletteNamed(palette).line };
  }

  /** Whether all is known that the look needs. */
  get isKnown() {
    return Boolean(this.told) && this.told.name === state.tiling
        && (state.by !== "star" || this.told.classes[state.isWhole].star > 0);
  }

  coloursNow() {
    return coloursOf(state, this.told);
  }

  get size() {
    return [byId("stage").clientWidth, byId("stage").clientHeight];
  }

  /** The view in lengths. */
  viewNow() {
    const { at, x, y, scale } = state, pixels = this.size;
    return { at, x, y, scale, width: pixels[0] / scale, height: pixels[1] / scale, pixels };
  }

  /** The view as a part to paint, `times` as large as on the screen. */
  partNow(times) {
    const { at, x, y, scale } = state, { ratio } = this.screen, [wide, high] = this.size, by = times * ratio;
    return { at, left: x - wide / 2 / scale, top: y + high / 2 / scale, wide: Math.round(wide * by),
        high: Math.round(high * by), scale: scale * by, ratio: by };
  }

  /** What a command calls the rule, and the file that it reads. */
  ruleWords() {
    const { rule, isOwn, name } = tilingNamed(state.tiling);
    return rule ? { rule, file: "" } : { rule: "-", file: isOwn ? name : `rules/${name}.toml` };
  }

  commandNow() {
    return this.ask("command", { look: this.lookNow(),
        view: { ...this.viewNow(), file: this.ruleWords().file } });
  }

  /** Asks the engine; a refusal is told to the reader, and the answer is null. */
  async ask(question, more) {
    try {
      return await this.workers.ask(question, more);
    } catch (refusal) {
      this.refuse(refusal);
      return null;
    }
  }

  refuse(refusal) {
    const words = FAULTS[refusal.name] ?? refusal.message;
    this.cards.fault("This can’t be shown", words, refusal.line ?? "");
  }

  // ---- changes -----------------------------------------------------------------------------------
  /** Changes a part of the state that isn't the place or the scale alone. */
  async change(values) {
    const isOther = ["tiling", "seed", "base", "isWhole", "at"].some((name) => name in values);
    Object.assign(state, values);
    if (isOther) this.forget();
    if (!("tiling" in values)) byId("fault").hidden = true;
    if (state.by === "star") await this.countStars();
    state.scale = this.within(state.scale);
    if (this.cards.open === "look") this.look.show();
    this.showSupertile();
    this.changed();
  }

  /** Stars are counted once, when colours are by them. */
  async countStars() {
    const classes = this.told.classes[state.isWhole];
    const look = { tiling: state.tiling, isWhole: state.isWhole && this.told.hasHalves };
    classes.star ||= await this.ask("starCount", { look });
  }

  /** The picture has to be drawn again. */
  changed() {
    this.screen.refresh();
    this.marks.refresh();
    clearTimeout(this.later);
    this.later = setTimeout(() => this.remember(), 250);
  }

  forget() {
    this.keep(null);
    this.marks.pointed = null;
    this.tileCard.show(null, null);
    this.places.forget();
  }

  remember() {
    const hash = `#${written()}`;
    if (hash !== location.hash) history.replaceState(null, "", hash);
    if (this.cards.open === "save") this.save.show();
    if (this.cards.open === "places") this.places.show();
  }

  async recall() {
    if (!window.OffscreenCanvas) {
      this.cards.fault("This browser is too old", "The page needs one from 2023 or later.");
      return;
    }
    read(location.hash.slice(1));
    const isOpen = !state.file || (await this.openBytes(state.tiling, unpacked(state.file)));
    if (!isOpen) Object.assign(state, { tiling: "penrose_p3", file: "" });
    await this.useTiling();
  }

  /** Opens the tiling of the state. */
  async useTiling() {
    const { title, note } = tilingNamed(state.tiling);
    byId("title-name").textContent = title;
    byId("title-note").textContent = note;
    document.title = `${title} – tilings to explore`;
    try {
      this.told = await this.open(state.tiling);
      await this.change({ tiling: state.tiling });
    } catch (fault) {
      this.refuse(fault);
    }
  }

  open(name) {
    if (!this.tilings.has(name)) this.tilings.set(name, this.workers.open(name, ruleOf(name)));
    return this.tilings.get(name);
  }

  async chooseTiling(name) {
    const start = { at: [0, 0, 0, 0], x: 0, y: 0, base: "0:", by: "", own: new Map() };
    Object.assign(state, start, { tiling: name, file: this.files.get(name) ?? "" });
    await this.useTiling();
    this.menu.list();
    if (matchMedia("(max-width: 720px)").matches) this.cards.close(true);
  }

  // ---- the view ----------------------------------------------------------------------------------
  /** A scale at which a view has not too many tiles. */
  within(scale) {
    if (!this.told) return scale;
    const [wide, high] = this.size, most = MOST_TILES[chosenBy(state, this.told)] ?? MOST_PLAIN;
    return Math.min(MOST_SCALE, Math.max(Math.sqrt((wide * high * this.told.density) / most), scale));
  }

  move(dx, dy) {
    state.x -= dx / state.scale;
    state.y += dy / state.scale;
    this.changed();
  }

  /** Zooms around a place, which stays where it is. */
  zoom(factor, x, y) {
    const scale = this.within(state.scale * factor);
    state.x += x / state.scale - x / scale;
    state.y -= y / state.scale - y / scale;
    state.scale = scale;
    this.changed();
  }

  home() {
    state.scale = this.within(SCALE);
    this.jump([0, 0, 0, 0]);
  }

  jump(at) {
    this.change({ at, x: 0, y: 0 });
  }

  /** A key that nothing has answered yet, wherever the focus is. */
  keyAnywhere(event) {
    const isOther = event.ctrlKey || event.metaKey || event.altKey || isTyped(event.target);
    if (!isOther && !event.defaultPrevented && this.key(event.key)) event.preventDefault();
  }

  /** Keys that don't move the tiling; the answer is whether it is one. */
  key(key) {
    const letter = key.toLowerCase(), card = KEYS[letter];
    if (card) this.cards.toggle(card, byId("tiling"));
    else if (letter === "f") document.body.classList.toggle("bare");
    else if (key === "Escape") this.escape();
    else return false;
    return true;
  }

  /** Goes one step back: to the controls, without a card, without a tile. */
  escape() {
    if (document.body.classList.contains("bare")) document.body.classList.remove("bare");
    else if (this.cards.open) this.cards.close(true);
    else this.keep(null);
  }

  cross(isShown) {
    this.marks.hasCross = isShown;
    this.marks.refresh();
  }

  // ---- tiles -------------------------------------------------------------------------------------
  placeOf(x, y) {
    return { at: state.at, x: state.x + x / state.scale, y: state.y - y / state.scale };
  }

  tileAt(where) {
    return this.workers.ask("tileAt", { look: this.lookNow(), where }).catch(() => null);
  }

  /** Names the tile under the pointer. While an answer is on its way only the last place is remembered. */
  async point(x, y) {
    this.wanted = [x, y];
    this.isGone = false;
    if (this.isAsking || !this.isKnown || this.marks.kept) return;
    this.isAsking = true;
    while (this.wanted) {
      const where = this.placeOf(...this.wanted);
      this.wanted = null;
      const tile = await this.tileAt(where);
      if (!this.isGone) this.showPointed(tile);
    }
    this.isAsking = false;
  }

  showPointed(tile) {
    if (this.marks.kept || tile?.name === this.marks.pointed?.name) return;
    this.marks.point(tile);
    this.tileCard.show(null, tile);
  }

  leave() {
    this.wanted = null;
    this.isGone = true;
    this.showPointed(null);
  }

  /** Keeps the tile at a place; the same tile again is let go. */
  async choose(x, y) {
    if (!this.isKnown) return;
    if (this.cards.open && matchMedia("(max-width: 720px)").matches) return this.cards.close(false);
    const where = this.placeOf(x, y), tile = await this.tileAt(where);
    if (!tile) return;
    const [cornerX, cornerY] = tile.outline[tile.corner],
        far = Math.hypot(cornerX - where.x, cornerY - where.y) * state.scale;
    tile.isNearCorner = far < Math.min(NEAR, 0.3 * state.scale);
    const isSame = this.marks.kept?.name === tile.name && this.marks.kept.isNearCorner === tile.isNearCorner
        && this.marks.kept.corner === tile.corner;
    this.keep(isSame ? null : { ...tile, where });
  }

  keep(tile) {
    this.marks.kept = tile;
    this.marks.pointed = null;
    this.tileCard.show(tile, null);
    if (tile) this.uncover();
    if (tile) byId("invitation").classList.add("gone");
    this.showSupertile();
    this.marks.refresh();
  }

  /** Moves the view where the card hides the tile that is kept: beside a card, or above one as wide as the
   * view. */
  uncover() {
    const card = byId("tile").getBoundingClientRect(),
        corners = this.marks.kept.outline.map((it) => this.marks.place(it));
    const left = Math.min(...corners.map(([x]) => x)), low = Math.max(...corners.map(([, y]) => y));
    if (low < card.top - APART || left > card.right + APART) return;
    if (card.width < this.size[0]) this.move(card.right + APART - left, 0);
    else this.move(0, card.top / 2 - low);
  }

  /** Shows the supertile of the tile that is kept, if a level is chosen. */
  async showSupertile() {
    const { kept } = this.marks;
    this.marks.supertile = kept && state.level
        ? await this.workers.ask("supertileAt", { look: this.lookNow(), where: kept.where }).catch(() => [])
        : [];
    this.marks.refresh();
  }

  async goToTile([x, y]) {
    Object.assign(state, { x, y });
    this.changed();
    await this.choose(0, 0);
  }

  async goToStar({ point }) {
    Object.assign(state, { at: point, x: 0, y: 0 });
    this.changed();
    const where = this.placeOf(0, 0), tile = await this.tileAt(where);
    if (tile) this.keep({ ...tile, where, isNearCorner: true });
  }

  // ---- rule files --------------------------------------------------------------------------------
  dragged(event, isOver) {
    event.preventDefault();
    byId("drop").hidden = !isOver;
  }

  dropped(event) {
    event.preventDefault();
    byId("drop").hidden = true;
    this.openFile(event.dataTransfer.files[0]);
  }

  async openFile(file) {
    if (!file) return;
    const name = fileName(file.name);
    if (file.size > MOST_FILE) {
      this.cards.fault("This rule file is refused", FAULTS.RuleTooLong, "3 RuleTooLong");
      return;
    }
    const isOpen = await this.openBytes(name, new Uint8Array(await file.arrayBuffer()));
    if (isOpen) await this.chooseTiling(name);
  }

  /** Opens a rule file, or shows its fault; the answer is whether it is open. */
  async openBytes(name, bytes) {
    const { told, refused } = await this.workers.openFile(name, bytes);
    if (refused) {
      this.cards.fault("This rule file is refused", refused.note ?? refused.message, refused.line,
          refused.picture);
      return false;
    }
    byId("fault").hidden = true;
    this.tilings.set(name, Promise.resolve(told));
    this.files.set(name, bytes.length <= MOST_KEPT ? packed(bytes) : "");
    this.menu.add(name);
    say(`${name} is open`);
    return true;
  }
}

const explorer = new Explorer();
window.explorer = explorer; // for tests, and for readers who like to look
explorer.recall();
