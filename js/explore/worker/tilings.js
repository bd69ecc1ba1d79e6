// A tiling of the engine, with what drawing has to know of it.
import { Form, Shape } from "./raster.js";

const CHILDREN = 16; // a kind has at most so many
const SAMPLE = { at: [0, 0, 0, 0], half: [16, 9], addresses: false };
const STARS = { at: [0, 0, 0, 0], half: [60, 35] };
const DEEP = 14; // levels that the supertiles of a picture with outlines have at least

export class Drawable {
  constructor(name, tiling) {
    this.name = name;
    this.tiling = tiling;
    this.order = tiling.order;
    this.kinds = [...Array(tiling.kinds).keys()];
    this.glueEdges = this.kinds.map((kind) => tiling.glueEdge(kind));
    this.mates = this.kinds.map((kind) => this.mateOf(kind));
    this.reach = Math.max(...this.kinds.map((kind) => extentOf(tiling.shape(kind, 0))));
    this.extent = this.reach * (tiling.hasHalves ? 2 : 1); // of whole tiles
    this.leastArea = Math.min(...this.kinds.map((kind) => areaOf(tiling.shape(kind, 0))));
    this.forms = {};
    this.shapes = new Map();
    this.deepBases = new Map();
    this.readSample();
  }

  /** How the other half lies to a half that is not turned, or null for a whole tile. */
  mateOf(kind) {
    const edge = this.glueEdges[kind];
    if (edge === null) return null;
    const mate = across(this.tiling, kind, edge), [x, y] = this.tiling.xy(mate.shift);
    return { kind: mate.kind, turn: mate.turn, x, y };
  }

  /** Whether a tile stands for its whole tile: it is no half, or that of the lesser kind. */
  isFirst(kind) {
    return !this.mates[kind] || kind < this.mates[kind].kind;
  }

  /** Reads from a window which classes of tiles there are, and how many tiles an area has. */
  readSample() {
    const sample = this.tiling.window(SAMPLE),
        area = SAMPLE.half[0] * 2 * SAMPLE.half[1] * Math.sin((2 * Math.PI) / this.order);
    this.density = sample.length / area;
    const child = this.childCount(), isTaken = (isWhole) => (kind) => !isWhole || this.isFirst(kind);
    this.classes = { true: this.classesOf(sample, isTaken(true), child),
        false: this.classesOf(sample, isTaken(false), child) };
    this.starNumbers = {};
    sample.free();
  }

  /** The classes of the tiles that are taken. */
  classesOf({ kinds: all, turns: by }, isTaken, child) {
    const kinds = [...new Set(all)].filter(isTaken).sort((a, b) => a - b);
    const turns = new Set(by.filter((_, i) => isTaken(all[i])));
    const usual = kinds.length > 1 ? "kind" : turns.size > 1 ? "turn" : "child";
    return { kinds, kind: this.kinds.length, turn: this.order, child, star: 0, usual };
  }

  /** The numbers of the stars, the most frequent first; they are counted when they are first asked for. */
  starsOf(isWhole) {
    if (!this.starNumbers[isWhole]) {
      const stars = this.patchOf(this.tiling.window(STARS), isWhole).stars();
      this.starNumbers[isWhole] = new Map(stars.map((star, number) => [starKey(star), number]));
    }
    return this.starNumbers[isWhole];
  }

  /** The most children that a kind has. */
  childCount() {
    const isChild = (child) =>
      this.kinds.some((parent) => this.kinds.some(
          (kind) => this.tiling.fits({ kind, digits: [{ child, parent }] })));
    let count = 1;
    while (count < CHILDREN && isChild(count)) count++;
    return count;
  }

  /** What the page has to know. */
  told() {
    const { name, order, density, classes } = this, { hasHalves } = this.tiling;
    const firstKinds = this.kinds.filter((kind) => this.isFirst(kind));
    return { name, order, density, hasHalves, firstKinds, classes };
  }

  patchOf(window, isWhole) {
    return isWhole && this.tiling.hasHalves ? window.whole() : window;
  }

  /** The window around x, y, counted from the point `at`, that has at least this width and height, in
   * lengths. */
  window({ seed, base, at }, x, y, width, height, more = {}) {
    const near = this.tiling.pointNear(x, y);
    const options = { seed, base, at: at.map((value, i) => value + near[i]),
        half: this.tiling.halfFor(width + 1, height + 1) };
    return this.tiling.window({ ...options, ...more });
  }

  /** x and y of a point. */
  place(point) {
    return this.tiling.xy(point);
  }

  /** The base of the same frame with so many digits that supertiles of every level that is shown are known.
   * */
  deepBase({ seed, base }) {
    const key = `${seed} ${base}`;
    if (!this.deepBases.has(key)) {
      this.deepBases.set(key, this.tiling.walk(base, [], { seed, grow: DEEP })[0].address);
    }
    return this.deepBases.get(key);
  }

  /** The shapes of tiles at a scale, as a function of kind and turn. */
  shapesAt(scale, isWhole) {
    const key = `${scale} ${isWhole}`;
    if (!this.shapes.has(key)) {
      if (this.shapes.size > 8) this.shapes.clear();
      this.shapes.set(key, new Array(this.kinds.length * this.order));
    }
    const made = this.shapes.get(key);
    return (kind, turn) => (made[kind * this.order + turn] ??= new Shape(
        this.formOf(kind, isWhole), (2 * Math.PI * turn) / this.order, scale));
  }

  formOf(kind, isWhole) {
    const forms = (this.forms[isWhole] ??= []);
    return (forms[kind] ??= new Form(this.partsOf(kind, isWhole)));
  }

  /** The polygons of a tile that is not turned, and of each the edge along which it is glued to another. */
  partsOf(kind, isWhole) {
    const part = (of, turn) => ({ corners: this.tiling.shape(of, turn),
        glued: isWhole ? this.glueEdges[of] : null });
    const mate = isWhole && this.mates[kind];
    if (!mate) return [part(kind, 0)];
    const second = part(mate.kind, mate.turn);
    second.corners = second.corners.map((value, i) => value + (i % 2 ? mate.y : mate.x));
    return [part(kind, 0), second];
  }
}

/** The tile across an edge of a tile that lies on its prototile. Some seeds have none, so others are tried.
 * */
function across(tiling, kind, edge) {
  for (let seed = 0; ; seed++) {
    try {
      return tiling.walk({ kind, digits: [] }, [edge], { seed })[1];
    } catch (refusal) {
      if (seed > 20) throw refusal;
    }
  }
}

const extentOf = (corners) => {
  let most = 0;
  for (let i = 0; i < corners.length; i += 2) {
    for (let j = 0; j < i; j += 2) most =
        Math.max(most, Math.hypot(corners[i] - corners[j], corners[i + 1] - corners[j + 1]));
  }
  return most;
};

function areaOf(corners) {
  let sum = 0;
  for (let i = 0; i < corners.length; i += 2) {
    const j = (i + 2) % corners.length;
    sum += corners[i] * corners[j + 1] - corners[i + 1] * corners[j];
  }
  return sum / 2;
}

const starKey = (star) => star.corners.join(" ");

/** The number of each vertex's star in a patch, -1 at the rim; a new star has the next number. */
export function starsOf(drawable, patch, isWhole) {
  const numbers = drawable.starsOf(isWhole);
  const own = patch.stars().map((star) => {
    const key = starKey(star);
    if (!numbers.has(key)) numbers.set(key, numbers.size);
    return numbers.get(key);
  });
  return Array.from(patch.vertexStars(), (star) => (star < 0 ? -1 : own[star]));
}

/** The class of each tile: its kind, its turn, which child it is, or the rarest star at its corners. */
export function classesIn(drawable, patch, by, isWhole) {
  if (by === "kind") return patch.kinds;
  if (by === "turn") return patch.turns;
  if (by === "child") return Uint8Array.from({ length: patch.length }, (_, i) => childOf(patch, i));
  const stars = starsOf(drawable, patch, isWhole), corners = patch.corners(), { most } = patch;
  return Int32Array.from({ length: patch.length }, (_, i) => {
    let rarest = 0;
    for (let j = i * most; j < i * most + most; j++) if (corners[j] >= 0) rarest =
        Math.max(rarest, stars[corners[j]]);
    return rarest;
  });
}

/** Which child of its supertile a tile is; 0 if it is alone. */
const childOf = (patch, tile) => (patch.addresses[130 * tile + 1] ? patch.addresses[130 * tile + 2] : 0);
