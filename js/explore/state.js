// What the page shows, in one object, and how it is written into the page's address.
import { knownName } from "./catalogue.js";
import { paletteNamed } from "./palettes.js";

export const SCALE = 56; // pixels a length at the start
export const MOST_SCALE = 400;
const MOST_COORDINATE = 1 << 20;

/** The middle of the view is x, y lengths from the exact point `at`; a length has `scale` pixels. */
export const state = {
  tiling: "penrose_p3",
  file: "", // the text of the reader's own rule file, in base 64 for addresses
  seed: "0",
  base: "0:",
  at: [0, 0, 0, 0],
  x: 0,
  y: 0,
  scale: SCALE,
  isWhole: true,
  by: "", // kind, turn, child, star; empty for what is usual
  palette: "lake",
  own: new Map(), // colours by class, such as k2 for kind 2
  lines: true,
  level: 0,
};

/** Four whole numbers of a text such as "3,0,-1,2", or null. */
export function pointOf(text) {
  const found = text.split(",").map((part) => (/^\s*[+-]?\d{1,7}\s*$/.test(part) ? Number(part) : NaN));
  return found.length === 4 && found.every((it) => Math.abs(it) <= MOST_COORDINATE) ? found : null;
}

/** Whether a text is a seed: a whole number below 2^64. */
export const isSeed = (text) => /^\d{1,20}$/.test(text) && BigInt(text) < 1n << 64n;

/** A seed as the engine takes it: its two halves of 32 bits. */
export const seedOf = (text) => [Number(BigInt(text) & 0xffffffffn), Number(BigInt(text) >> 32n)];

/** The name of a file in signs that a command and an address take. */
export const fileName = (text) => text.replace(/[^\w.()+-]/g, "_").slice(0, 80) || "rule.toml";

/** Bytes as a text for addresses, and back. */
export const packed = (bytes) => btoa(String.fromCharCode(...bytes)).replaceAll("+", "-").replaceAll("/", "_")
    .replace(/=+$/, "");
export const unpacked = (text) =>
    Uint8Array.from(atob(text.replaceAll("-", "+").replaceAll("_", "/")), (letter) => letter.charCodeAt(0));

export const isAddress = (text) => /^\d{1,3}:(\d{1,3}\/\d{1,3}(,\d{1,3}\/\d{1,3}){0,63})?$/.test(text);

/** The state as the part of the page's address after #. */
export function written() {
  const { tiling, file, seed, base, at, x, y, scale, isWhole, by, palette, own, lines, level } = state;
  const words = { tiling, seed, base, at: at.join(), x: x.toFixed(3), y: y.toFixed(3),
      scale: scale.toFixed(2) };
  if (!isWhole) words.tiles = "halves";
  if (by) words.by = by;
  if (palette !== "lake") words.palette = palette;
  if (own.size) words.own = [...own].map(([key, colour]) => key + colour.replace("#", "-")).join("_");
  if (!lines) words.lines = "none";
  if (level) words.level = level;
  if (file) words.file = file;
  return new URLSearchParams(words).toString().replaceAll("%2C", ",").replaceAll("%3A", ":")
      .replaceAll("%2F", "/");
}

/** Takes from such a text what is right in it; the rest is as at the start. */
export function read(text) {
  const words = new URLSearchParams(text), word = (name) => words.get(name) ?? "";
  const real = (name, usual, low, high) => {
    const value = Number(word(name));
    return word(name) && value >= low && value <= high ? value : usual;
  };
  state.file = /^[\w-]*$/.test(word("file")) ? word("file") : "";
  state.tiling = state.file ? fileName(word("tiling")) : (knownName(word("tiling")) ?? "penrose_p3");
  state.seed = isSeed(word("seed")) ? word("seed") : "0";
  state.base = isAddress(word("base")) ? word("base") : "0:";
  state.at = pointOf(word("at")) ?? [0, 0, 0, 0];
  state.x = real("x", 0, -1e5, 1e5);
  state.y = real("y", 0, -1e5, 1e5);
  state.scale = real("scale", SCALE, 0.5, MOST_SCALE);
  state.isWhole = word("tiles") !== "halves";
  state.by = ["kind", "turn", "child", "star"].includes(word("by")) ? word("by") : "";
  state.palette = paletteNamed(word("palette")).name;
  const own = [...word("own").matchAll(/([ktcs]\d{1,3})-([0-9a-f]{6})/g)];
  state.own = new Map(own.map(([, key, colour]) => [key, `#${colour}`]));
  state.lines = word("lines") !== "none";
  state.level = real("level", 0, 0, 8) | 0;
}
