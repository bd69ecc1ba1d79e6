// Paints a part of the plane into a bitmap.
import { Pen, Raster } from "./raster.js";
import { classesIn } from "./tilings.js";

const sheets = new Map(); // by size: what is painted on, used again and again
const FINE = 5; // pixels a length: tiles so small have no line
const LARGE = 24; // pixels a length: tiles so large are drawn by the browser's own canvas
const KEPT = 1 << 20; // pixels of what is kept to be painted on again
const TOGETHER = 16; // tiles of one colour that it fills at once, which is fastest

/** The pixels of a size, and a canvas that makes a bitmap of them. Only small ones are kept. */
function sheetOf(wide, high) {
  const key = `${wide} ${high}`;
  if (sheets.has(key)) return sheets.get(key);
  const canvas = new OffscreenCanvas(wide, high);
  const sheet = { raster: new Raster(wide, high), canvas, pen: canvas.getContext("2d", { alpha: false }) };
  if (sheets.size > 3) sheets.clear();
  if (wide * high < KEPT) sheets.set(key, sheet);
  return sheet;
}

/** A colour such as #1f5f7a as a pixel has it. */
function pixelOf(colour) {
  const [red, green, blue] = [1, 3, 5].map((i) => parseInt(colour.slice(i, i + 2), 16));
  return (255 << 24) | (blue << 16) | (green << 8) | red;
}

/** Paints a part of the plane on a canvas: `left` and `top` are in lengths from the point `at`, `wide` and
 * `high` in
 * pixels, and a length has `scale` pixels. */
export function paint(drawable, look, part) {
  const sheet = sheetOf(part.wide, part.high), tiles = tilesIn(drawable, look, part),
      width = lineWidth(look, part);
  if (look.lines && part.scale >= LARGE * part.ratio) paintLarge(sheet.pen, look, part, tiles, width);
  else paintSmall(sheet, look, part, tiles, width);
  if (look.level) outlineSupertiles(drawable, look, part, sheet.pen);
  return { canvas: sheet.canvas, tiles: tiles.count };
}

/** How wide a line is in pixels; lines are finer where tiles are small. */
const lineWidth = (look, { scale, ratio }) => Math.min(1.4, 0.6 + scale / ratio / 60) * ratio;

/** Fills pixels one by one: nothing is faster for many small tiles, and none of them has a seam. */
function paintSmall({ raster, pen }, look, { scale, ratio }, { shapes, places, colours }, width) {
  const strength = look.lines ? Math.min(1, Math.max(0, (scale / ratio - FINE / 2) / FINE)) : 0;
  const line = new Pen(width, pixelOf(look.line), 256 * strength), inks = look.colours.map(pixelOf);
  raster.clear(pixelOf(look.line));
  for (let i = 0; i < shapes.length; i++) {
    if (shapes[i]) raster.fill(shapes[i], places[2 * i], places[2 * i + 1], inks[colours[i]]);
  }
  for (let i = 0; i < shapes.length; i++) {
    if (shapes[i]) raster.draw(shapes[i], places[2 * i], places[2 * i + 1], line);
  }
  pen.putImageData(raster.image, 0, 0);
}

/** Fills polygons by the canvas. The lines hide the seams between them. */
function paintLarge(pen, look, { wide, high }, { shapes, places, colours }, width) {
  pen.fillStyle = look.line;
  pen.fillRect(0, 0, wide, high);
  const groups = look.colours.map(() => []);
  for (let i = 0; i < shapes.length; i++) if (shapes[i]) groups[colours[i]].push(i);
  groups.forEach((group, colour) => {
    pen.fillStyle = look.colours[colour];
    for (let first = 0; first < group.length; first += TOGETHER) {
      pen.beginPath();
      for (const i of group.slice(first, first + TOGETHER)) {
        trace(pen, shapes[i].outline, places[2 * i], places[2 * i + 1]);
      }
      pen.fill();
    }
  });
  pen.beginPath();
  for (let i = 0; i < shapes.length; i++) {
    if (shapes[i]) traceLines(pen, shapes[i].lines, places[2 * i], places[2 * i + 1]);
  }
  pen.lineWidth = width;
  pen.lineCap = "round";
  pen.strokeStyle = look.line;
  pen.stroke();
}

function trace(pen, outline, x, y) {
  pen.moveTo(x + outline[0], y + outline[1]);
  for (let i = 2; i < outline.length; i += 2) pen.lineTo(x + outline[i], y + outline[i + 1]);
  pen.closePath();
}

function traceLines(pen, lines, x, y) {
  for (let i = 0; i < lines.length; i += 4) {
    pen.moveTo(x + lines[i], y + lines[i + 1]);
    pen.lineTo(x + lines[i + 2], y + lines[i + 3]);
  }
}

/** The window of a part, and `margin` lengths more on each side. */
export function windowOf(drawable, look, part, margin, more) {
  const wide = part.wide / part.scale, high = part.high / part.scale;
  const frame = { ...look, at: part.at };
  return drawable.window(frame, part.left + wide / 2, part.top - high / 2, wide + 2 * margin,
      high + 2 * margin, more);
}

/** The tiles of a part: for each its shape, its place in pixels, and the number of its colour. */
function tilesIn(drawable, look, part) {
  const isPlain = look.by === "kind" || look.by === "turn";
  const margin = look.by === "star" ? 2 * drawable.extent : look.isWhole ? drawable.reach : 2 / part.scale;
  const window = windowOf(drawable, look, part, margin, { addresses: !isPlain });
  const patch = isPlain ? window : drawable.patchOf(window, look.isWhole), { kinds, turns, length } = patch;
  const classes = isPlain ? (look.by === "kind" ? kinds : turns)
      : classesIn(drawable, patch, look.by, look.isWhole);
  const colours = new Uint8Array(length), most = look.colours.length;
  for (let i = 0; i < length; i++) colours[i] = classes[i] % most;
  const found = { shapes: shapesIn(drawable, look, part, patch), places: placesIn(drawable, patch, part),
      colours, count: length };
  window.free();
  return found;
}

/** The shape of each tile. A whole tile is drawn where its first half is; its second half has none. */
function shapesIn(drawable, { isWhole }, { scale }, { kinds, turns, length }) {
  const shapeOf = drawable.shapesAt(scale, isWhole),
      isDrawn = drawable.kinds.map((kind) => !isWhole || drawable.isFirst(kind));
  const found = new Array(length);
  for (let i = 0; i < length; i++) found[i] = isDrawn[kinds[i]] ? shapeOf(kinds[i], turns[i]) : null;
  return found;
}

/** The place of each tile's point 0 in pixels. */
function placesIn(drawable, patch, { at, left, top, scale }) {
  const [x, y] = drawable.place(at), places = patch.positions(), found = new Float64Array(places.length);
  for (let i = 0; i < places.length; i += 2) {
    found[i] = (places[i] - x - left) * scale;
    found[i + 1] = (top + y - places[i + 1]) * scale;
  }
  return found;
}

/** The outlines of the supertiles of a level that tiles belong to, in lengths from the point `at`. For whole
 * tiles the
 * line between two halves is left out. */
export function supertileLines(drawable, look, patch, at) {
  const supertiles = patch.supertiles(look.level), [x, y] = drawable.place(at),
      places = supertiles.positions();
  const { factor, angle } = enlargement(drawable, look.level);
  return Array.from(supertiles.kinds, (kind, i) => {
    const corners = enlarged(drawable.tiling.shape(kind, supertiles.turns[i]), factor, angle);
    const polygon = corners.map(([a, b]) => [a + places[2 * i] - x, b + places[2 * i + 1] - y]);
    return opened(polygon, look.isWhole ? drawable.glueEdges[kind] : null);
  });
}

/** By how much a supertile of a level is larger than a tile, and by which angle it is turned. */
function enlargement(drawable, level) {
  const [x, y] = drawable.place(drawable.tiling.factor);
  return { factor: Math.hypot(x, y) ** level, angle: Math.atan2(y, x) * level };
}

function enlarged(shape, factor, angle) {
  const [c, s] = [Math.cos(angle) * factor, Math.sin(angle) * factor];
  return Array.from({ length: shape.length / 2 }, (_, i) => [
    shape[2 * i] * c - shape[2 * i + 1] * s,
    shape[2 * i] * s + shape[2 * i + 1] * c,
  ]);
}

/** A polygon as a line: all around, or from the end of one edge to its beginning. */
const opened = (polygon, edge) =>
  edge === null ? [...polygon, polygon[0]] : polygon.map((_, i) => polygon[(edge + 1 + i) % polygon.length]);

function outlineSupertiles(drawable, look, part, pen) {
  const { left, top, scale, ratio } = part;
  const window = windowOf(drawable, look, part, 0, { base: drawable.deepBase(look) });
  pen.beginPath();
  for (const line of supertileLines(drawable, look, window, part.at)) {
    line.forEach(([x, y], i) => pen[i ? "lineTo" : "moveTo"]((x - left) * scale, (top - y) * scale));
  }
  pen.lineJoin = pen.lineCap = "round";
  for (const [width, colour] of [[6, "#ffffffd0"], [3, "#10181d"]]) {
    pen.lineWidth = width * ratio;
    pen.strokeStyle = colour;
    pen.stroke();
  }
}
