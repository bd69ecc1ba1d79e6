// What is saved of a view: pictures, a board, and the command that draws it.
import { classesIn } from "./tilings.js";
import { paint, supertileLines } from "./painter.js";

const ROUND = 1e4;
const short = (value) => String(Math.round(value * ROUND) / ROUND + 0);
const escaped = (text) => text.replace(/[&<>"]/g, (sign) => `&#${sign.charCodeAt(0)};`);

/** The view as an SVG picture: a polygon for each tile, with its address, its neighbours, and classes by
 * kind, turn and
 * colour. The box is that of the view. */
export function svgOf(drawable, look, view) {
  const { at, x, y, width, height, pixels } = view, [x0, y0] = drawable.place(at);
  const patch = drawable.patchOf(drawable.window({ ...look, at }, x, y, width, height), look.isWhole);
  const classes = classesIn(drawable, patch, look.by, look.isWhole);
  const box = [x - width / 2, -y - height / 2, width, height].map(short).join(" ");
  return [
    `<svg xmlns="http://www.w3.org/2000/svg" viewBox="${box}" width="${pixels[0]}" height="${pixels[1]}">`,
    `<title>${escaped(view.title)}</title>`,
    `<desc>${escaped(view.command)}</desc>`,
    styleOf(look, classes, view.scale),
    ...Array.from(classes, (number, tile) => svgTile(patch, tile, number, x0, y0)),
    ...(look.level ? svgSupertiles(drawable, look, view) : []),
    "</svg>",
    "",
  ].join("\n");
}

function styleOf(look, classes, scale) {
  const used = [...new Set(classes)].sort((a, b) => a - b);
  const fills = used.map((number) => `.c${number}{fill:${look.colours[number % look.colours.length]}}`);
  const line = look.lines ? `stroke:${look.line};stroke-width:${short(1.1 / scale)};stroke-linejoin:round`
      : "stroke:none";
  const round = "fill:none;stroke-linejoin:round;stroke-linecap:round";
  const around = `${round};stroke:#ffffff;stroke-opacity:.82;stroke-width:${short(6 / scale)}`;
  const supertile = `${round};stroke:#10181d;stroke-width:${short(3 / scale)}`;
  return `<style type="text/css">.tile{${line}}\n${fills.join("\n")}\n.around{${around}}
.supertile{${supertile}}</style>`;
}

function svgTile(patch, tile, number, x0, y0) {
  const points = patch.polygon(tile).map(([x, y]) => `${short(x - x0)},${short(y0 - y)}`).join(" ");
  const near = patch.neighbours().subarray(tile * patch.most, tile * patch.most + patch.counts[tile]);
  const others = Array.from(near, (other) => (other < 0 ? "-" : other)).join(" ");
  const name = `id="tile${tile}" data-near="${others}"`;
  const look = `class="tile k${patch.kinds[tile]} t${patch.turns[tile]} c${number}"`;
  return `<polygon ${name} ${look} points="${points}"><title>${patch.address(tile)}</title></polygon>`;
}

/** The outlines of supertiles, above a lighter and wider line along all of them. */
function svgSupertiles(drawable, look, { at, x, y, width, height }) {
  const frame = { ...look, at, base: drawable.deepBase(look) };
  const lines = supertileLines(drawable, look, drawable.window(frame, x, y, width, height), at);
  const points = lines.map((line) => line.map(([a, b]) => `${short(a)},${short(-b)}`).join(" "));
  return [
    `<path class="around" d="${points.map((it) => `M${it}`).join("")}"/>`,
    ...points.map((it) => `<polyline class="supertile" points="${it}"/>`),
  ];
}

/** The view as a PNG file. */
export function pngOf(drawable, look, part) {
  return paint(drawable, look, part).canvas.convertToBlob({ type: "image/png" });
}

/** A board of so many connected tiles around the point nearest to x, y, as JSON: what `python3 -m pagnetuf
 * board`
 * makes with --tiles. */
export function boardOf(drawable, look, { at, x, y, tiles }) {
  const near = drawable.tiling.pointNear(x, y), point = at.map((value, i) => value + near[i]);
  const { seed, base } = look;
  const [px, py] = drawable.place(point);
  for (let half = firstHalf(drawable, tiles); ;
      half = half.map((side) => Math.min(4096, Math.floor((side * 3) / 2) + 1))) {
    const patch = drawable.patchOf(drawable.tiling.window({ seed, base, at: point, half }), look.isWhole);
    if (patch.length >= 2 * tiles + 8) return inLines(patch.connected(tiles, px, py).toJSON());
  }
}

/** JSON with a line for each entry of a list. */
function inLines(board) {
  const written = (value) => {
    if (!Array.isArray(value)) return JSON.stringify(value);
    return `[\n${value.map((entry) => JSON.stringify(entry)).join(",\n")}\n]`;
  };
  return `{${Object.entries(board).map(([name, value]) => `"${name}": ${written(value)}`).join(",\n")}}\n`;
}

/** Half of a window, nearly square, that has some three times as many tiles, as far as their least area
 * tells. */
function firstHalf({ leastArea, order }, tiles) {
  const side = Math.sqrt(3 * tiles * leastArea), sine = Math.sin((2 * Math.PI) / order);
  return [Math.max(2, Math.ceil(side)), Math.max(2, Math.ceil(side / (2 * sine)))];
}

/** The command that draws the tiles of a view, and its window. */
export function commandOf(drawable, look, { at, x, y, width, height, file }) {
  const near = drawable.tiling.pointNear(x, y), point = at.map((value, i) => value + near[i]);
  const half = drawable.tiling.halfFor(width, height);
  const words = drawable.tiling.drawWords(
      { seed: look.seed, base: look.base, at: point, half,
      whole: look.isWhole && drawable.tiling.hasHalves });
  const command = `./tiling ${words.join(" ")}${file ? ` < ${file}` : ""}`;
  return { command, point };
}
