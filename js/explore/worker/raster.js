// Fills tiles side by side in a square of pixels, and draws the lines between them.
//
// A pixel has the colour of the tile that holds its middle, so there is no seam and no gap. Then each edge is
// drawn once: along it the colours of its two sides are mixed by area, and the line is laid over them.
// A tile's shape depends on its kind and turn alone, so all that can be is computed once a shape.

// Keeps places that are exactly between two pixels on one side, whatever the rounding of a sum.
const NUDGE = 1e-6;
const FAR = 1 << 14; // added before a number is cut to an integer, so that this rounds down below 0 too
const below = (value) => ((value + FAR) | 0) - FAR;

/** The form of a kind of tiles, whatever their turn and size: corners, convex pieces to fill, and edges to
 * draw. */
export class Form {
  /** A tile has one polygon, or two that are glued. Each has `corners`, [x, y, x, y, ..] in lengths and
   * counterclockwise,
   * and is seen whole from the first; along its edge `glued` there is no line. */
  constructor(polygons) {
    this.outline = polygons.length === 2 ? joined(...polygons) : [...polygons[0].corners];
    const filled = isConvex(this.outline) ? [{ corners: this.outline }] : polygons;
    this.corners = [...filled, ...polygons].flatMap(({ corners }) => [...corners]);
    this.pieces = [];
    this.edges = [];
    let first = 0;
    for (const { corners } of filled) {
      for (const piece of convexPieces(corners)) this.pieces.push(piece.map((corner) => first + corner));
      first += corners.length / 2;
    }
    for (const { corners, glued } of polygons) {
      const count = corners.length / 2;
      for (let edge = 0; edge < count; edge++) {
        if (edge !== glued) this.edges.push(first + edge, first + ((edge + 1) % count));
      }
      first += count;
    }
  }
}

/** The outline of two glued polygons. */
function joined(one, two) {
  const around = ({ corners, glued }) => {
    const start = (2 * (glued + 1)) % corners.length;
    return [...corners.slice(start), ...corners.slice(0, start)].slice(0, -2);
  };
  return [...around(one), ...around(two)];
}

function isConvex(corners) {
  const count = corners.length / 2;
  for (let i = 0; i < count; i++) if (!turnsLeft(corners, i, (i + 1) % count, (i + 2) % count)) return false;
  return true;
}

function turnsLeft(c, a, b, d) {
  const [ux, uy, vx, vy] = [c[2 * b] - c[2 * a], c[2 * b + 1] - c[2 * a + 1], c[2 * d] - c[2 * b],
      c[2 * d + 1] - c[2 * b + 1]];
  return ux * vy - uy * vx > -1e-9;
}

/** Cuts a polygon, which is seen whole from its corner 0, into convex pieces: lists of corners. */
function convexPieces(corners) {
  const count = corners.length / 2, pieces = [];
  let piece = null;
  for (let i = 1; i + 1 < count; i++) {
    if (!hasArea(corners, i, i + 1)) continue;
    const last = piece && piece[piece.length - 1];
    const grows = piece && last === i && turnsLeft(corners, piece[piece.length - 2], i, i + 1)
        && turnsLeft(corners, i + 1, 0, piece[1]);
    if (grows) piece.push(i + 1);
    else pieces.push((piece = [0, i, i + 1]));
  }
  return pieces;
}

const hasArea = (c, a, b) =>
  Math.abs((c[2 * a] - c[0]) * (c[2 * b + 1] - c[1]) - (c[2 * a + 1] - c[1]) * (c[2 * b] - c[0])) > 1e-9;

/** A form that is turned by an angle, in pixels, y down. */
export class Shape {
  constructor({ outline, corners, pieces, edges }, angle, scale) {
    const places = turned(corners, angle, scale);
    this.outline = turned(outline, angle, scale);
    this.pieces = pieces.map((piece) => sidesOf(places, piece));
    this.lines = linesOf(places, edges);
    this.box = boxOf(places);
  }
}

/** Corners that are turned and enlarged, y down. */
function turned(corners, angle, scale) {
  const cos = Math.cos(angle) * scale, sin = Math.sin(angle) * scale,
      places = new Float64Array(corners.length);
  for (let i = 0; i < corners.length; i += 2) {
    places[i] = corners[i] * cos - corners[i + 1] * sin;
    places[i + 1] = -corners[i] * sin - corners[i + 1] * cos;
  }
  return places;
}

/** The sides of a piece that are not level, five numbers each: x and y of the upper end, y of the lower end,
 * the slope,
 * and 1 for a left side. */
function sidesOf(places, piece) {
  const sides = new Float64Array(5 * piece.length);
  let spot = 0;
  for (let i = 0; i < piece.length; i++) {
    const a = 2 * piece[i], b = 2 * piece[(i + 1) % piece.length], isLeft = places[a + 1] < places[b + 1];
    if (places[a + 1] === places[b + 1]) continue;
    const [upper, lower] = isLeft ? [a, b] : [b, a];
    sides[spot] = places[upper];
    sides[spot + 1] = places[upper + 1];
    sides[spot + 2] = places[lower + 1];
    sides[spot + 3] = (places[lower] - places[upper]) / (places[lower + 1] - places[upper + 1]);
    sides[spot + 4] = isLeft ? 1 : 0;
    spot += 5;
  }
  return sides.subarray(0, spot);
}

/** The lines to draw, four numbers each. Of the two tiles at an edge, which run along it in opposite
 * directions, one draws
 * it. */
function linesOf(places, edges) {
  const lines = new Float64Array(2 * edges.length);
  let spot = 0;
  for (let i = 0; i < edges.length; i += 2) {
    const a = 2 * edges[i], b = 2 * edges[i + 1], wide = places[b] - places[a],
        high = places[b + 1] - places[a + 1];
    const isOurs = Math.abs(high) > 1e-9 * Math.abs(wide) ? high < 0 : wide > 0;
    if (!isOurs) continue;
    lines[spot] = places[a];
    lines[spot + 1] = places[a + 1];
    lines[spot + 2] = places[b];
    lines[spot + 3] = places[b + 1];
    spot += 4;
  }
  return lines.subarray(0, spot);
}

/** Left, top, right and bottom of corners. */
function boxOf(places) {
  const box = [Infinity, Infinity, -Infinity, -Infinity];
  for (let i = 0; i < places.length; i++) {
    const low = i % 2, high = low + 2;
    if (places[i] < box[low]) box[low] = places[i];
    if (places[i] > box[high]) box[high] = places[i];
  }
  return box;
}

/** Pixels, row by row, as the canvas has them. They are kept as signed numbers, which are fastest. */
export class Raster {
  constructor(width, height) {
    this.width = width;
    this.height = height;
    this.image = new ImageData(width, height);
    this.pixels = new Int32Array(this.image.data.buffer);
    this.left = new Int32Array(height);
    this.right = new Int32Array(height);
  }

  clear(colour) {
    this.pixels.fill(colour);
  }

  /** Fills a shape whose origin is at x, y. */
  fill(shape, x, y, colour) {
    if (this.misses(shape, x, y)) return;
    const { pieces } = shape;
    for (let i = 0; i < pieces.length; i++) this.fillPiece(pieces[i], x + NUDGE, y + NUDGE, colour);
  }

  misses({ box }, x, y) {
    return x + box[2] < 0 || y + box[3] < 0 || x + box[0] > this.width || y + box[1] > this.height;
  }

  fillPiece(sides, x, y, colour) {
    const { left, right, height } = this;
    let top = height, bottom = 0;
    for (let i = 0; i < sides.length; i += 5) {
      const start = y + sides[i + 1], slope = sides[i + 3], ends = sides[i + 4] ? left : right;
      const first = Math.max(0, below(start + 0.5)), last = Math.min(height, below(y + sides[i + 2] + 0.5));
      if (first < top) top = first;
      if (last > bottom) bottom = last;
      let at = x + sides[i] + (first + 0.5 - start) * slope + 0.5 + FAR;
      for (let row = first; row < last; row++, at += slope) ends[row] = at | 0;
    }
    this.fillRows(top, bottom, colour);
  }

  /** Fills from `left` to `right` of each row; both have FAR added. */
  fillRows(top, bottom, colour) {
    const { left, right, width, pixels } = this;
    for (let row = top, begin = top * width; row < bottom; row++, begin += width) {
      const first = left[row] - FAR, last = right[row] - FAR;
      const from = begin + (first < 0 ? 0 : first), to = begin + (last > width ? width : last);
      if (to - from > 16) pixels.fill(colour, from, to);
      else for (let spot = from; spot < to; spot++) pixels[spot] = colour;
    }
  }

  /** Draws the lines of a shape whose origin is at x, y; see `Pen`. */
  draw(shape, x, y, pen) {
    if (this.misses(shape, x, y)) return;
    const { lines } = shape, { width, height } = this;
    for (let i = 0; i < lines.length; i += 4) {
      const x0 = x + lines[i], y0 = y + lines[i + 1], x1 = x + lines[i + 2], y1 = y + lines[i + 3];
      if (Math.abs(x1 - x0) < Math.abs(y1 - y0)) this.strip(y0, x0, y1, x1, height, width, width, 1, pen);
      else this.strip(x0, y0, x1, y1, width, height, 1, width, pen);
    }
  }

  /** A line that goes further along `u` than along `v`. `along` and `across` are the steps in `pixels`. */
  strip(u0, v0, u1, v1, most, wide, along, across, pen) {
    const slope = (v1 - v0) / (u1 - u0 || 1), half = pen.half * Math.sqrt(1 + slope * slope);
    const first = Math.max(0, below(Math.min(u0, u1) + 0.5)),
        last = Math.min(most, below(Math.max(u0, u1) + 0.5));
    let v = v0 + (first + 0.5 - u0) * slope;
    for (let u = first; u < last; u++, v += slope) {
      if (v < half + 1 || v > wide - half - 1) this.coverRim(u * along, across, v, half, wide, pen);
      else this.cover(u * along, across, v, half, pen);
    }
  }

  /** Draws a line over the pixels across it at `v`. A weak line first mixes the pixel there of the two beside
   * it, by their
   * areas, so that the edge below the line is smooth. */
  cover(begin, across, v, half, pen) {
    const { pixels } = this, { colour, strength } = pen;
    if (pen.isWeak) {
      const cell = v | 0, spot = begin + cell * across;
      pixels[spot] = mixed(pixels[spot + across], pixels[spot - across], ((v - cell) * 256) | 0);
      if (!half) return;
    }
    const low = v - half, high = v + half, last = high | 0;
    let cell = low | 0, spot = begin + cell * across;
    if (cell === last) {
      pixels[spot] = mixed(pixels[spot], colour, ((high - low) * strength) | 0);
      return;
    }
    pixels[spot] = mixed(pixels[spot], colour, ((cell + 1 - low) * strength) | 0);
    for (cell++, spot += across; cell < last; cell++, spot += across) {
      pixels[spot] = mixed(pixels[spot], colour, strength);
    }
    pixels[spot] = mixed(pixels[spot], colour, ((high - last) * strength) | 0);
  }

  /** As `cover`, where pixels may be missing. */
  coverRim(begin, across, v, half, wide, { colour, strength }) {
    const { pixels } = this, end = Math.min(wide - 1, below(v + half));
    for (let cell = Math.max(0, below(v - half)); cell <= end; cell++) {
      const part = Math.min(v + half, cell + 1) - Math.max(v - half, cell), spot = begin + cell * across;
      pixels[spot] = mixed(pixels[spot], colour, (part * strength) | 0);
    }
  }
}

/** A colour between two, `part` of 256 towards the second. Red and blue are mixed at once; what the product
 * has above 32
 * bits would be cut off anyway. */
function mixed(one, two, part) {
  const odd = one & 0xff00ff, even = (one >> 8) & 0xff;
  const nextOdd = odd + (Math.imul((two & 0xff00ff) - odd, part) >> 8);
  const nextEven = even + (Math.imul(((two >> 8) & 0xff) - even, part) >> 8);
  return 0xff000000 | (nextOdd & 0xff00ff) | (nextEven << 8);
}

/** What a line is drawn with: its width in pixels, its colour, and its strength from 0 to 256. */
export class Pen {
  constructor(width, colour, strength) {
    this.half = strength ? width / 2 : 0;
    this.colour = colour;
    this.strength = strength | 0;
    this.isWeak = strength < 200;
  }
}
