// What is drawn over the picture: the tile under the pointer, the tile that is kept, its star and supertile,
// and the
// middle of the view while keys move it.

const LIGHT = "#ffffff", DARK = "#10181d", ACCENT = "#f4b860";
const NUMBER = 12; // pixels: the size of the numbers of edges
const INWARDS = [0.85, 0.6, 0.35]; // how far inside of an edge its number may be, in such sizes

/** Places next to the middles of a polygon's edges, inside of it. */
function numberSpots(corners, inwards) {
  return corners.map(([x, y], i) => {
    const [nextX, nextY] = corners[(i + 1) % corners.length],
        part = inwards / Math.hypot(nextX - x, nextY - y);
    return [(x + nextX) / 2 + (nextY - y) * part, (y + nextY) / 2 - (nextX - x) * part];
  });
}

/** Whether numbers at these places don't touch. */
const areApart = (spots) =>
  spots.every(([x, y], i) => spots.slice(0, i).every(([a, b]) => Math.hypot(a - x, b - y) > 1.3 * NUMBER));

export class Marks {
  constructor(canvas, state) {
    this.canvas = canvas;
    this.state = state;
    this.pointed = this.kept = null; // answers of the worker
    this.supertile = [];
    this.hasCross = false;
    this.isBlank = true;
  }

  /** Marks a tile as the one that is pointed at, or none. */
  point(tile) {
    this.pointed = tile;
    this.refresh();
  }

  /** Made when there is something to mark: an empty canvas would only cost frames. */
  get pen() {
    return (this.ownPen ??= this.canvas.getContext("2d"));
  }

  refresh() {
    this.wanted ??= requestAnimationFrame(() => {
      this.wanted = null;
      this.draw();
    });
  }

  draw() {
    const isBlank = !this.supertile.length && !this.pointed && !this.kept && !this.hasCross;
    if (!isBlank || !this.isBlank) this.mark();
    this.isBlank = isBlank;
  }

  mark() {
    const { canvas, pen } = this, ratio = Math.min(3, window.devicePixelRatio || 1);
    canvas.width = Math.round(canvas.clientWidth * ratio);
    canvas.height = Math.round(canvas.clientHeight * ratio);
    pen.setTransform(ratio, 0, 0, ratio, 0, 0);
    pen.lineJoin = pen.lineCap = "round";
    if (this.supertile.length) this.dim(this.supertile);
    if (this.kept?.star && this.kept.isNearCorner) {
      for (const { outline } of this.kept.star.tiles) this.outline(outline, 1.5, LIGHT, 4);
    }
    if (this.pointed) this.outline(this.pointed.outline, 2, DARK, 5);
    if (this.kept) this.keptTile(this.kept);
    if (this.hasCross) this.cross();
  }

  /** From lengths to pixels. */
  place([x, y]) {
    const { state, canvas } = this;
    return [canvas.clientWidth / 2 + (x - state.x) * state.scale,
        canvas.clientHeight / 2 - (y - state.y) * state.scale];
  }

  trace(polygon) {
    polygon.forEach((corner, i) => this.pen[i ? "lineTo" : "moveTo"](...this.place(corner)));
    this.pen.closePath();
  }

  /** A polygon's outline in a colour, with a light or dark edge that shows on every ground. */
  outline(polygon, width, colour, wide) {
    const { pen } = this;
    pen.beginPath();
    this.trace(polygon);
    for (const [line, ink] of [[wide, colour === LIGHT ? DARK : LIGHT], [width, colour]]) {
      pen.lineWidth = line;
      pen.strokeStyle = ink;
      pen.stroke();
    }
  }

  keptTile({ outline, star, isNearCorner }) {
    this.outline(outline, 3, ACCENT, 6.5);
    this.numbers(outline);
    if (!star || !isNearCorner) return;
    this.pen.beginPath();
    this.pen.arc(...this.place(star.place), 6, 0, 7);
    this.pen.fillStyle = ACCENT;
    this.pen.strokeStyle = DARK;
    this.pen.lineWidth = 2;
    this.pen.fill();
    this.pen.stroke();
  }

  /** The number of each edge next to it, if there is room. */
  numbers(outline) {
    const { pen } = this, corners = outline.map((corner) => this.place(corner));
    const spots = INWARDS.map((inwards) => numberSpots(corners, inwards * NUMBER)).find(areApart);
    if (!spots) return;
    pen.font = `600 ${NUMBER}px system-ui, sans-serif`;
    pen.textAlign = "center";
    pen.textBaseline = "middle";
    spots.forEach((spot, edge) => {
      pen.lineWidth = 3.5;
      pen.strokeStyle = LIGHT;
      pen.strokeText(edge, ...spot);
      pen.fillStyle = DARK;
      pen.fillText(edge, ...spot);
    });
  }

  /** Makes all but some polygons darker. */
  dim(lines) {
    const { pen, canvas } = this;
    pen.beginPath();
    pen.rect(0, 0, canvas.clientWidth, canvas.clientHeight);
    lines.forEach((line) => this.trace(line));
    pen.fillStyle = "#0c1217a0";
    pen.fill("evenodd");
    lines.forEach((line) => this.outline(line, 3, DARK, 6));
  }

  cross() {
    const { pen, canvas } = this, x = canvas.clientWidth / 2, y = canvas.clientHeight / 2;
    pen.beginPath();
    pen.arc(x, y, 9, 0, 7);
    for (const [dx, dy] of [[1, 0], [-1, 0], [0, 1], [0, -1]]) {
      pen.moveTo(x + 5 * dx, y + 5 * dy);
      pen.lineTo(x + 16 * dx, y + 16 * dy);
    }
    for (const [width, colour] of [[5, LIGHT], [2, DARK]]) {
      pen.lineWidth = width;
      pen.strokeStyle = colour;
      pen.stroke();
    }
  }
}
