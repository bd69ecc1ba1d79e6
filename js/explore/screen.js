// The picture of the tiling, made of bitmaps that are kept. A layer is the plane at one scale, in blocks of
// pixels. A block
// is painted once, by a worker; moving the view only copies blocks. While the view is zoomed the last layer
// is shown larger
// or smaller, until the next one is ready.

const BLOCK = 512; // pixels, about
const UNDER_WAY = 2; // blocks in view that a worker has at a time; of those around the view it has one
const LARGER = 1.6, SMALLER = 1.4;
    // so many times larger or smaller a layer is shown before the next is begun
const REST = 80; // milliseconds after which a scale rests
const PAUSE = 60; // milliseconds after a view is there, before blocks around it are painted
const SLOW = 17.5; // milliseconds a frame: where frames take longer, enlarged blocks are not made smooth

class Layer {
  constructor(look, key, part, wide, high) {
    Object.assign(this, { look, key, ...part });
    this.wide = Math.ceil(wide / Math.max(1, Math.round(wide / BLOCK)));
    this.high = Math.ceil(high / Math.max(1, Math.round(high / BLOCK)));
    this.blocks = new Map();
    this.spent = this.tiles = 0;
  }

  /** The blocks that a view shows, given in the layer's pixels, and `more` on each side of it. */
  blocksIn({ left, top, right, bottom }, more = 0) {
    const names = [], first = Math.floor(left / this.wide) - more, last = Math.ceil(right / this.wide) + more;
    for (let j = Math.floor(top / this.high) - more; j < Math.ceil(bottom / this.high) + more; j++) {
      for (let i = first; i < last; i++) names.push(`${i},${j}`);
    }
    return names;
  }

  /** What a worker has to paint of a block. */
  partOf(name) {
    const [i, j] = name.split(",").map(Number), { at, scale, ratio, wide, high } = this;
    return { at, scale, ratio, wide, high, left: this.left + (i * wide) / scale,
        top: this.top - (j * high) / scale };
  }

  get hasBitmaps() {
    return [...this.blocks.values()].some(Boolean);
  }

  forget(name) {
    this.blocks.get(name)?.close();
    this.blocks.delete(name);
  }

  forgetAll() {
    for (const name of [...this.blocks.keys()]) this.forget(name);
  }
}

export class Screen {
  /** `lookOf()` is the look that is wanted, or null; `refused` is told what the engine refuses. */
  constructor(canvas, state, workers, lookOf, refused) {
    Object.assign(this, { canvas, state, workers, lookOf, refused });
    this.top = this.under = null;
    this.underWay = 0;
    this.last = this.pace = 0; // when the last frame began, and milliseconds from one to the next
    this.report = { frames: 0, blocks: 0, views: 0, tiles: 0, spent: 0, waited: 0 };
  }

  get ratio() {
    return Math.min(3, window.devicePixelRatio || 1);
  }

  /** Made when something is shown: before that a canvas would only cost frames. */
  get pen() {
    return (this.ownPen ??= this.canvas.getContext("2d", { alpha: false }));
  }

  /** Asks for a frame: something has changed. The first layer doesn't wait for it. */
  refresh() {
    if (!this.top) this.begin();
    this.wanted ??= requestAnimationFrame(() => {
      this.wanted = null;
      this.frame();
    });
  }

  begin() {
    if (!this.lookOf()) return;
    this.fit();
    this.choose();
    this.pump();
  }

  frame() {
    this.measure();
    if (!this.top?.hasBitmaps && !this.ownPen) return;
    this.fit();
    this.choose();
    this.show();
    this.pump();
  }

  /** Counts frames, and finds whether they follow one another quickly. */
  measure() {
    const now = performance.now(), gap = now - this.last;
    this.last = now;
    this.report.frames++;
    if (gap < 100) this.pace = 0.9 * this.pace + 0.1 * gap;
  }

  fit() {
    const { canvas, ratio } = this, wide = Math.round(canvas.clientWidth * ratio),
        high = Math.round(canvas.clientHeight * ratio);
    if (canvas.width !== wide) canvas.width = wide;
    if (canvas.height !== high) canvas.height = high;
  }

  /** Begins a layer where the last one has not the look, or the scale, that is wanted. */
  choose() {
    const look = this.lookOf();
    if (!look) return;
    const { at, scale } = this.state, { ratio, top } = this,
        place = `${look.tiling} ${look.seed} ${look.base} ${at}`;
    const key = JSON.stringify([look, at, ratio]);
    if (top?.key === key && !this.needsScale(top, scale * ratio)) return;
    const kept = [top, this.under].find((layer) => layer?.place === place && layer.hasBitmaps) ?? null;
    for (const layer of [top, this.under]) if (layer !== kept) layer?.forgetAll();
    this.under = kept;
    this.top = this.newLayer(look, key, place);
  }

  /** Whether a layer is to be painted again at another scale: when that rests, or is far from the layer's
   * own. */
  needsScale(layer, scale) {
    if (layer.scale === scale || this.isPainting(layer)) return false;
    const part = scale / layer.scale;
    if (part > LARGER || part < 1 / SMALLER) return true;
    if (this.resting === scale) return true;
    clearTimeout(this.rest);
    this.rest = setTimeout(() => {
      this.resting = scale;
      this.refresh();
    }, REST);
    return false;
  }

  newLayer(look, key, place) {
    const { at, x, y, scale } = this.state, { ratio, canvas } = this, pixels = scale * ratio;
    const part = { at, ratio, scale: pixels, left: x - canvas.width / 2 / pixels,
        top: y + canvas.height / 2 / pixels };
    const layer = new Layer(look, key, part, canvas.width, canvas.height);
    layer.place = place;
    layer.goal = layer.blocksIn({ left: 0, top: 0, right: canvas.width - 0.5, bottom: canvas.height - 0.5 });
    layer.began = performance.now();
    return layer;
  }

  isPainting(layer) {
    return !layer.isRefused && layer.goal.some((name) => !layer.blocks.get(name));
  }

  /** The view in the pixels of a layer. */
  viewIn(layer) {
    const { x, y, scale } = this.state, { canvas, ratio } = this, k = layer.scale / (scale * ratio);
    const left = (x - layer.left) * layer.scale - (canvas.width / 2) * k,
        top = (layer.top - y) * layer.scale - (canvas.height / 2) * k;
    return { left, top, right: left + canvas.width * k, bottom: top + canvas.height * k, k };
  }

  show() {
    const { pen, canvas, top, under } = this;
    const isWhole = this.missing().length === 0;
    if (!isWhole) {
      pen.fillStyle = top.look.line;
      pen.fillRect(0, 0, canvas.width, canvas.height);
    }
    if (under && !isWhole) this.showLayer(under);
    this.showLayer(top);
    if (under && isWhole) {
      under.forgetAll();
      this.under = null;
    }
  }

  showLayer(layer) {
    const view = this.viewIn(layer), { pen } = this;
    pen.imageSmoothingEnabled = this.pace < SLOW;
    const spot = (number, size, start) => Math.round((number * size - start) / view.k);
    for (const name of layer.blocksIn(view)) {
      const bitmap = layer.blocks.get(name);
      if (!bitmap) continue;
      const [i, j] = name.split(",").map(Number), left = spot(i, layer.wide, view.left),
          high = spot(j, layer.high, view.top);
      pen.drawImage(bitmap, left, high, spot(i + 1, layer.wide, view.left) - left,
          spot(j + 1, layer.high, view.top) - high);
    }
  }

  /** The blocks of the view that are still to come. */
  missing() {
    return this.top.blocksIn(this.viewIn(this.top)).filter((name) => !this.top.blocks.get(name));
  }

  /** The blocks to be painted next, and how many a worker may have: those in view, and after a pause those
   * around it, of which none waits in a worker, so that a new view never waits for them. While the scale
   * changes, only those of the view for which the layer was begun. */
  next() {
    const { top, state, ratio } = this, isFree = (name) => !top.blocks.has(name);
    if (top.scale !== state.scale * ratio) return [top.goal.filter(isFree), UNDER_WAY];
    const view = this.viewIn(top), seen = top.blocksIn(view).filter(isFree);
    if (seen.length) return [seen, UNDER_WAY];
    const isPause = performance.now() - (top.ended ?? top.began) < PAUSE;
    return isPause ? [[], 0] : [top.blocksIn(view, 1).filter(isFree), 1];
  }

  pump() {
    const { top } = this;
    const [names, each] = this.next(), most = each * this.workers.count;
    for (const name of names) {
      if (this.underWay >= most) break;
      top.blocks.set(name, null);
      this.underWay++;
      this.paint(top, name);
    }
    this.forgetFar();
  }

  async paint(layer, name) {
    try {
      const { bitmap, tiles, spent } = await this.workers.paint(layer.look, layer.partOf(name));
      this.report.blocks++;
      const isWanted = (layer === this.top || layer === this.under) && layer.blocks.has(name);
      if (isWanted) this.keep(layer, name, bitmap, tiles, spent);
      else bitmap.close();
    } catch (refusal) {
      if (layer === this.top && !layer.isRefused) this.refused(refusal);
      layer.isRefused = true;
    }
    this.underWay--;
    if (this.isNews(layer, name)) this.refresh();
    else this.pump();
  }

  /** Whether a frame has to be drawn since a block is there: it is seen, and no older layer waits for the
   * others. */
  isNews(layer, name) {
    if (layer !== this.top) return true;
    return !(this.under && this.isPainting(layer)) && layer.blocksIn(this.viewIn(layer)).includes(name);
  }

  keep(layer, name, bitmap, tiles, spent) {
    layer.blocks.set(name, bitmap);
    if (!layer.goal.includes(name) || layer.ended) return;
    layer.tiles += tiles;
    layer.spent += spent;
    if (this.isPainting(layer)) return;
    layer.ended = performance.now();
    setTimeout(() => this.pump(), PAUSE + 1);
    const waited = layer.ended - layer.began;
    Object.assign(this.report, { views: this.report.views + 1, tiles: layer.tiles, spent: layer.spent,
        waited });
    this.report.first ??= performance.now(); // since the page began to load
  }

  /** Lets blocks go that are far from the view. */
  forgetFar() {
    const { top } = this, near = new Set(top.blocksIn(this.viewIn(top), 3));
    for (const [name, bitmap] of top.blocks) if (bitmap && !near.has(name)) top.forget(name);
  }

  /** Whether all of the view is painted at its scale, and shown. */
  get isReady() {
    const { top } = this, isNow = top?.scale === this.state.scale * this.ratio && top.key === this.keyNow();
    return isNow && !this.wanted && !this.missing().length;
  }

  keyNow() {
    return JSON.stringify([this.lookOf(), this.state.at, this.ratio]);
  }
}
