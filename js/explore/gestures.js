// Hands and keys on the tiling: drag, wheel, pinch, click, arrows.

const STILL = 5; // pixels that a finger or a pointer may move in a click
const STEP = 80; // pixels that an arrow key moves
const ARROWS = { ArrowLeft: [1, 0], ArrowRight: [-1, 0], ArrowUp: [0, 1], ArrowDown: [0, -1] };

/** Watches a canvas. `hand` is told: move(dx, dy), zoom(factor, x, y), point(x, y), leave(), choose(x, y),
 * home(), key(key).
 * Places are in pixels from the middle of the canvas, y down. */
export class Gestures {
  constructor(canvas, hand) {
    this.canvas = canvas;
    this.hand = hand;
    this.fingers = new Map();
    this.moved = this.gap = 0;
    const listen = (name, heard, more) => canvas.addEventListener(name, heard.bind(this), more);
    listen("pointerdown", this.down);
    listen("pointermove", this.move);
    listen("pointerup", this.up);
    listen("pointercancel", this.up);
    listen("pointerleave", this.leave);
    listen("wheel", this.wheel, { passive: false });
    listen("keydown", this.key);
    listen("contextmenu", (event) => event.pointerType === "touch" && event.preventDefault());
  }

  placeOf({ clientX, clientY }) {
    const box = this.canvas.getBoundingClientRect();
    return [clientX - box.left - box.width / 2, clientY - box.top - box.height / 2];
  }

  down(event) {
    if (event.button > 0) return;
    this.fingers.set(event.pointerId, event);
    this.canvas.setPointerCapture(event.pointerId);
    if (this.fingers.size === 1) this.moved = 0;
    this.gap = 0;
  }

  move(event) {
    const before = this.fingers.get(event.pointerId);
    if (!before) {
      if (event.pointerType !== "touch") this.hand.point(...this.placeOf(event));
      return;
    }
    this.fingers.set(event.pointerId, event);
    const dx = event.clientX - before.clientX, dy = event.clientY - before.clientY;
    this.moved += Math.abs(dx) + Math.abs(dy);
    if (this.fingers.size === 1 && this.moved > STILL) this.drag(dx, dy);
    if (this.fingers.size === 2) this.pinch(dx, dy);
  }

  drag(dx, dy) {
    this.canvas.classList.add("moving");
    this.hand.move(dx, dy);
  }

  pinch(dx, dy) {
    const [a, b] = [...this.fingers.values()], gap = Math.hypot(a.clientX - b.clientX, a.clientY - b.clientY);
    this.hand.move(dx / 2, dy / 2);
    const middle = { clientX: (a.clientX + b.clientX) / 2, clientY: (a.clientY + b.clientY) / 2 };
    if (this.gap) this.hand.zoom(gap / this.gap, ...this.placeOf(middle));
    this.gap = gap;
    this.moved = Infinity;
  }

  up(event) {
    const was = this.fingers.delete(event.pointerId);
    this.gap = 0;
    if (this.fingers.size) return;
    this.canvas.classList.remove("moving");
    if (was && this.moved <= STILL && event.type === "pointerup") this.hand.choose(...this.placeOf(event));
  }

  leave(event) {
    if (event.pointerType !== "touch" && !this.fingers.size) this.hand.leave();
  }

  wheel(event) {
    event.preventDefault();
    const lines = event.deltaMode ? 20 : 1, speed = event.ctrlKey ? 100 : 500;
    this.hand.zoom(Math.exp((-event.deltaY * lines) / speed), ...this.placeOf(event));
  }

  key(event) {
    if (event.ctrlKey || event.metaKey || event.altKey) return;
    const arrow = ARROWS[event.key], by = event.shiftKey ? 4 * STEP : STEP;
    if (arrow) this.hand.move(arrow[0] * by, arrow[1] * by);
    else if (event.key === "+" || event.key === "=") this.hand.zoom(1.25, 0, 0);
    else if (event.key === "-") this.hand.zoom(0.8, 0, 0);
    else if (event.key === "Home" || event.key === "0") this.hand.home();
    else if (event.key === "Enter" || event.key === " ") this.hand.choose(0, 0);
    else if (!this.hand.key(event.key)) return;
    event.preventDefault();
  }
}
