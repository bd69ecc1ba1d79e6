// What explore.py asks of the page: functions of window.asked.
window.asked = {
  /** The state, for places and scales. */
  here() {
    const { at, x, y, scale } = explorer.state;
    return { at, x, y, scale, order: explorer.told.order };
  },

  /** What came from elsewhere than the page itself. */
  loaded() {
    const isOwn = ({ name }) => name.startsWith("blob:") || name.startsWith("data:");
    return performance.getEntriesByType("resource").filter((it) => !isOwn(it)).length;
  },

  /** The button of the bar that opens a card. */
  opener(card) {
    return document.querySelector(`#bar [aria-controls="${card}"]`);
  },

  /** Opens a card, fills a field of it, and submits its form. */
  fill(card, field, value) {
    explorer.cards.show(card);
    const input = document.getElementById(field);
    input.value = value;
    input.form.querySelector("[type=submit]").click();
  },

  /** Searches tilings for a word. */
  search(word) {
    const input = document.getElementById("search");
    input.focus();
    input.value = word;
    input.dispatchEvent(new Event("input"));
  },

  /** Kind, turn, position and address of the tile at a place in pixels from the middle. */
  async tileAt(x, y) {
    const { name, kind, turn, shift } = await explorer.tileAt(explorer.placeOf(x, y));
    return [name, kind, turn, shift.join()];
  },

  /** Drops a file on the tiling. */
  drop(text, name) {
    const data = new DataTransfer();
    data.items.add(new File([text], name));
    const event = new DragEvent("drop", { bubbles: true, cancelable: true, dataTransfer: data });
    document.getElementById("tiling").dispatchEvent(event);
  },

  /** The kinds of tiles all over the view, and the colour in the middle of each. */
  async colours() {
    const { canvas, pen, ratio } = explorer.screen, { state } = explorer, scale = state.scale * ratio,
        found = [];
    for (let i = 0; i < 12; i++) {
      for (let j = 0; j < 8; j++) {
        const tile = await explorer.tileAt(explorer.placeOf((i - 5.5) * 90, (j - 3.5) * 90));
        const mean = (k) => tile.outline.reduce((sum, it) => sum + it[k], 0) / tile.outline.length;
        const x = canvas.width / 2 + (mean(0) - state.x) * scale,
            y = canvas.height / 2 - (mean(1) - state.y) * scale;
        const [red, green, blue] = pen.getImageData(x, y, 1, 1).data;
        found.push(
            [tile.kind, `#${[red, green, blue].map((it) => it.toString(16).padStart(2, "0")).join("")}`]);
      }
    }
    return found;
  },

  /** How many pixels have no tile, at a scale at which tiles have no lines: those of the ground's colour. */
  async gaps(scale) {
    const { screen, state } = explorer;
    await explorer.change({ lines: false, by: "kind", x: 0.1234, y: -0.77, scale });
    while (!screen.isReady) await new Promise((next) => setTimeout(next, 5));
    const { width, height } = screen.canvas, { data } = screen.pen.getImageData(0, 0, width, height);
    const [ground] = new Uint32Array(Uint8ClampedArray.of(0x22, 0x30, 0x3a, 255).buffer);
    const count = new Uint32Array(data.buffer).reduce((sum, pixel) => sum + (pixel === ground), 0);
    await explorer.change({ lines: true, by: "", x: 0, y: 0, scale: 50 });
    return [count, state.tiling];
  },

  /** How far the page is wider and higher than the window. */
  sticksOut() {
    const { scrollWidth, scrollHeight } = document.documentElement;
    return [scrollWidth - innerWidth, scrollHeight - innerHeight];
  },

  /** How many pixels of what an element has can only be seen by scrolling. */
  hidden(id) {
    const { scrollHeight, clientHeight } = document.getElementById(id);
    return scrollHeight - clientHeight;
  },

  /** By how many pixels a control is narrower than its words need. */
  cut(id) {
    const control = document.getElementById(id), copy = control.cloneNode(true);
    copy.style = "position: fixed; flex: none; width: max-content";
    control.after(copy);
    const missing = copy.offsetWidth - control.offsetWidth;
    copy.remove();
    return Math.max(0, missing);
  },

  box(id) {
    return document.getElementById(id).getBoundingClientRect().toJSON();
  },

  isInView(card) {
    const { left, top, right, bottom, width, height } = asked.box(card);
    const isInside = left >= 0 && top >= 0 && right <= innerWidth && bottom <= innerHeight;
    return isInside && width > 200 && height > 100;
  },

  /** The controls of a card without a name for those who don't see them. */
  nameless(card) {
    const isNamed = (it) => it.textContent.trim() || it.getAttribute("aria-label") || it.labels?.length
        || it.title;
    const controls = [...document.querySelectorAll(`#${card} :is(button, input, select)`)];
    return controls.filter((it) => it.offsetParent && !isNamed(it)).map((it) => it.outerHTML);
  },

  /** The controls that are too small for a finger. */
  small() {
    const controls = [...document.querySelectorAll("#bar button, #zoom button")].filter(
        (it) => it.offsetParent);
    return controls.filter((it) => it.offsetWidth < 44 || it.offsetHeight < 44).map((it) => it.textContent);
  },

  /** The words of a card whose contrast is below 4.5, which is that of WCAG 2. */
  faint(card) {
    const hasWords = (it) => [...it.childNodes].some(
        (node) => node.nodeType === 3 && node.textContent.trim());
    const words = [...document.querySelectorAll(`#${card} *`)].filter(
        (it) => it.offsetParent && hasWords(it));
    const isFaint = (it) => contrast(getComputedStyle(it).color, groundOf(it)) < 4.5;
    return words.filter(isFaint).map((it) => it.textContent.trim().slice(0, 40));
  },

  /** Frames a second and the longest wait for one, in milliseconds, while a step is made in each. */
  frames(step) {
    return new Promise((done) => {
      const gaps = [];
      let last = performance.now();
      const next = (now) => {
        gaps.push(now - last);
        last = now;
        step();
        if (gaps.length < 150) requestAnimationFrame(next);
        else done(told(gaps.slice(5)));
      };
      const told = (times) => [1000 / (times.reduce((a, b) => a + b) / times.length), Math.max(...times)];
      requestAnimationFrame(next);
    });
  },

  /** Paints the view again: milliseconds of a worker, milliseconds until it is shown, and tiles. */
  async again() {
    const { report, top } = explorer.screen, before = report.views;
    top.key = "";
    explorer.changed();
    while (report.views === before) await new Promise((next) => setTimeout(next, 1));
    return [report.spent, report.waited, report.tiles];
  },
};

function groundOf(element) {
  for (let at = element; at; at = at.parentElement) {
    const colour = getComputedStyle(at).backgroundColor;
    if (!/, 0\)$|transparent/.test(colour)) return colour;
  }
  return "rgb(255, 255, 255)";
}

function contrast(one, two) {
  const part = (value) => (value <= 0.03928 ? value / 12.92 : ((value + 0.055) / 1.055) ** 2.4);
  const light = (colour) => {
    const [red, green, blue] = colour.match(/[\d.]+/g).slice(0, 3).map((it) => part(it / 255));
    return 0.2126 * red + 0.7152 * green + 0.0722 * blue;
  };
  const [a, b] = [light(one), light(two)];
  return (Math.max(a, b) + 0.05) / (Math.min(a, b) + 0.05);
}
