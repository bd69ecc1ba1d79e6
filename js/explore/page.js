// Small helpers for elements of the page.

export const byId = (id) => document.getElementById(id);

/** An element with attributes, and what is in it. */
export function element(tag, attributes = {}, ...inside) {
  const made = document.createElement(tag);
  for (const [name, value] of Object.entries(attributes)) {
    if (name.startsWith("on")) made.addEventListener(name.slice(2), value);
    else if (value !== null) made.setAttribute(name, value);
  }
  made.append(...inside);
  return made;
}

/** Does something for Esc in an element; nothing else answers the key then. */
export function onEscape(where, heard) {
  where.addEventListener("keydown", (event) => {
    if (event.key !== "Escape") return;
    event.preventDefault();
    heard();
  });
}

const TYPED = "select, input:not([type=radio], [type=checkbox], [type=range], [type=color])";

/** Whether keys are typed into an element. */
export const isTyped = (where) => where instanceof Element && where.matches(TYPED);

/** A drawing of polygons in lengths, y up, in a box around a middle: [{ outline, colour }]. */
export function drawing(polygons, [x, y], label) {
  const corners = polygons.flatMap(({ outline }) => outline);
  const far = 1.04 * Math.max(...corners.map(([a, b]) => Math.hypot(a - x, b - y)));
  const space = "http://www.w3.org/2000/svg", svg = document.createElementNS(space, "svg");
  svg.setAttribute("viewBox", `${-far} ${-far} ${2 * far} ${2 * far}`);
  svg.setAttribute("role", "img");
  svg.setAttribute("aria-label", label);
  for (const { outline, colour } of polygons) {
    const polygon = document.createElementNS(space, "polygon");
    polygon.setAttribute("points", outline.map(([a, b]) => `${a - x},${y - b}`).join(" "));
    polygon.setAttribute("class", "tile");
    polygon.setAttribute("fill", colour);
    svg.append(polygon);
  }
  return svg;
}

/** An SVG text as an image. */
export function picture(svg, words) {
  const image = new Image();
  image.alt = words;
  image.src = `data:image/svg+xml,${encodeURIComponent(svg)}`;
  return image;
}

let silence = 0;

/** Says something for a moment. */
export function say(words) {
  const note = byId("note");
  note.textContent = words;
  note.hidden = false;
  clearTimeout(silence);
  silence = setTimeout(() => (note.hidden = true), 2500);
}

/** Gives the reader a file, and says so. */
export function saveFile(name, content, type) {
  const blob = content instanceof Blob ? content : new Blob([content], { type });
  const url = URL.createObjectURL(blob), link = element("a", { href: url, download: name });
  document.body.append(link);
  link.click();
  link.remove();
  setTimeout(() => URL.revokeObjectURL(url), 60000);
  say(`${name} saved`);
}

/** Copies a text, also where the page may not use the clipboard by itself. */
export async function copyText(text, what) {
  try {
    await navigator.clipboard.writeText(text);
  } catch {
    const area = element("textarea", { style: "position:fixed;opacity:0" });
    area.value = text;
    document.body.append(area);
    area.select();
    document.execCommand("copy");
    area.remove();
  }
  say(`${what} copied`);
}

export const withSign = (count, one, many = `${one}s`) =>
    `${count.toLocaleString("en")} ${count === 1 ? one : many}`;
