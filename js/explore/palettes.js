// Colours of tiles. Those of `lake` are the colours that the pictures of the package have.
const LAKE_KINDS =
  "#1f5f7a #8ecae6 #f2e9d8 #3a9a9c #f4b860 #8e3b5e #d9694a #6b8e4e " +
  "#c9a9d0 #2b3a55 #b7d3a8 #e7a1a8 #7a5a3a #9aa5ad #5d5aa8 #c8b23c";
const LAKE_STEPS = "#3a6378 #2a7f86 #2a9d8f #8ab17d #babb74 #e9c46a #efb366 #f4a261 #ee8959 #e76f51";
const list = (text) => text.split(" ");

/** `kinds` are for what has no order, `steps` for turns and children; without steps they are made of the
 * kinds. */
export const PALETTES = [
  { name: "lake", title: "Lake", kinds: list(LAKE_KINDS), steps: list(LAKE_STEPS), line: "#22303a" },
  { name: "day", title: "Day", kinds: list("#4a7fb5 #ecc06a #8fae5d #b5536b #8d78b8 #e3885a"),
      line: "#26303c" },
  { name: "earth", title: "Earth", kinds: list("#e9c46a #b5651d #7a8f52 #f1e3c6 #8c4a3c #c9a27c"),
      line: "#3a2a1e" },
  { name: "rose", title: "Rose", kinds: list("#8e3b5e #f2b8c6 #f7e7dc #d9708f #5b4a78 #c9b6d8"),
      line: "#3b2033" },
  { name: "stone", title: "Stone", kinds: list("#e4ddd0 #6f7f80 #a9b4a6 #c9b79c #8a7a6a #d5d9d2"),
      line: "#39403f" },
  { name: "night", title: "Night", kinds: list("#16324a #2f6d8c #0f4c5c #73a9c2 #3d3b6b #8d8bc4"),
      line: "#0a141d" },
  { name: "ink", title: "Ink", kinds: list("#f6f6f3 #3b4045 #b9bec2 #767d83 #dfe2e4 #969da3"),
      line: "#111417" },
  { name: "clear", title: "Clear",
      kinds: list("#0072b2 #e69f00 #56b4e9 #009e73 #f0e442 #d55e00 #cc79a7 #999999"), line: "#1a1a1a" },
];

export const paletteNamed = (name) => PALETTES.find((palette) => palette.name === name) ?? PALETTES[0];

/** `count` colours out of a list, the first and others at equal distances. */
const spread = (colours, count) =>
  Array.from({ length: count }, (_, i) => colours[Math.floor((i * colours.length) / count) % colours.length]);

const parts = (colour) => [1, 3, 5].map((i) => parseInt(colour.slice(i, i + 2), 16));
const joined = (numbers) => `#${numbers.map((it) => Math.round(it).toString(16).padStart(2, "0")).join("")}`;

/** Ten colours from the first of some over the others and back. */
function stepsOf(colours) {
  const stops = [...colours.slice(0, 4), colours[0]].map(parts);
  return Array.from({ length: 12 }, (_, i) => {
    const spot = (i / 12) * (stops.length - 1), at = Math.floor(spot);
    return joined(stops[at].map((value, j) => value + (stops[at + 1][j] - value) * (spot - at)));
  });
}

/** What the colours of tiles are by: what was chosen, or what is usual for the tiling. */
export const chosenBy = (state, told) => state.by || told.classes[state.isWhole].usual;

/** Whether some of the colours that tiles have by this are the reader's own. */
export const hasOwn = (state, by) => [...state.own.keys()].some((key) => key[0] === by[0]);

/** The colour of each class of tiles, of the palette or the reader's own. */
export function coloursOf(state, told) {
  const by = chosenBy(state, told), found = paletteColours(paletteNamed(state.palette), by, state, told);
  for (const [key, colour] of state.own) {
    const number = Number(key.slice(1));
    if (key[0] === by[0] && number < found.length) found[number] = colour;
  }
  return found;
}

/** Kinds of whole tiles have the first colours, whether tiles are whole or not. */
function paletteColours({ kinds, steps }, by, { isWhole }, { firstKinds, classes }) {
  const count = classes[isWhole][by];
  if (by === "turn" || by === "child") return spread(steps ?? stepsOf(kinds), count);
  const numbers = [...Array(count).keys()];
  if (by === "star") return numbers.map((star) => kinds[star % kinds.length]);
  const order = [...firstKinds, ...numbers.filter((kind) => !firstKinds.includes(kind))];
  return numbers.map((kind) => kinds[order.indexOf(kind) % kinds.length]);
}

/** The classes whose colours can be chosen. */
export function classesOf(state, told) {
  const by = chosenBy(state, told);
  if (by === "kind" && state.isWhole) return told.firstKinds;
  return [...Array(told.classes[state.isWhole][by]).keys()];
}
