// The tile that holds a place, what is across its edges, and the star at its nearest corner.
import { classesIn, starsOf } from "./tilings.js";
import { supertileLines } from "./painter.js";

/** The tile at x, y, counted from the point `at`. Lines and places in the answer are counted from there too.
 * */
export function tileAt(drawable, look, { at, x, y }) {
  const [x0, y0] = drawable.place(at), reach = 2 * drawable.extent;
  const window = drawable.window({ ...look, at }, x, y, reach, reach);
  const patch = drawable.patchOf(window, look.isWhole), tile = patch.find(x0 + x, y0 + y);
  if (tile < 0) return null;
  const outline = polygonOf(patch, tile, x0, y0), corner = nearestCorner(outline, x, y);
  return {
    ...patch.tile(tile),
    name: patch.address(tile),
    outline,
    edges: edgesOf(patch, tile, x0, y0),
    corner,
    star: starAt(drawable, look, patch, patch.corners()[tile * patch.most + corner], x0, y0),
  };
}

export const polygonOf = (patch, tile, x0, y0) => patch.polygon(tile).map(([x, y]) => [x - x0, y - y0]);

const middleOf = (polygon) =>
    [0, 1].map((i) => polygon.reduce((sum, place) => sum + place[i], 0) / polygon.length);

/** For each edge the tile across it: its address, outline and middle. */
function edgesOf(patch, tile, x0, y0) {
  const { most } = patch, near = patch.neighbours();
  return Array.from({ length: patch.counts[tile] }, (_, edge) => {
    const other = near[tile * most + edge];
    if (other < 0) return null;
    const outline = polygonOf(patch, other, x0, y0);
    return { name: patch.address(other), outline, middle: middleOf(outline) };
  });
}

function nearestCorner(outline, x, y) {
  const far = outline.map((corner) => Math.hypot(corner[0] - x, corner[1] - y));
  return far.indexOf(Math.min(...far));
}

/** The star at a vertex of a patch; null at its rim. */
export function starAt(drawable, look, patch, vertex, x0, y0) {
  const number = starsOf(drawable, patch, look.isWhole)[vertex];
  if (number < 0) return null;
  const corners = patch.corners(), tiles = [];
  for (let i = 0; i < corners.length; i++) if (corners[i] === vertex) tiles.push(Math.floor(i / patch.most));
  const classes = classesIn(drawable, patch, look.by, look.isWhole),
      exact = [...patch.vertices().subarray(4 * vertex, 4 * vertex + 4)];
  const [x, y] = drawable.place(exact);
  return {
    number,
    point: exact,
    place: [x - x0, y - y0],
    tiles: tiles.map((tile) => ({ kind: patch.kinds[tile], class: classes[tile],
        outline: polygonOf(patch, tile, x0, y0) })),
  };
}

/** The outline of the supertile of the chosen level that has the tile at x, y, or the half of a tile: a list
 * of lines. */
export function supertileAt(drawable, look, { at, x, y }) {
  const [x0, y0] = drawable.place(at), frame = { ...look, at, base: drawable.deepBase(look) };
  const window = drawable.window(frame, x, y, drawable.reach, drawable.reach),
      tile = window.find(x0 + x, y0 + y);
  return tile < 0 ? [] : supertileLines(drawable, { ...look, isWhole: false }, window.chosen([tile]), at);
}
