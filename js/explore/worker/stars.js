// The vertex stars of a view, each with how often it occurs and the nearest place that has it.
import { starAt } from "./near.js";
import { starsOf } from "./tilings.js";

const MOST = 20000; // tiles: of a larger view the part in the middle is counted

export function starsIn(drawable, look, { at, x, y, width, height }) {
  const shrink = Math.min(1, Math.sqrt(MOST / (drawable.density * width * height)));
  const window = drawable.window({ ...look, at }, x, y, width * shrink, height * shrink);
  const patch = drawable.patchOf(window, look.isWhole), [x0, y0] = drawable.place(at);
  const stars = starsOf(drawable, patch, look.isWhole),
      nearest = nearestOf(drawable, patch, stars, x0 + x, y0 + y);
  const total = stars.filter((star) => star >= 0).length;
  return [...nearest.values()]
    .sort((a, b) => b.count - a.count)
    .map(({ vertex, count }) => ({
        ...starAt(drawable, look, patch, vertex, x0, y0), count, share: count / total }));
}

/** For each star the vertex nearest to a place that has it, and how many have it. */
function nearestOf(drawable, patch, stars, x, y) {
  const places = drawable.place(patch.vertices()), found = new Map();
  stars.forEach((star, vertex) => {
    if (star < 0) return;
    const far = Math.hypot(places[2 * vertex] - x, places[2 * vertex + 1] - y), best = found.get(star);
    if (!best) found.set(star, { vertex, far, count: 1 });
    else Object.assign(best, far < best.far ? { vertex, far } : {}, { count: best.count + 1 });
  });
  return found;
}
