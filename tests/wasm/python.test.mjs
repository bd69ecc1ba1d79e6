// A board of js/pagnetuf.js, beside that of the Python package, which has more, and computes corners, vertices, neighbours
// and stars by code of its own. It is skipped where Python has no numpy, or finds no engine. node --test tests/wasm/*.test.mjs
import assert from "node:assert/strict";
import { spawnSync } from "node:child_process";
import { readFileSync } from "node:fs";
import { test } from "node:test";
import { Engine } from "../../js/pagnetuf.js";

const top = new URL("../../", import.meta.url);
const engine = await Engine.load(process.env.TILING_WASM ?? new URL(".tiling/tiling.wasm", top));
const env = { ...process.env, PYTHONPATH: new URL("python", top).pathname, PYTHONDONTWRITEBYTECODE: "1" };
const [python] = ["python3", "/usr/bin/python3"].filter((it) => spawnSync(it, ["-c", "import numpy"]).status === 0);
const board = (...words) => spawnSync(python, ["-m", "pagnetuf", "board", ...words], { env, encoding: "utf8", maxBuffer: 1 << 28 });

// What a board has of another, which may have more keys.
function partOf(theirs, mine) {
  if (Array.isArray(mine)) return theirs.map((it, i) => partOf(it, mine[i]));
  if (mine === null || typeof mine !== "object") return theirs;
  return Object.fromEntries(Object.keys(mine).map((key) => [key, partOf(theirs[key], mine[key])]));
}

// The addresses of the tiles that the command of a board lists.
function listedBy(command) {
  const [, ...words] = command.split(" ").map((word) => word.replace("layers=svg,list", "layers=list"));
  const addressOf = (tile) => tile.split(" ")[3];
  return engine.call(words).trim().split("\n").map((line) => line.split(" + ").map(addressOf).join(" + "));
}

test("boards have what those of the Python package have", (t) => {
  if (!python || board("p3", "--half", "3,3").status) return t.skip("there is no Python with numpy and an engine");
  for (const [rule, half, seed] of [["p3", [12, 8], 5], ["p2", [7, 9], 6], ["ab", [10, 6], 7], ["chair", [9, 9], 8], ["rules/sphinx.toml", [9, 7], 9]]) {
    const tiling = engine.open(rule.includes(".") ? readFileSync(new URL(rule, top)) : rule);
    for (const halves of tiling.hasHalves ? [[], ["--halves"]] : [[]]) {
      const { stdout } = board(rule, "--half", half.join(), "--seed", String(seed), ...halves);
      const window = tiling.window({ half, seed }), patch = halves.length ? window : window.whole();
      const { made_by: command, ...found } = JSON.parse(JSON.stringify(patch));
      assert.deepEqual(found, partOf(JSON.parse(stdout), found), rule);
      if (tiling.name !== "-") assert.deepEqual(found.tiles.map((tile) => tile.address), listedBy(command));
    }
  }
  return undefined;
});
