// Writes a board of 60 of Penrose's rhombs as `board = ..`, by js/pagnetuf.js. The engine is the one that TILING_WASM names,
// or .tiling/tiling.wasm, or the one inside docs/explore.html:
//   node tests/wasm/board.mjs > board.js
import { existsSync, readFileSync } from "node:fs";
import { fileURLToPath } from "node:url";
import { gunzipSync } from "node:zlib";
import { Engine } from "../../js/pagnetuf.js";

const top = new URL("../../", import.meta.url);

function inPage() {
  const page = readFileSync(new URL("docs/explore.html", top), "latin1");
  const [, form, text] = /<script[^>]* id="tiling-wasm"([^>]*)>([^<]*)<\/script>/.exec(page);
  const bytes = Buffer.from(text, "base64");
  return /data-form="gzip"/.test(form) ? gunzipSync(bytes) : bytes;
}

const built = [process.env.TILING_WASM, fileURLToPath(new URL(".tiling/tiling.wasm", top))].find((it) => it && existsSync(it));
const engine = await Engine.load(built ? readFileSync(built) : inPage());
const board = engine.open("p3").window({ half: [20, 12] }).whole().connected(60);
process.stdout.write(`board = ${JSON.stringify(board)};\n`);
