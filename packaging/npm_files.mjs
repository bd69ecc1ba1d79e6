// Puts what the package for JavaScript has beside js/pagnetuf.js into js/, before `npm pack`, and takes it away after:
//   node packaging/npm_files.mjs [--remove]
// These are tiling.wasm, the rule files, and docs/JAVASCRIPT.md as README.md. The module is the one that TILING_WASM
// names, or .tiling/tiling.wasm, or the one inside docs/explore.html, so that a package can be made without a build.
import { copyFileSync, existsSync, mkdirSync, readFileSync, readdirSync, rmSync, writeFileSync } from "node:fs";
import { gunzipSync } from "node:zlib";

const top = new URL("../", import.meta.url), js = new URL("js/", top);
const made = ["tiling.wasm", "rules", "README.md"];

// The module inside the page.
function embedded(page) {
  const found = /<script[^>]* id="tiling-wasm"([^>]*)>([^<]*)<\/script>/.exec(readFileSync(page, "latin1"));
  if (!found) return null;
  const bytes = Buffer.from(found[2], "base64");
  return /data-form="gzip"/.test(found[1]) ? gunzipSync(bytes) : bytes;
}

function moduleBytes() {
  const places = [process.env.TILING_WASM, new URL(".tiling/tiling.wasm", top)];
  const built = places.find((place) => place && existsSync(place)), page = new URL("docs/explore.html", top);
  const bytes = built ? readFileSync(built) : existsSync(page) && embedded(page);
  if (!bytes) throw new Error("there is no tiling.wasm: ./tiling --build makes it, and docs/explore.html has none inside");
  return bytes;
}

// A page of docs/ outside the repository: what it links to isn't there.
const withoutLinks = (text) => text.replace(/\[([^\]]*)\]\((?!https?:)[^)]*\)/g, "$1");

for (const name of made) rmSync(new URL(name, js), { recursive: true, force: true });
if (process.argv[2] !== "--remove") {
  writeFileSync(new URL("tiling.wasm", js), moduleBytes());
  mkdirSync(new URL("rules/", js));
  for (const name of readdirSync(new URL("rules/", top)).filter((it) => it.endsWith(".toml"))) {
    copyFileSync(new URL(`rules/${name}`, top), new URL(`rules/${name}`, js));
  }
  writeFileSync(new URL("README.md", js), withoutLinks(readFileSync(new URL("docs/JAVASCRIPT.md", top), "utf8")));
}
