// Tests of the package: npm pack, npm install of that file without network in an empty folder, and there the examples of
// docs/JAVASCRIPT.md, each beside what it prints. node --test tests/wasm/*.test.mjs
import assert from "node:assert/strict";
import { execFileSync } from "node:child_process";
import { cpSync, mkdtempSync, readFileSync, readdirSync, rmSync, writeFileSync } from "node:fs";
import { tmpdir } from "node:os";
import { join } from "node:path";
import { after, test } from "node:test";

const top = new URL("../../", import.meta.url), folder = mkdtempSync(join(tmpdir(), "pagnetuf-"));
const wasm = process.env.TILING_WASM ?? new URL(".tiling/tiling.wasm", top).pathname;
const run = (cwd, command, ...words) => execFileSync(command, words, { cwd, encoding: "utf8", env: { ...process.env, TILING_WASM: wasm }, stdio: ["ignore", "pipe", "pipe"] });
after(() => rmSync(folder, { recursive: true, force: true }));
// (packed in a copy, since npm pack puts files into js/ for as long as it runs)
const copy = join(folder, "copy");
for (const part of ["js", "packaging", "rules", "docs/JAVASCRIPT.md"]) cpSync(new URL(part, top), join(copy, part), { recursive: true });

test("npm pack has the module, the types, the engine and the rule files, and takes its copies away", () => {
  const [{ files, filename }] = JSON.parse(run(join(copy, "js"), "npm", "pack", "--json", "--pack-destination", folder));
  const paths = files.map((it) => it.path);
  for (const path of ["pagnetuf.js", "pagnetuf.d.ts", "package.json", "README.md", "tiling.wasm", "rules/sphinx.toml"]) assert.ok(paths.includes(path), path);
  assert.equal(paths.filter((it) => it.startsWith("rules/")).length, readdirSync(new URL("rules/", top)).filter((it) => it.endsWith(".toml")).length);
  assert.deepEqual(readdirSync(join(copy, "js")).filter((it) => /wasm|rules|README/.test(it)), []);
  run(folder, "npm", "init", "-y");
  run(folder, "npm", "install", "--offline", "--no-audit", "--no-fund", `./${filename}`);
  const installed = readFileSync(join(folder, "node_modules/pagnetuf/tiling.wasm"));
  assert.ok(installed.equals(readFileSync(wasm)));
});

test("the first minute's commands of docs/JAVASCRIPT.md install the package, as they stand there", () => {
  const page = readFileSync(new URL("docs/JAVASCRIPT.md", top), "utf8"), [, commands] = /## The first minute\n\n((?: {4}.*\n)+)/.exec(page);
  run(copy, "env", "npm_config_offline=true", "npm_config_audit=false", "sh", "-ec", commands);
  const installed = join(copy, "my-game/node_modules/pagnetuf");
  writeFileSync(join(copy, "my-game/files.mjs"), `import { Engine, ruleFile } from "pagnetuf";
    const engine = await Engine.load(), tilings = await Promise.all(Engine.ruleFiles.map((name) => engine.openFile(name)));
    console.log(tilings.length, ruleFile("sphinx").href.endsWith("/pagnetuf/rules/sphinx.toml"));`);
  assert.equal(run(join(copy, "my-game"), "node", "files.mjs"), `${readdirSync(join(installed, "rules")).length} true\n`);
});

test("the examples of docs/JAVASCRIPT.md print what stands below them", () => {
  const page = readFileSync(new URL("docs/JAVASCRIPT.md", top), "utf8");
  const examples = [...page.matchAll(/^```js\n([\s\S]*?)^```\n(?:\n```text\n([\s\S]*?)^```\n)?/gm)];
  assert.ok(examples.length >= 3);
  for (const [i, [, code, printed]] of examples.entries()) {
    writeFileSync(join(folder, `example${i}.mjs`), code);
    assert.equal(run(folder, "node", `example${i}.mjs`), printed ?? "", code);
  }
  const board = JSON.parse(readFileSync(join(folder, "board.json"), "utf8"));
  assert.equal(board.tiles.length, 60);
  assert.equal(readFileSync(join(folder, "board.svg"), "utf8").match(/<polygon /g).length, 60);
});
