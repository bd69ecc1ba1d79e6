// Runs the comparisons of harness.mjs in Node:
//   node tests/wasm/run.mjs calls WASM CALLS ANSWERS               writes the answers
//   node tests/wasm/run.mjs random WASM RANDOM_WASM CALLS FILE..   prints the report of so many random calls
import { readFileSync, writeFileSync } from "node:fs";
import { answersOf, callsOf, instanceOf, joined, randomReport } from "./harness.mjs";

const [what, wasm, ...rest] = process.argv.slice(2);
const engine = await instanceOf(readFileSync(wasm));
const imports = WebAssembly.Module.imports(engine.module).length;
if (imports) throw new Error(`the module has ${imports} imports`);
if (what === "calls") {
  const [calls, answers] = rest;
  writeFileSync(answers, joined(answersOf(engine, callsOf(readFileSync(calls)))));
} else {
  const [random, count, ...files] = rest;
  process.stdout.write(await randomReport(engine, readFileSync(random), files.map((file) => readFileSync(file)), Number(count)));
}
