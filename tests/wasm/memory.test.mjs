// Tests of the memory of tiling.wasm: the heap of wasm/heap.c, and running out of memory. node --test tests/wasm/*.test.mjs
import assert from "node:assert/strict";
import { readFileSync } from "node:fs";
import { test } from "node:test";
import { instanceOf } from "./harness.mjs";

const top = new URL("../../", import.meta.url);
const wasm = readFileSync(process.env.TILING_WASM ?? new URL(".tiling/tiling.wasm", top));
const sphinx = readFileSync(new URL("rules/sphinx.toml", top));
const OK = 0, NO_MEMORY = 11;
const DRAW = Buffer.from("draw\nrule=p3\naddr=0:\nat=0,0,0,0\nhalf=9,9\nlayers=svg,list");

function chance(seed) {
  let state = seed;
  return (most) => {
    state = (Math.imul(state, 1664525) + 1013904223) >>> 0;
    return Math.floor((state / 2 ** 32) * most);
  };
}

test("blocks are 16-aligned, apart, keep what is in them, and come back whole", async () => {
  const { exports, u8 } = await instanceOf(wasm), any = chance(5), blocks = new Map();
  const first = exports.take(40 << 20);
  exports.give(first);
  const full = exports.memory.buffer.byteLength;
  for (let round = 0; round < 60000; round++) {
    if (blocks.size > 300 || (blocks.size && any(2))) {
      const [at, { size, byte }] = [...blocks][any(blocks.size)], bytes = u8();
      for (const spot of [0, size >> 1, size - 1]) assert.equal(bytes[at + spot], byte);
      exports.give(at);
      blocks.delete(at);
      continue;
    }
    const size = 1 + any(2 ** (1 + any(17))), at = exports.take(size) >>> 0, byte = any(256);
    assert.ok(at && at % 16 === 0);
    u8().fill(byte, at, at + size);
    blocks.set(at, { size, byte });
  }
  const ends = [...blocks].map(([at, { size }]) => [at, at + size]).sort((a, b) => a[0] - b[0]);
  for (let i = 1; i < ends.length; i++) assert.ok(ends[i - 1][1] <= ends[i][0]);
  for (const at of blocks.keys()) exports.give(at);
  assert.equal(exports.take(40 << 20), first);
  assert.equal(exports.memory.buffer.byteLength, full);
  assert.equal(exports.take(0x7fffffff), 0);
  assert.equal(exports.take(0xffffffff), 0);
});

// An engine with p3, whose memory is full, except for one block that is given back and taken again.
async function fullEngine(reserve) {
  const engine = await instanceOf(wasm), { exports, taken, put, size, u8 } = engine, slot = taken(16);
  assert.equal(exports.tiling_open(put(Buffer.from("p3")), 2, slot), OK);
  const own = {
    machine: size(slot), slot, file: put(sphinx), frame: taken(144), window: taken(40), tiles: taken(40 * 999), names: taken(130 * 999),
    wholes: taken(344 * 999), sizes: taken(16), text: taken(1 << 16), words: put(DRAW), listed: taken(40 * 999), listedNames: taken(130 * 999),
  };
  u8().fill(0, own.frame, own.frame + 144);
  u8().fill(0, own.window, own.window + 40);
  u8().set([9, 0, 9, 0], own.window + 32);
  assert.equal(exports.tiling_cover(own.machine, own.frame, own.window, own.listed, 999, own.listedNames, 999, own.sizes), OK);
  own.count = size(own.sizes);
  const block = taken(reserve);
  for (let step = 1 << 30; step >= 1; step >>= 1) while (exports.take(step)) continue;
  assert.equal(exports.memory.buffer.byteLength, 2 ** 32);
  return { ...engine, own, block };
}

// The calls that take memory, with what each fills.
function callsOf({ exports, own, u8 }) {
  const { machine, slot, file, frame, window, tiles, names, wholes, sizes, text, words, listed, listedNames, count } = own;
  const clean = () => {
    const bytes = u8();
    for (const [at, size] of [[tiles, 40 * 999], [names, 130 * 999], [wholes, 344 * 999], [sizes, 16], [text, 1 << 16]]) bytes.fill(7, at, at + size);
  };
  const filled = () => [u8().slice(tiles, tiles + 40 * 999), u8().slice(wholes, wholes + 344 * 999), u8().slice(sizes, sizes + 16), u8().slice(text, text + (1 << 16))];
  const calls = {
    cover: () => exports.tiling_cover(machine, frame, window, tiles, 999, names, 999, sizes),
    glue: () => exports.tiling_glue(machine, frame, window, wholes, 999, sizes),
    verify: () => exports.tiling_verify(machine, frame, window, listed, count, listedNames, count, sizes, sizes + 8),
    call: () => exports.tiling_call(words, DRAW.length, file, 0, text, 60000, sizes, text + 60000, 999, sizes + 8),
    open_file: () => exports.tiling_open_file(file, sphinx.length, slot, text, 999, sizes),
  };
  return { calls, clean, filled };
}

test("a call that runs out of memory is NO_MEMORY, changes nothing, and loses nothing", async () => {
  const reserve = 8 << 20, engine = await fullEngine(reserve), { exports, block } = engine, { calls, clean, filled } = callsOf(engine);
  const right = {}, refused = {}, answered = {};
  for (const name of ["cover", "glue", "verify", "call"]) {
    exports.give(block);
    clean();
    right[name] = [calls[name](), filled()];
    assert.equal(exports.take(reserve) >>> 0, block);
    refused[name] = answered[name] = 0;
    for (let left = 16; left < reserve / 2; left = Math.ceil(left * 1.13) + 16) {
      exports.give(block);
      assert.equal(exports.take(reserve - left) >>> 0, block);
      clean();
      const before = filled(), status = calls[name]();
      if (status === NO_MEMORY) refused[name]++;
      else answered[name]++;
      assert.deepEqual([status, filled()], status === NO_MEMORY ? [NO_MEMORY, before] : right[name]);
      exports.give(block);
      assert.equal(exports.take(reserve) >>> 0, block, `${name} lost memory where ${left} bytes were left`);
    }
    assert.ok(refused[name] > 5 && answered[name] > 5, `${name}: ${refused[name]} refused, ${answered[name]} answered`);
  }
  for (const [status] of Object.values(right)) assert.equal(status, OK);
});

test("a machine that there is no memory for is NO_MEMORY, and takes none", async () => {
  const reserve = 8 << 20, engine = await fullEngine(reserve), { exports, block, own } = engine, { calls } = callsOf(engine);
  let refused = 0, status = NO_MEMORY, left = 16;
  for (; status === NO_MEMORY; left = Math.ceil(left * 1.13) + 16) {
    exports.give(block);
    assert.equal(exports.take(reserve - left) >>> 0, block);
    status = calls.open_file();
    refused += status === NO_MEMORY;
    exports.give(block);
    if (status === NO_MEMORY) assert.equal(exports.take(reserve) >>> 0, block);
  }
  assert.equal(status, OK);
  assert.ok(refused > 20);
  assert.equal(exports.tiling_kinds(engine.size(own.slot)), 2);
});
