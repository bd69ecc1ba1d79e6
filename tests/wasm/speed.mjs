// How long tiling.wasm takes for what speed.c measures, in Node: node tests/wasm/speed.mjs WASM ROUNDS. A page has this
// file's text without its exports and without its last lines; see speed.sh.

export async function measured(bytes, rounds) {
  const begin = performance.now();
  const module = await WebAssembly.compile(bytes);
  const compiled = performance.now() - begin;
  const { exports } = await WebAssembly.instantiate(module, {}), most = 200000;
  const [slot, text, frame, window, tiles, addrs, tile] = [16, 16, 144, 40, 40 * most, 130 * most, 40].map((size) => exports.take(size) >>> 0);
  const u8 = new Uint8Array(exports.memory.buffer), read = (at) => new Uint32Array(exports.memory.buffer)[at >> 2];
  u8.set([112, 51], text);
  exports.tiling_open(text, 2, slot);
  const machine = read(slot);
  u8.fill(0, frame, frame + 144);
  u8[frame] = 42; // (the seed)
  u8.fill(0, window, window + 40);
  u8.set([5, 1, 5, 1], window + 32); // 261, 261
  const named = () => exports.tiling_cover(machine, frame, window, tiles, most, addrs, most, slot);
  named();
  const count = read(slot);
  const calls = {
    cover: () => exports.tiling_cover(machine, frame, window, tiles, most, addrs, 0, slot),
    "with addresses": named,
    neighbour: () => {
      for (let i = 0, at = addrs; i < count; i++, at += 130) exports.tiling_neighbour(machine, at, i & 3, slot, slot + 1);
    },
    place: () => {
      for (let i = 0, at = addrs; i < count; i++, at += 130) exports.tiling_place(machine, at, tile);
    },
  };
  const told = Object.entries(calls).map(([name, call]) => {
    const times = Array.from({ length: rounds }, () => {
      named();
      const begun = performance.now();
      call();
      return performance.now() - begun;
    }).sort((a, b) => a - b);
    const isEach = name === "neighbour" || name === "place", said = (time) => (isEach ? (time * 1e6) / count : time).toFixed(1);
    return `${name} ${said(times[rounds >> 1])} ${isEach ? "ns" : "ms"} (${said(times[0])})`;
  });
  return `${count} tiles; ${told.join("; ")}; compiled in ${compiled.toFixed(1)} ms`;
}

const { readFileSync } = await import("node:fs");
console.log(`Node: ${await measured(readFileSync(process.argv[2]), Number(process.argv[3] ?? 15))}`);
