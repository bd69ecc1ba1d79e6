// What checks/wasm.sh runs over tiling.wasm, in Node and in browsers: calls of the command, and the random calls of
// random.c, compiled for WebAssembly. A page has this file's text without its exports.

// An instance of a module that has its memory, and reads of it.
export async function instanceOf(bytes) {
  const { instance, module } = await WebAssembly.instantiate(bytes, {});
  const { exports } = instance;
  const u8 = () => new Uint8Array(exports.memory.buffer);
  const taken = (size) => {
    const at = exports.take(size) >>> 0;
    if (!at) throw new Error(`there is no memory for ${size} bytes`);
    return at;
  };
  const put = (data) => {
    const at = taken(data.length + 1);
    u8().set(data, at);
    return at;
  };
  const size = (at) => new DataView(exports.memory.buffer).getUint32(at, true);
  return { exports, module, u8, taken, put, size };
}

// The parts of a file of calls: pairs of arguments and input.
export function callsOf(file) {
  const view = new DataView(file.buffer, file.byteOffset, file.length), parts = [];
  for (let at = 0; at < file.length; ) {
    const length = view.getUint32(at, true);
    parts.push(file.subarray(at + 4, at + 4 + length));
    at += 4 + length;
  }
  return Array.from({ length: parts.length / 2 }, (_, i) => [parts[2 * i], parts[2 * i + 1]]);
}

// The answers of calls, as calls.c writes them: a list of pieces.
export function answersOf(engine, calls) {
  const { exports, u8, taken, put, size } = engine, room = 1 << 26, noteRoom = 4096, out = [];
  const at = taken(room), note = taken(noteRoom), sizes = taken(16);
  for (const [words, input] of calls) {
    u8().fill(0, sizes, sizes + 16);
    const wordsAt = put(words), inputAt = put(input);
    const status = exports.tiling_call(wordsAt, words.length, inputAt, input.length, at, room, sizes, note, noteRoom, sizes + 8);
    exports.give(wordsAt);
    exports.give(inputAt);
    out.push(Uint8Array.of(status), ...piece(engine, at, size(sizes)), ...piece(engine, note, size(sizes + 8)));
  }
  exports.give(at);
  exports.give(note);
  exports.give(sizes);
  return out;
}

function piece({ u8 }, at, length) {
  return [new Uint8Array(Uint32Array.of(length).buffer), u8().slice(at, at + length)];
}

export function joined(pieces) {
  const all = new Uint8Array(pieces.reduce((sum, it) => sum + it.length, 0));
  let at = 0;
  for (const it of pieces) {
    all.set(it, at);
    at += it.length;
  }
  return all;
}

// The random calls: random.wasm lies in the memory of the engine, from 16 MiB on, and calls its exports.
export async function randomReport(engine, random, files, rounds) {
  const { exports, u8, taken, put } = engine, begin = 16 << 20, end = 32 << 20;
  if (taken(end) > begin) throw new Error("there is no place for random.wasm");
  const { instance } = await WebAssembly.instantiate(random, { env: exports });
  for (const file of files) instance.exports.give_file(put(file), file.length);
  const at = instance.exports.run(rounds), bytes = u8();
  if (at < begin) throw new Error("random.wasm lies elsewhere");
  return new TextDecoder().decode(bytes.subarray(at, bytes.indexOf(0, at)));
}

// The digest of bytes as text. (crypto.subtle is there for pages from files too.)
export async function digestOf(bytes) {
  const digest = new Uint8Array(await crypto.subtle.digest("SHA-256", bytes));
  return Array.from(digest, (byte) => byte.toString(16).padStart(2, "0")).join("");
}
