// pagnetuf.js: aperiodic substitution tilings, exactly, for JavaScript, over the engine in tiling.wasm. pagnetuf.d.ts
// says what each call takes and gives; docs/JAVASCRIPT.md begins with twenty lines that run.
//
// `Memory` is an instance of the module with its memory, and knows the layout of include/tiling.h. `Engine`, `Tiling`,
// `Patch`, `Window` and `WholePatch` are what people use. A call writes its arguments into the scratch of its instance,
// and a refusal is thrown as a `Refusal`, with the line that the command would print.

const ABI = 2;
const BUILT_IN = Object.freeze(["chair", "p2", "p3", "ab", "halfhex"]);
const RULE_FILES = Object.freeze(`
  ammann_beenker ammann_beenker_mirrored chair chair_squares domino_table equithirds fibonacci_rhombs half_chair
  half_hex half_hex_halves half_square_four half_square_turned half_square_two half_triangle_three
  l_tetromino_four p_pentomino_four paper_rectangle_two parallelogram_two penrose_p1 penrose_p2 penrose_p3
  period_doubling_squares quadrant_chair rectangle_four rectangle_three rhomb_eight_four rhomb_six_four
  rhomb_ten_four right_triangle_four robinson_kite_halves robinson_rhomb_halves robinson_rhomb_turned
  rudin_shapiro_squares silver_mean_squares sphinx sphinx_nine square_four square_nine squiral_squares
  table_squares thue_morse_squares triangle_four triangle_nine tromino_nine tuebingen_triangles
`.trim().split(/\s+/));
const MOST_TILES = 200000;
const MOST_DIGITS = 64;
const LONGEST_SHOWN = 400; // characters of a value in a message: an address of 64 digits is shown
const FARTHEST = 2 ** 24; // a coefficient of what is computed
const NAMES = {
  1: "NotText", 2: "BadWords", 3: "RuleRefused", 4: "BadAddress", 5: "DepthLimit", 6: "CoordLimit", 7: "TooManyTiles",
  8: "Outside", 11: "NoMemory", 12: "NoEdge", 13: "BadScript", 15: "NoVertex", 16: "StarTooBig", 17: "BadListing",
};
const SENTENCES = {
  NotText: "an argument isn't text",
  BadWords: "an argument is unknown, malformed or out of range",
  RuleRefused: "the rule file has this fault, which docs/TUTORIAL.md explains",
  RuleTooLong: "a rule file has at most 1,048,576 bytes",
  BadAddress: "this is not the address of a tile of the rule",
  DepthLimit: "at depth 64 an edge that must be crossed is still on the boundary",
  CoordLimit: "too far out for coordinates; for a window another seed may help",
  TooManyTiles: "more than 200,000 tiles meet the window",
  Outside: "the edge, or the point, isn't inside the supertile",
  NoMemory: "memory ran out",
  NoEdge: "the tile has no such edge",
  BadScript: "a line of the script has a fault",
  NoVertex: "the tile has no such vertex",
  StarTooBig: "more than 64 tiles have the vertex",
  BadListing: "the listing is not that of the window",
};
const OK = 0, NOT_TEXT = 1, BAD_WORDS = 2, RULE_REFUSED = 3, BAD_ADDRESS = 4, COORD_LIMIT = 6, OUTSIDE = 8;
const NO_MEMORY = 11, NO_EDGE = 12, NO_VERTEX = 15, BAD_LISTING = 17;
const RELATIONS = ["strangers", "same", "apart", "beside"];
const FAULTS = ["", "NoTile", "NotOfFrame", "Double", "Missing", "WrongPlace", "Stray"];
const MISSING = 4, NO_BACK = 255;

// The sizes and places of the header's structs, in bytes
const ADDRESS = 130, TILE = 40, WHOLE = 344, CROSSING = 3, EDGE_TYPE = 10, KIND = 1048, RULE = 17144;
const IN_TILE = { status: 32, kind: 33, turn: 34, number: 35 };
const IN_WHOLE = { second: TILE, address: 2 * TILE, other: 2 * TILE + ADDRESS, parts: 2 * TILE + 2 * ADDRESS };
const IN_KIND = { children: 392, edges: 1032, childCount: 1044 };
const IN_RULE = {
  kinds: 32, types: 16800, glue: 17120, format: 17136, kindCount: 17138, typeCount: 17139, glueCount: 17140,
};
const IN_STAR = { addresses: 64 * TILE, count: 64 * (TILE + ADDRESS) };
// The scratch of an instance: a place for each kind of argument and answer
const LONGEST = 1024;
const SCRATCH = {
  slot: 0, sizes: 16, address: 32, other: 176, tile: 320, top: 368, point: 416, frame: 448, window: 592, outline: 640,
  text: 1040, star: 2064, bytes: 2064 + 10896,
};

const encoder = new TextEncoder(), decoder = new TextDecoder();

export class Refusal extends Error {
  constructor(line, more = "") {
    const [status, name, ...fields] = line.split(" ");
    super(`${line}: ${SENTENCES[name] ?? "the engine refused"}${more && `: ${more}`}`);
    this.name = name;
    this.line = line;
    this.status = Number(status);
    this.fields = fields.map((field) => (/^-?\d{1,15}$/.test(field) ? Number(field) : field));
  }
}

// ---- values that people pass ------------------------------------------------------------------------------------

// A value as a message shows it.
function shown(value) {
  if (typeof value === "function") return "a function";
  if (typeof value === "bigint") return `${value}n`;
  if (typeof value === "string") return JSON.stringify(shortened(value));
  return shortened(Array.isArray(value) ? `[${value.map(shown)}]` : String(value));
}

const shortened = (text) => (text.length > LONGEST_SHOWN ? `${text.slice(0, LONGEST_SHOWN)}..` : text);

function whole(value, what) {
  if (!Number.isSafeInteger(value)) throw new TypeError(`${what} is a whole number, and not ${shown(value)}`);
  return value;
}

function finite(value, what) {
  if (!Number.isFinite(value)) throw new TypeError(`${what} is a number, and not ${shown(value)}`);
  return value;
}

// Options, whose names must be known. A window stands for its own.
function known(options, names, call) {
  if (options instanceof Window) return { at: options.at, half: options.half, seed: options.seed, base: options.base };
  if (typeof options !== "object" || !options) {
    throw new TypeError(`the options of ${call} are an object, and not ${shown(options)}`);
  }
  const strange = Object.keys(options).find((name) => !names.includes(name));
  if (strange !== undefined) throw new TypeError(`${call} has no option ${strange}, but ${names.join(", ")}`);
  return options;
}

// A small number as the library takes it: one out of range is the greatest of its type, which the library refuses.
function small(value, what, most = 255) {
  return whole(value, what) < 0 || value > most ? most : value;
}

function fourOf(point, what) {
  if (point?.length !== 4) throw new TypeError(`${what} has four whole numbers, and is not ${shown(point)}`);
  return Array.from(point, (part) => whole(part, what) + 0);
}

// The two halves of a seed, as numbers of 32 bits.
function halvesOf(seed) {
  if (Number.isSafeInteger(seed) && seed >= 0) return [seed >>> 0, Math.floor(seed / 2 ** 32)];
  const isHalf = (it) => Number.isInteger(it) && it >= 0 && it < 2 ** 32;
  if (seed?.length === 2 && isHalf(seed[0]) && isHalf(seed[1])) return [seed[0], seed[1]];
  const forms = "a whole number from 0 to 2^53 - 1, or its halves of 32 bits, the low one first";
  throw new TypeError(`a seed is ${forms}, and not ${shown(seed)}`);
}

function seedText(seed) {
  const [low, high] = halvesOf(seed);
  return String((BigInt(high) << 32n) + BigInt(low));
}

const plus = (a, b) => Array.from(a, (part, i) => part + b[i]);

function halfOf(half) {
  if (half?.length !== 2) throw new TypeError(`half has two whole numbers, and is not ${shown(half)}`);
  return [whole(half[0], "half"), whole(half[1], "half")];
}

const isBytes = (address) => address instanceof Uint8Array;

// The text of an address as people gave it, for the line of a refusal; "" where none can be written.
function textOf(address) {
  if (typeof address === "string") return address;
  const { kind, digits } = isBytes(address) ? objectOf(address) : address;
  return `${kind}:${digits.map(({ child, parent }) => `${child}/${parent}`).join()}`;
}

// The argument of a command that a refusal is about, for its message; "" if it doesn't say which.
function blamed({ name, fields }, words) {
  if (name === "BadWords") return shortened(words[fields[0]] ?? "");
  const given = name === "BadAddress" ? words.find((word) => word.startsWith("addr=")) ?? "" : "";
  return shortened(given) + (given.includes(" + ") ? ", which are two halves, of which a call takes one" : "");
}

// The names that have at least half of another's pairs of letters, the nearest first.
function namesNear(name, names) {
  const pairs = Array.from({ length: Math.max(0, name.length - 1) }, (_, i) => name.slice(i, i + 2).toLowerCase());
  const score = (it) => pairs.filter((pair) => it.includes(pair)).length;
  return names.filter((it) => score(it) && 2 * score(it) >= pairs.length).sort((a, b) => score(b) - score(a));
}

function unknownRule(call, name) {
  const near = namesNear(name, RULE_FILES).slice(0, 5).join(", "), such = near && `, such as ${near}`;
  const files = `openFile takes a path, a URL, or a name of Engine.ruleFiles${such}`;
  return new Refusal("2 BadWords 1", `${call} knows no ${shown(name)}; open takes ${BUILT_IN.join(", ")}; ${files}`);
}

function objectOf(bytes) {
  const digit = (_, i) => ({ child: bytes[2 + 2 * i], parent: bytes[3 + 2 * i] });
  return { kind: bytes[0], digits: Array.from({ length: Math.min(bytes[1], MOST_DIGITS) }, digit) };
}

// ---- an instance and its memory ---------------------------------------------------------------------------------

class Memory {
  #bytes = new Uint8Array(0);
  #words = new Int32Array(0);
  #exports;

  constructor(instance) {
    this.#exports = instance.exports;
    const abi = this.#exports.tiling_abi();
    if (abi !== ABI) throw new TypeError(`tiling.wasm has the interface ${abi}, and this module needs ${ABI}`);
    this.scratch = this.take(SCRATCH.bytes);
    this.tiles = new Block(this);
    this.addresses = new Block(this);
    this.wholes = new Block(this);
  }

  get calls() {
    if (!this.#exports) throw new TypeError("the engine was closed");
    return this.#exports;
  }

  get isClosed() {
    return !this.#exports;
  }

  // (a call that takes memory may move it, so these are asked for anew after each)
  get bytes() {
    const { buffer } = this.calls.memory;
    return this.#bytes.buffer === buffer ? this.#bytes : (this.#bytes = new Uint8Array(buffer));
  }

  get words() {
    const { buffer } = this.calls.memory;
    return this.#words.buffer === buffer ? this.#words : (this.#words = new Int32Array(buffer));
  }

  close() {
    for (const block of [this.tiles, this.addresses, this.wholes]) block.settle();
    this.#exports = null;
    this.#bytes = this.#words = null;
  }

  take(size) {
    const at = this.calls.take(size) >>> 0;
    if (!at) throw new Refusal("11 NoMemory");
    return at;
  }

  give(at) {
    this.calls.give(at);
  }

  // Calls with the places of blocks of these sizes, which it has only as long.
  borrow(sizes, use) {
    const starts = [];
    let all = 0;
    for (const size of sizes) {
      starts.push(all);
      all += (size + 15) & ~15;
    }
    const at = this.take(all || 1);
    try {
      return use(...starts.map((start) => at + start));
    } finally {
      if (!this.isClosed) this.give(at);
    }
  }

  place(name) {
    return this.scratch + SCRATCH[name];
  }

  size(at) {
    return this.words[at >> 2] >>> 0;
  }

  copy(at, length) {
    return this.bytes.slice(at, at + length);
  }

  text(at, length) {
    return decoder.decode(this.bytes.subarray(at, at + length));
  }

  // Writes a text where there is room for it, and returns how many bytes it has; -1 where there isn't.
  putText(text, at, room) {
    const { bytes } = this, { length } = text;
    if (length > room) return -1;
    for (let i = 0; i < length; i++) {
      const code = text.charCodeAt(i);
      if (code > 127) {
        const { read, written } = encoder.encodeInto(text, bytes.subarray(at, at + room));
        return read < length ? -1 : written;
      }
      bytes[at + i] = code;
    }
    return length;
  }

  putLong(at, value) {
    const i = at >> 2;
    this.words[i] = value | 0;
    this.words[i + 1] = Math.floor(value / 2 ** 32);
  }

  putPoint(at, point) {
    for (let i = 0; i < 4; i++) this.putLong(at + 8 * i, point[i]);
    return at;
  }

  putTile(at, tile) {
    this.bytes.fill(0, at + 32, at + TILE);
    this.putPoint(at, fourOf(tile?.shift, "a shift"));
    this.bytes[at + IN_TILE.kind] = small(tile.kind, "a kind");
    this.bytes[at + IN_TILE.turn] = small(tile.turn, "a turn");
    return at;
  }

  tile(at) {
    const { bytes } = this;
    return { kind: bytes[at + IN_TILE.kind], turn: bytes[at + IN_TILE.turn], shift: this.point(at) };
  }

  putWindow(at, point, half) {
    this.putPoint(at, point);
    const [wide, high] = half.map((it) => (it < 0 || it > 65535 ? 0 : it));
    this.words[(at >> 2) + 8] = wide | (high << 16);
    return at;
  }

  point(at) {
    const { words } = this, i = at >> 2;
    return [words[i], words[i + 2], words[i + 4], words[i + 6]];
  }

  // The corners of an outline: four numbers each.
  outline(at) {
    const { words } = this, i = at >> 2;
    return Int32Array.from({ length: 4 * this.bytes[at + 384] }, (_, part) => words[i + 2 * part]);
  }

  edgeType(at) {
    const [mate, count] = this.bytes.subarray(at);
    return { mate, parts: Array.from(this.copy(at + 2, count)) };
  }

  kind(at) {
    const { bytes } = this, children = bytes[at + IN_KIND.childCount];
    return {
      vertices: this.outline(at),
      edges: Array.from(this.copy(at + IN_KIND.edges, bytes[at + 384])),
      children: Array.from({ length: children }, (_, i) => this.tile(at + IN_KIND.children + TILE * i)),
    };
  }

  rule(at) {
    const number = (name) => this.bytes[at + IN_RULE[name]];
    return {
      format: number("format"),
      factor: this.point(at),
      glue: Array.from(this.copy(at + IN_RULE.glue, number("glueCount"))),
      types: Array.from({ length: number("typeCount") }, (_, i) => this.edgeType(at + IN_RULE.types + EDGE_TYPE * i)),
      kinds: Array.from({ length: number("kindCount") }, (_, i) => this.kind(at + IN_RULE.kinds + KIND * i)),
    };
  }

  // Writes tiles one after the other.
  putTiles(at, { kinds, turns, shifts }) {
    for (let i = 0; i < kinds.length; i++) {
      const shift = [shifts[4 * i], shifts[4 * i + 1], shifts[4 * i + 2], shifts[4 * i + 3]];
      this.putTile(at + TILE * i, { kind: kinds[i], turn: turns[i], shift });
    }
  }
}

// Memory that one answer after another is put into. Who still reads an earlier one gets a copy before the next comes.
class Block {
  #memory;
  #lent = new Set();
  at = 0;
  size = 0;

  constructor(memory) {
    this.#memory = memory;
  }

  settle() {
    for (const reference of this.#lent) reference.deref()?.keep();
    this.#lent.clear();
  }

  // Has at least this many bytes, none of which anybody reads.
  room(size) {
    this.settle();
    if (size <= this.size) return this.at;
    if (this.at) this.#memory.give(this.at);
    this.at = this.size = 0;
    this.at = this.#memory.take(size);
    this.size = size;
    return this.at;
  }

  lend(count, size) {
    const records = new Records(this.#memory, this.at, count, size);
    this.#lent.add(new WeakRef(records));
    return records;
  }
}

// `count` records of `size` bytes, in the memory of the engine until they are kept.
class Records {
  #memory;
  #at;
  #kept = null;

  constructor(memory, at, count, size) {
    this.#memory = memory;
    this.#at = at;
    this.count = count;
    this.size = size;
  }

  keep() {
    if (!this.#memory) return;
    this.#kept = this.bytes().slice();
    this.#memory = null;
  }

  drop() {
    this.#memory = null;
  }

  bytes() {
    if (this.#kept) return this.#kept;
    if (!this.#memory) throw new TypeError("the numbers of this window were given up by free()");
    return this.#memory.bytes.subarray(this.#at, this.#at + this.count * this.size);
  }

  // The byte at a place of each record.
  column(place) {
    const bytes = this.bytes(), { count, size } = this, out = new Uint8Array(count);
    for (let i = 0, at = place; i < count; i++, at += size) out[i] = bytes[at];
    return out;
  }

  // The low halves of the four numbers of 64 bits at a place of each record.
  points(place) {
    const bytes = this.bytes(), { count, size } = this, step = size >> 2, out = new Int32Array(4 * count);
    const words = new Int32Array(bytes.buffer, bytes.byteOffset, bytes.length >> 2);
    for (let i = 0, at = place >> 2; i < count; i++, at += step) {
      out[4 * i] = words[at];
      out[4 * i + 1] = words[at + 2];
      out[4 * i + 2] = words[at + 4];
      out[4 * i + 3] = words[at + 6];
    }
    return out;
  }

  // Some bytes of each record.
  pieces(place, length) {
    const bytes = this.bytes(), { count, size } = this;
    if (!place && length === size) return bytes.slice();
    const out = new Uint8Array(count * length);
    for (let i = 0, at = place; i < count; i++, at += size) out.set(bytes.subarray(at, at + length), i * length);
    return out;
  }
}

// ---- where files are --------------------------------------------------------------------------------------------

const inNode = typeof process === "object" && !!process.versions?.node;

async function bytesAt(place) {
  const hasScheme = place instanceof URL || /^[a-z][a-z0-9+.-]+:/i.test(place);
  if (inNode && (!hasScheme || String(place).startsWith("file:"))) {
    const files = "node:fs/promises";
    const { readFile } = await import(/* webpackIgnore: true */ /* @vite-ignore */ files);
    return readFile(hasScheme ? new URL(place) : place);
  }
  const response = await fetch(place);
  if (!response.ok) throw new Error(`${place} can't be read: ${response.status}`);
  return new Uint8Array(await response.arrayBuffer());
}

// A file of the package; in a checkout it stands elsewhere.
async function bytesOfFirst(places) {
  let first;
  for (const place of places) {
    try {
      return await bytesAt(new URL(place, import.meta.url));
    } catch (trouble) {
      first ??= trouble;
    }
  }
  throw first;
}

// A rule file: that of the package with this name, or that at a URL or path.
async function ruleAt(file) {
  if (typeof file !== "string" && !(file instanceof URL)) {
    throw new TypeError(`openFile takes a name, a URL or a path, and not ${shown(file)}`);
  }
  const [, name, ending] = /^(\w*)(\.toml)?$/.exec(file) ?? [], isKnown = RULE_FILES.includes(name);
  const own = () => bytesOfFirst([`rules/${name}.toml`, `../rules/${name}.toml`]);
  if (name !== undefined && !ending) return isKnown ? own() : Promise.reject(unknownRule("openFile", name));
  return bytesAt(file).catch((trouble) => (isKnown ? own() : Promise.reject(trouble)));
}

async function moduleOf(source) {
  const given = await source;
  if (given === undefined) return bytesOfFirst(["tiling.wasm", "../.tiling/tiling.wasm"]);
  if (typeof given === "string" || given instanceof URL) return bytesAt(given);
  if (given?.ok === false) throw new Error(`${given.url || "the module"} can't be read: ${given.status}`);
  return typeof given?.arrayBuffer === "function" ? given.arrayBuffer() : given;
}

// An instance of tiling.wasm, of its bytes or of the compiled module.
async function instanceOf(module) {
  const wanted = "Engine.load takes a URL, a path, the bytes, a response or the compiled module of tiling.wasm";
  try {
    const made = await WebAssembly.instantiate(module, {}), instance = made.instance ?? made;
    if (instance.exports.tiling_abi) return instance;
  } catch (trouble) {
    const isWrong = [TypeError, WebAssembly.CompileError, WebAssembly.LinkError].some((it) => trouble instanceof it);
    throw isWrong ? new TypeError(`${wanted}: ${trouble.message}`) : trouble;
  }
  throw new TypeError(`${wanted}, and not another module`);
}

export function ruleFile(name) {
  return new URL(`rules/${name}.toml`, import.meta.url);
}

// ---- engine -----------------------------------------------------------------------------------------------------

const HIDDEN = Symbol("made by the module alone");

function mustBeHidden(word) {
  if (word !== HIDDEN) throw new TypeError("Engine.load makes engines, and they make the rest");
}

export class Engine {
  #memory;

  constructor(word, memory) {
    mustBeHidden(word);
    this.#memory = memory;
  }

  static builtIn = BUILT_IN;
  static ruleFiles = RULE_FILES;

  static async load(source) {
    return new Engine(HIDDEN, new Memory(await instanceOf(await moduleOf(source))));
  }

  open(rule) {
    const isName = typeof rule === "string" && !/[\n=]/.test(rule);
    return isName ? this.#openName(rule) : this.#openText(typeof rule === "string" ? encoder.encode(rule) : rule);
  }

  async openFile(file) {
    return this.open(await ruleAt(file));
  }

  #openName(name) {
    const memory = this.#memory, slot = memory.place("slot");
    const length = memory.putText(name, memory.place("text"), LONGEST);
    const status = length < 0 ? 2 : memory.calls.tiling_open(memory.place("text"), length, slot);
    if (status) throw status === NO_MEMORY ? new Refusal("11 NoMemory") : unknownRule("open", name);
    return new Tiling(HIDDEN, this, memory, memory.size(slot), name, null);
  }

  #openText(file) {
    if (!isBytes(file)) throw new TypeError("a rule is a name, or the text or the bytes of a rule file");
    const memory = this.#memory, [slot, sizes, line] = ["slot", "sizes", "text"].map((name) => memory.place(name));
    const status = memory.borrow([file.length], (at) => {
      memory.bytes.set(file, at);
      return memory.calls.tiling_open_file(at, file.length, slot, line, LONGEST, sizes);
    });
    if (status === RULE_REFUSED) throw new Refusal(memory.text(line, memory.size(sizes)).trim());
    if (status) throw new Refusal(`${status} ${NAMES[status]}`);
    return new Tiling(HIDDEN, this, memory, memory.size(slot), "-", file.slice());
  }

  call(words, input = "") {
    const list = typeof words === "string" ? words.split(" ") : Array.from(words, String);
    // (no argument of a call has a newline; a question mark is refused at the same place)
    const text = encoder.encode(list.map((word) => word.replaceAll("\n", "?")).join("\n"));
    const given = typeof input === "string" ? encoder.encode(input) : input;
    const memory = this.#memory;
    return memory.borrow([text.length, given.length, LONGEST], (wordsAt, inputAt, note) => {
      memory.bytes.set(text, wordsAt);
      memory.bytes.set(given, inputAt);
      try {
        return this.#answer([wordsAt, text.length, inputAt, given.length], note);
      } catch (refusal) {
        const word = blamed(refusal, list);
        if (word) refusal.message += `: ${word}`;
        throw refusal;
      }
    });
  }

  // Has the answer of a call whose arguments are in memory, first with usual room, and then with enough.
  #answer(given, note, room = 1 << 16) {
    const memory = this.#memory, sizes = memory.place("sizes");
    const found = memory.borrow([room], (out) => {
      const status = memory.calls.tiling_call(...given, out, room, sizes, note, LONGEST, sizes + 8);
      if (status === NOT_TEXT || status === NO_MEMORY) throw new Refusal(`${status} ${NAMES[status]}`);
      if (status) throw new Refusal(memory.text(note, memory.size(sizes + 8)).trim());
      const length = memory.size(sizes);
      return length > room ? length : memory.text(out, length);
    });
    return typeof found === "string" ? found : this.#answer(given, note, found);
  }

  close() {
    if (!this.closed) this.#memory.close();
  }

  get closed() {
    return this.#memory.isClosed;
  }

  get memoryBytes() {
    return this.#memory.bytes.length;
  }
}

// ---- a rule -----------------------------------------------------------------------------------------------------

const BOX = ["at", "half"], FRAME = ["seed", "base"];

export class Tiling {
  #memory;
  #machine;
  #file;
  #steps;
  #corners = [];
  #glue = [];
  #factor = null;

  constructor(word, engine, memory, machine, name, file) {
    mustBeHidden(word);
    this.engine = engine;
    this.name = name;
    this.#memory = memory;
    this.#machine = machine;
    this.#file = file;
    this.order = memory.calls.tiling_order(machine);
    this.kinds = memory.calls.tiling_kinds(machine);
    const angle = (2 * Math.PI) / this.order;
    this.#steps = Float64Array.from({ length: 8 }, (_, i) => (i % 2 ? Math.sin : Math.cos)((i >> 1) * angle));
    if (this.order === 4) this.#steps = Float64Array.of(1, 0, 0, 1, -1, 0, 0, -1);
  }

  // Throws the refusal of a status, with the line that the command prints for these arguments.
  #refuse(status, words) {
    if (status === NO_MEMORY || !words) throw new Refusal(`${status} ${NAMES[status]}`);
    this.engine.call(words.map((word) => (word === "rule" ? `rule=${this.name}` : word)), this.#file ?? "");
    throw new Refusal(`${status} ${NAMES[status]}`);
  }

  // Tiles of a patch must be of this rule, which may have been opened twice.
  #mustHave(tiles) {
    const other = tiles?.tiling;
    if (!other || other === this || (other.name === this.name && this.name !== "-")) return;
    if (JSON.stringify(other.rule()) === JSON.stringify(this.rule())) return;
    const of = ({ name }, which) => (name === "-" ? `${which} rule file` : name);
    throw new TypeError(`these tiles are of the tiling of ${of(other, "another")}, and not of ${of(this, "this")}`);
  }

  rule() {
    const memory = this.#memory;
    return memory.borrow([RULE], (at) => {
      memory.calls.tiling_rule(this.#machine, at);
      return { order: this.order, ...memory.rule(at) };
    });
  }

  // ---- kinds

  edges(kind) {
    const memory = this.#memory, slot = memory.place("slot");
    const status = memory.calls.tiling_edges(this.#machine, small(kind, "a kind"), slot);
    if (status) this.#refuse(status);
    return memory.bytes[slot];
  }

  prototile(kind) {
    const memory = this.#memory, outline = memory.place("outline");
    const status = memory.calls.tiling_prototile(this.#machine, small(kind, "a kind"), outline);
    if (status) this.#refuse(status);
    return memory.outline(outline);
  }

  glueEdge(kind) {
    const memory = this.#memory, slot = memory.place("slot");
    const status = memory.calls.tiling_glue_edge(this.#machine, small(kind, "a kind"), slot);
    if (status && status !== NO_EDGE) this.#refuse(status);
    return status ? null : memory.bytes[slot];
  }

  get hasHalves() {
    return this.glueEdges().some((edge) => edge >= 0);
  }

  // The glue edge of each kind, or -1.
  glueEdges() {
    if (!this.#glue.length) this.#glue = Array.from({ length: this.kinds }, (_, kind) => this.glueEdge(kind) ?? -1);
    return this.#glue;
  }

  corners(tile) {
    const memory = this.#memory, outline = memory.place("outline");
    const status = memory.calls.tiling_corners(this.#machine, memory.putTile(memory.place("tile"), tile), outline);
    if (status) this.#refuse(status);
    return memory.outline(outline);
  }

  // The exact corners of a kind in a turn, about the point 0; kept.
  turned(kind, turn) {
    const spot = kind * this.order + turn;
    return (this.#corners[spot] ??= this.corners({ kind, turn, shift: [0, 0, 0, 0] }));
  }

  shape(kind, turn = 0) {
    return this.xy(this.corners({ kind, turn, shift: [0, 0, 0, 0] }));
  }

  // ---- points

  xy(points) {
    const out = new Float64Array(points.length >> 1), s = this.#steps;
    for (let i = 0, at = 0; i < points.length; i += 4) {
      const a = points[i], b = points[i + 1], c = points[i + 2], d = points[i + 3];
      out[at++] = a + b * s[2] + c * s[4] + d * s[6];
      out[at++] = b * s[3] + c * s[5] + d * s[7];
    }
    return out;
  }

  // The points with zeta^3 for zeta, in x and y.
  xyBeyond(points) {
    if (this.order < 8) throw new TypeError("perpendicular space exists only in the orders 8 and 10");
    const out = new Float64Array(points.length >> 1), angle = (6 * Math.PI) / this.order;
    for (let i = 0; i < points.length; i++) {
      out[2 * (i >> 2)] += points[i] * Math.cos((i % 4) * angle);
      out[2 * (i >> 2) + 1] += points[i] * Math.sin((i % 4) * angle);
    }
    return out;
  }

  pointNear(x, y) {
    if (this.order === 8) return [Math.round(x) + 0, 0, Math.round(y) + 0, 0];
    const up = Math.round(y / this.#steps[3]) + 0;
    return [Math.round(x - up * this.#steps[2]) + 0, up, 0, 0];
  }

  halfFor(width, height) {
    const least = (it) => Math.min(4096, Math.max(1, Math.ceil(it - 1e-9)));
    return [least(width), least(height / 2 / this.#steps[3])];
  }

  // A point times zeta^turn, exactly.
  turnedPoint(point, turn) {
    let [a, b, c, d] = point;
    for (let i = ((turn % this.order) + this.order) % this.order; i > 0; i--) {
      if (this.order === 4) [a, b] = [-b, a];
      else if (this.order === 6) [a, b] = [-b, a + b];
      else if (this.order === 8) [a, b, c, d] = [-d, a, b, c];
      else [a, b, c, d] = [-d, a + d, b - d, c + d];
    }
    return [a + 0, b + 0, c + 0, d + 0];
  }

  // The product of two points, exactly.
  product(a, b) {
    const out = [0, 0, 0, 0];
    for (let k = 0; k < 4; k++) {
      if (!b[k]) continue;
      const turned = this.turnedPoint(a, k);
      for (let i = 0; i < 4; i++) out[i] += b[k] * turned[i];
    }
    return out;
  }

  get factor() {
    return [...(this.#factor ??= this.rule().factor)];
  }

  // ---- addresses

  // Puts an address into memory. Texts are read by the engine, and so are checked.
  #put(at, address) {
    const memory = this.#memory;
    if (typeof address === "string") return this.#putText(at, address);
    if (isBytes(address) && address.length === ADDRESS) {
      memory.bytes.set(address, at);
      return at;
    }
    if (isBytes(address) || !address?.digits) {
      throw new TypeError("an address is a text, an object with kind and digits, or 130 bytes");
    }
    const { bytes } = memory, { digits } = address;
    if (digits.length > MOST_DIGITS) throw new Refusal("4 BadAddress TooDeep", shortened(textOf(address)));
    bytes[at] = small(address.kind, "a kind");
    bytes[at + 1] = digits.length;
    for (let i = 0; i < digits.length; i++) {
      bytes[at + 2 + 2 * i] = small(digits[i].child, "a child");
      bytes[at + 3 + 2 * i] = small(digits[i].parent, "a parent");
    }
    return at;
  }

  #putText(at, address) {
    const memory = this.#memory, text = memory.place("text"), length = memory.putText(address, text, LONGEST);
    const status = length < 0 ? BAD_ADDRESS : memory.calls.tiling_read_address(this.#machine, text, length, at);
    if (status) this.#refuseAddress(address);
    return at;
  }

  #refuseAddress(address) {
    this.#refuse(BAD_ADDRESS, ["place", "rule", `addr=${textOf(address)}`]);
  }

  #text(at) {
    const memory = this.#memory, text = memory.place("text"), sizes = memory.place("sizes");
    const status = memory.calls.tiling_write_address(at, text, LONGEST, sizes);
    if (status) this.#refuse(status);
    return String.fromCharCode.apply(null, memory.bytes.subarray(text, text + memory.size(sizes)));
  }

  // The address in memory, in the form of the one that was given.
  #alike(address, at) {
    if (typeof address === "string") return this.#text(at);
    return isBytes(address) ? this.#memory.copy(at, ADDRESS) : objectOf(this.#memory.bytes.subarray(at, at + ADDRESS));
  }

  read(address) {
    const at = this.#put(this.#memory.place("address"), address);
    if (this.#memory.calls.tiling_fits(this.#machine, at)) this.#refuseAddress(address);
    return objectOf(this.#memory.bytes.subarray(at, at + ADDRESS));
  }

  write(address) {
    return this.#text(this.#put(this.#memory.place("address"), address));
  }

  fits(address) {
    try {
      return this.#memory.calls.tiling_fits(this.#machine, this.#put(this.#memory.place("address"), address)) === OK;
    } catch (refusal) {
      if (refusal.status === BAD_ADDRESS) return false;
      throw refusal;
    }
  }

  bytes(addresses) {
    if (isBytes(addresses) && addresses.length % ADDRESS === 0) return addresses.slice();
    const list = Array.isArray(addresses) ? addresses : [addresses], at = this.#memory.place("address");
    const out = new Uint8Array(ADDRESS * list.length);
    for (let i = 0; i < list.length; i++) {
      this.#memory.bytes.fill(0, at, at + ADDRESS);
      this.#put(at, list[i]);
      if (this.#memory.calls.tiling_fits(this.#machine, at)) this.#refuseAddress(list[i]);
      out.set(this.#memory.bytes.subarray(at, at + ADDRESS), ADDRESS * i);
    }
    return out;
  }

  // The texts of addresses of 130 bytes each.
  texts(bytes) {
    const memory = this.#memory, at = memory.place("address");
    return Array.from({ length: bytes.length / ADDRESS }, (_, i) => {
      memory.bytes.set(bytes.subarray(ADDRESS * i, ADDRESS * (i + 1)), at);
      return this.#text(at);
    });
  }

  // ---- tiles of a supertile

  place(address) {
    const memory = this.#memory, tile = memory.place("tile"), at = this.#put(memory.place("address"), address);
    const status = memory.calls.tiling_place(this.#machine, at, tile);
    if (status) this.#refuse(status, ["place", "rule", `addr=${textOf(address)}`]);
    return memory.tile(tile);
  }

  neighbour(address, edge) {
    const memory = this.#memory, slot = memory.place("slot"), at = this.#put(memory.place("address"), address);
    const status = memory.calls.tiling_neighbour(this.#machine, at, small(edge, "an edge"), slot, slot + 1);
    if (status === OK) return { address: this.#alike(address, at), edge: memory.bytes[slot] };
    if (status === OUTSIDE) throw new Refusal(`8 Outside ${memory.bytes[slot]} ${memory.bytes[slot + 1]}`);
    if (status === NO_EDGE) throw new Refusal(`12 NoEdge ${edge} ${this.edges(memory.bytes[at])}`);
    return this.#refuseAddress(address);
  }

  pair(a, b) {
    const memory = this.#memory, slot = memory.place("outline");
    const first = this.#put(memory.place("address"), a), second = this.#put(memory.place("other"), b);
    const status = memory.calls.tiling_pair(this.#machine, first, second, slot);
    if (status) this.#refuseAddress(memory.calls.tiling_fits(this.#machine, first) ? a : b);
    const [relation, ...backs] = memory.copy(slot, 1 + this.edges(memory.bytes[first]));
    const edges = relation === 3 ? backs.map((back, edge) => [edge, back]).filter(([, back]) => back !== NO_BACK) : [];
    return { relation: RELATIONS[relation], edges };
  }

  locate(top, depth, point) {
    const memory = this.#memory, status = this.#located(top, depth, point);
    if (status === BAD_WORDS) throw new Refusal(`2 BadWords ${this.#wrongOf(top, depth)}`);
    if (status === COORD_LIMIT) throw new Refusal(`6 CoordLimit ${this.#firstFar(top, depth, point)}`);
    if (status) this.#refuse(status);
    return { ...memory.tile(memory.place("tile")), address: this.#text(memory.place("address")) };
  }

  #located(top, depth, point) {
    const memory = this.#memory, [tile, address] = ["tile", "address"].map((name) => memory.place(name));
    const given = memory.putTile(memory.place("top"), top), levels = small(depth, "a depth");
    const at = memory.putPoint(memory.place("point"), fourOf(point, "a point"));
    return memory.calls.tiling_locate(this.#machine, given, levels, at, tile, address);
  }

  // The place of the wrong argument of `locate`, from 1.
  #wrongOf(top, depth) {
    const memory = this.#memory, given = memory.putTile(memory.place("top"), top);
    if (memory.calls.tiling_corners(this.#machine, given, memory.place("outline"))) return 1;
    return depth < 0 || depth > MOST_DIGITS ? 2 : 3;
  }

  #firstFar(top, depth, point) {
    for (const value of this.#valuesOf(top, depth, point)) {
      if (value.some((it) => Math.abs(it) > FARTHEST)) return value;
    }
    return "";
  }

  // What `locate` computes, in its order: powers of the factor, the supertile's corners, and level by level the shift
  // and the corners of each child.
  *#valuesOf(top, depth, point) {
    const powers = [[1, 0, 0, 0]], { kinds } = this.rule();
    for (let i = 0; i < depth; i++) yield (powers[i + 1] = this.product(powers[i], this.factor));
    let tile = top;
    yield* this.#cornersOf(tile, kinds, powers[depth]);
    for (let level = depth - 1; level >= 0; level--) {
      const parts = kinds[tile.kind].children.map((child) => this.#movedBy(tile, child, powers[level]));
      for (const part of parts) {
        yield part.shift;
        yield* this.#cornersOf(part, kinds, powers[level]);
      }
      tile = parts.find((part) => this.#located(part, level, point) !== OUTSIDE);
    }
  }

  // A child of a supertile at its place; `scale` is the factor of the child's own level.
  #movedBy({ turn, shift }, child, scale) {
    const moved = this.turnedPoint(this.product(child.shift, scale), turn);
    return { kind: child.kind, turn: (child.turn + turn) % this.order, shift: plus(shift, moved) };
  }

  #cornersOf({ kind, turn, shift }, kinds, scale) {
    const { vertices } = kinds[kind], count = vertices.length >> 2;
    const vertex = (i) => this.product(vertices.subarray(4 * i, 4 * i + 4), scale);
    return Array.from({ length: count }, (_, i) => plus(shift, this.turnedPoint(vertex(i), turn)));
  }

  placeAll(addresses) {
    const memory = this.#memory, given = this.#bytesOf(addresses), count = given.length / ADDRESS;
    return memory.borrow([given.length, TILE * count], (from, to) => {
      memory.bytes.set(given, from);
      const status = memory.calls.tiling_place_all(this.#machine, from, count, to, count);
      if (status) this.#refuse(status);
      const found = new Records(memory, to, count, TILE), column = (name) => found.column(IN_TILE[name]);
      return { kinds: column("kind"), turns: column("turn"), shifts: found.points(0), statuses: column("status") };
    });
  }

  neighbourAll(addresses, edges) {
    const memory = this.#memory, given = this.#bytesOf(addresses), count = given.length / ADDRESS;
    if (edges?.length !== count) throw new TypeError(`there are ${count} addresses, so as many edges`);
    return memory.borrow([given.length, count, CROSSING * count], (from, by, to) => {
      memory.bytes.set(given, from);
      memory.bytes.set(edgesOf(edges), by);
      const status = memory.calls.tiling_neighbour_all(this.#machine, from, count, by, count, to, count);
      if (status) this.#refuse(status);
      const found = new Records(memory, to, count, CROSSING);
      const [statuses, backs, parts] = [0, 1, 2].map((place) => found.column(place));
      return { addresses: memory.copy(from, given.length), edges: backs, parts, statuses };
    });
  }

  // Addresses as bytes. One that names no tile gets a status in the answer; it must only be one of the three forms.
  #bytesOf(addresses) {
    if (isBytes(addresses) && addresses.length % ADDRESS === 0) return addresses;
    if (isBytes(addresses)) throw new TypeError("each address has 130 bytes");
    const out = new Uint8Array(ADDRESS * addresses.length), at = this.#memory.place("address");
    addresses.forEach((address, i) => {
      this.#memory.bytes.fill(0, at, at + ADDRESS);
      try {
        this.#put(at, address);
      } catch (refusal) {
        if (refusal.status !== BAD_ADDRESS) throw refusal;
        this.#memory.bytes[at + 1] = 255; // (no address has so many digits)
      }
      out.set(this.#memory.bytes.subarray(at, at + ADDRESS), ADDRESS * i);
    });
    return out;
  }

  // ---- frames

  #putFrame(base, seed) {
    const memory = this.#memory, at = memory.place("frame"), [low, high] = halvesOf(seed);
    memory.words[at >> 2] = low;
    memory.words[(at >> 2) + 1] = high;
    this.#put(at + 8, base);
    return at;
  }

  window(options = {}) {
    const given = known(options, [...BOX, ...FRAME, "addresses"], "window");
    const { at = [0, 0, 0, 0], half = [20, 12], seed = 0, base = "0:", addresses = true } = given;
    const box = { at: fourOf(at, "at"), half: halfOf(half), seed, base };
    return new Window(HIDDEN, this, box, this.#covered(box, addresses));
  }

  // The tiles and addresses that meet a window, as records.
  #covered(box, isNamed) {
    const memory = this.#memory, sizes = memory.place("sizes"), usual = 4096;
    let room = Math.max(usual, Math.floor(memory.tiles.size / TILE));
    for (;;) {
      const tiles = memory.tiles.room(TILE * room), names = isNamed ? memory.addresses.room(ADDRESS * room) : tiles;
      const given = [this.#machine, this.#putFrame(box.base, box.seed), this.#putBox(box)];
      const status = memory.calls.tiling_cover(...given, tiles, room, names, isNamed ? room : 0, sizes);
      if (status) this.#refuse(status, this.drawWords({ ...box, layers: ["census"] }));
      const count = memory.size(sizes);
      if (count <= room) {
        return { tiles: memory.tiles.lend(count, TILE), names: isNamed ? memory.addresses.lend(count, ADDRESS) : null };
      }
      room = Math.min(MOST_TILES, count + (count >> 2));
    }
  }

  #putBox(box) {
    return this.#memory.putWindow(this.#memory.place("window"), box.at, box.half);
  }

  // The whole tiles of a window, as records.
  glued(word, box) {
    mustBeHidden(word);
    const memory = this.#memory, sizes = memory.place("sizes");
    let room = Math.max(2048, Math.floor(memory.wholes.size / WHOLE));
    for (;;) {
      const wholes = memory.wholes.room(WHOLE * room);
      const given = [this.#machine, this.#putFrame(box.base, box.seed), this.#putBox(box)];
      const status = memory.calls.tiling_glue(...given, wholes, room, sizes);
      if (status) this.#refuse(status, this.drawWords({ ...box, layers: ["census"], whole: true }));
      const count = memory.size(sizes);
      if (count <= room) return memory.wholes.lend(count, WHOLE);
      room = Math.min(MOST_TILES, count + (count >> 2));
    }
  }

  meets(tiles, window = {}) {
    const { at = [0, 0, 0, 0], half = [20, 12] } = known(window, BOX, "meets");
    this.#mustHave(tiles);
    const memory = this.#memory, count = tiles.kinds.length, box = { at: fourOf(at, "at"), half: halfOf(half) };
    return memory.borrow([TILE * count, count], (from, flags) => {
      memory.putTiles(from, tiles);
      const status = memory.calls.tiling_meets_all(this.#machine, from, count, this.#putBox(box), flags, count);
      if (status) this.#refuse(status);
      return memory.copy(flags, count);
    });
  }

  tileAt(point, options = {}) {
    const { base = "0:", seed = 0 } = known(options, FRAME, "tileAt");
    const memory = this.#memory, tile = memory.place("tile"), address = memory.place("address");
    const at = memory.putPoint(memory.place("point"), fourOf(point, "a point"));
    const status = memory.calls.tiling_at(this.#machine, this.#putFrame(base, seed), at, tile, address);
    if (status) this.#refuse(status, this.drawWords({ at: point, half: [1, 1], seed, base, layers: ["census"] }));
    return { ...memory.tile(tile), address: this.#text(address) };
  }

  walk(base, path, options = {}) {
    const { seed = 0, grow = 0 } = known(options, ["seed", "grow"], "walk");
    const memory = this.#memory, edges = edgesOf(path), { length } = edges, count = length + 1;
    return memory.borrow([length, TILE * count, ADDRESS * count], (by, tiles, names) => {
      memory.bytes.set(edges, by);
      const given = [this.#machine, this.#putFrame(base, seed), small(grow, "grow")];
      const status = memory.calls.tiling_walk(...given, by, length, tiles, count, names, count);
      if (status) this.#refuse(status, [...this.#frameWords("walk", base, seed), ...walkWords(grow, path)]);
      const tile = (_, i) => this.#numbered(tiles + TILE * i, names + ADDRESS * i, base, i > 0);
      return Array.from({ length: count }, tile);
    });
  }

  #frameWords(command, base, seed) {
    return [command, "rule", `addr=${textOf(base)}`, `seed=${seedText(seed)}`];
  }

  star(base, vertex, options = {}) {
    const { seed = 0 } = known(options, ["seed"], "star");
    const memory = this.#memory, star = memory.place("star"), frame = this.#putFrame(base, seed);
    const status = memory.calls.tiling_star(this.#machine, frame, small(vertex, "a vertex"), star);
    if (status === NO_VERTEX) throw new Refusal(`15 NoVertex ${vertex} ${this.edges(memory.bytes[frame + 8])}`);
    if (status) this.#refuse(status, [...this.#frameWords("star", base, seed), `vertex=${vertex}`]);
    return Array.from({ length: memory.bytes[star + IN_STAR.count] }, (_, i) =>
      this.#numbered(star + TILE * i, star + IN_STAR.addresses + ADDRESS * i, base, true));
  }

  #numbered(tile, address, form, hasNumber) {
    const memory = this.#memory, number = hasNumber ? memory.bytes[tile + IN_TILE.number] : null;
    return { ...memory.tile(tile), address: this.#alike(form, address), number };
  }

  verify(listing, window = {}) {
    const { at = [0, 0, 0, 0], half = [20, 12], seed = 0, base = "0:" } = known(window, [...BOX, ...FRAME], "verify");
    const box = { at: fourOf(at, "at"), half: halfOf(half), seed, base };
    this.#mustHave(listing);
    if (typeof listing !== "string") return this.#verifyTiles(listing, box);
    const words = this.drawWords({ ...box, layers: ["list"] }).filter((word) => !word.startsWith("layers="));
    return Number(this.engine.call(["verify", ...words.slice(1)], listing).split(" ")[1]);
  }

  #verifyTiles(listing, box) {
    const memory = this.#memory, names = this.#bytesOf(listing.addresses), count = listing.kinds.length;
    return memory.borrow([TILE * count, names.length], (tiles, named) => {
      memory.putTiles(tiles, listing);
      memory.bytes.set(names, named);
      const slot = memory.place("slot"), given = [this.#machine, this.#putFrame(box.base, box.seed), this.#putBox(box)];
      const status = memory.calls.tiling_verify(...given, tiles, count, named, names.length / ADDRESS, slot, slot + 8);
      if (status === BAD_LISTING) throw new Refusal(faultLine(memory.bytes[slot], memory.size(slot + 8)));
      if (status) this.#refuse(status, this.drawWords({ ...box, layers: ["census"] }));
      return count;
    });
  }

  draw(options = {}) {
    return this.engine.call(this.drawWords(options), this.#file ?? "");
  }

  drawWords(options = {}) {
    const given = known(options, [...BOX, ...FRAME, "layers", "whole"], "draw");
    const { at = [0, 0, 0, 0], half = [20, 12], seed = 0, base = "0:", layers = ["svg"] } = given;
    const place = [`seed=${seedText(seed)}`, `addr=${textOf(base)}`, `at=${fourOf(at, "at")}`, `half=${halfOf(half)}`];
    const glue = given.whole && this.hasHalves ? ["glue=yes"] : [];
    return ["draw", `rule=${this.name}`, ...place, ...glue, `layers=${layers.join()}`];
  }
}

const edgesOf = (list) => (isBytes(list) ? list : Uint8Array.from(list, (edge) => small(edge, "an edge")));
const walkWords = (grow, path) => [`grow=${grow}`, ...(path.length ? [`path=${Array.from(path).join()}`] : [])];
const faultLine = (fault, index) => `17 BadListing ${FAULTS[fault]}${fault === MISSING ? "" : ` ${index}`}`;

// ---- patches ----------------------------------------------------------------------------------------------------

// A table of numbers by keys, which are whole numbers below 2^53.
class Table {
  #keys;
  #numbers;
  #shift = 28;

  constructor(most) {
    while (1 << (32 - this.#shift) < 2 * most) this.#shift--;
    this.#keys = new Float64Array(1 << (32 - this.#shift));
    this.#numbers = new Int32Array(this.#keys.length).fill(-1);
  }

  #spot(key) {
    const keys = this.#keys, numbers = this.#numbers, mask = keys.length - 1;
    let spot = Math.imul((key >>> 0) ^ Math.imul((key / 2 ** 32) | 0, 0x85ebca6b), 0x9e3779b1) >>> this.#shift;
    while (numbers[spot] >= 0 && keys[spot] !== key) spot = (spot + 1) & mask;
    return spot;
  }

  // The number of a key, or -1.
  get(key) {
    return this.#numbers[this.#spot(key)];
  }

  set(key, number) {
    const spot = this.#spot(key);
    this.#keys[spot] = key;
    this.#numbers[spot] = number;
  }
}

// Whole numbers below 2^53 that are equal and ordered as points are, by their coefficients.
function keysOf(points) {
  const least = [Infinity, Infinity, Infinity, Infinity], most = [-Infinity, -Infinity, -Infinity, -Infinity];
  for (let i = 0; i < points.length; i++) {
    if (points[i] < least[i & 3]) least[i & 3] = points[i];
    if (points[i] > most[i & 3]) most[i & 3] = points[i];
  }
  const spans = most.map((it, i) => it - least[i] + 1), keys = new Float64Array(points.length >> 2);
  if (spans.reduce((a, b) => a * b, 1) > 2 ** 53) return ranksOf(points);
  for (let i = 0; i < keys.length; i++) {
    const [a, b, c, d] = [points[4 * i], points[4 * i + 1], points[4 * i + 2], points[4 * i + 3]];
    keys[i] = (((a - least[0]) * spans[1] + b - least[1]) * spans[2] + c - least[2]) * spans[3] + d - least[3];
  }
  return keys;
}

// The same for points that are far apart.
function ranksOf(points) {
  const part = (spot, i) => points[4 * spot + i], ranks = new Float64Array(points.length >> 2);
  const first = (a, b) => [0, 1, 2, 3].find((i) => part(a, i) !== part(b, i)) ?? 0;
  const compare = (a, b) => part(a, first(a, b)) - part(b, first(a, b));
  let rank = 0, last = 0;
  for (const spot of Uint32Array.from(ranks.keys()).sort(compare)) {
    if (compare(last, spot)) rank++;
    ranks[spot] = rank;
    last = spot;
  }
  return ranks;
}

export class Patch {
  #rows;
  #kept = new Map();

  // `rows` has functions that make the arrays, and `shape(kind, turn)`, the exact corners of a tile.
  constructor(word, tiling, length, rows, origin) {
    mustBeHidden(word);
    this.tiling = tiling;
    this.length = length;
    this.#rows = rows;
    this.origin = origin;
  }

  // What is computed once.
  once(name, make) {
    if (!this.#kept.has(name)) this.#kept.set(name, make());
    return this.#kept.get(name);
  }

  get kinds() {
    return this.once("kinds", this.#rows.kinds);
  }

  get turns() {
    return this.once("turns", this.#rows.turns);
  }

  get shifts() {
    return this.once("shifts", this.#rows.shifts);
  }

  get hasAddresses() {
    return !!this.#rows.addresses;
  }

  get addresses() {
    if (!this.#rows.addresses) throw new TypeError("these tiles were asked for without addresses");
    return this.once("addresses", this.#rows.addresses);
  }

  address(tile) {
    const at = ADDRESS * this.index(tile);
    return this.tiling.write(this.addresses.subarray(at, at + ADDRESS));
  }

  tile(tile) {
    const i = this.index(tile);
    return { kind: this.kinds[i], turn: this.turns[i], shift: Array.from(this.shifts.subarray(4 * i, 4 * i + 4)) };
  }

  index(tile) {
    if (whole(tile, "a tile") >= 0 && tile < this.length) return tile;
    throw new RangeError(`the patch has ${this.length} tiles, counted from 0, and none is ${tile}`);
  }

  // ---- corners

  // What tiles share: the exact corners of each kind in each turn, with the last again up to the most, how many they
  // are, and for each tile the number of its corners in this list.
  #shaped() {
    return this.once("shaped", () => {
      const names = this.shapeNames(), numbers = new Int32Array(this.length), byName = [], corners = [];
      for (let i = 0; i < numbers.length; i++) {
        const number = (byName[names[i]] ??= corners.length);
        if (number === corners.length) corners.push(this.makeShape(i));
        numbers[i] = number;
      }
      const most = corners.reduce((a, b) => Math.max(a, b.length), 4), last = (it, k) => it[it.length - 4 + (k & 3)];
      const padded = corners.map((it) => Int32Array.from({ length: most }, (_, k) => it[k] ?? last(it, k)));
      return { numbers, corners, padded, most: most >> 2 };
    });
  }

  // A number for each tile that tells its shape.
  shapeNames() {
    const { kinds, turns } = this, { order } = this.tiling;
    return Int32Array.from(kinds, (kind, i) => kind * order + turns[i]);
  }

  makeShape(tile) {
    return this.#rows.shape(this.kinds[tile], this.turns[tile]);
  }

  shapes() {
    const { numbers, corners } = this.#shaped();
    return { numbers, xy: corners.map((it) => this.tiling.xy(it)) };
  }

  get counts() {
    return this.once("counts", () => {
      const { numbers, corners } = this.#shaped(), counts = corners.map((it) => it.length >> 2);
      return Uint8Array.from(numbers, (number) => counts[number]);
    });
  }

  get most() {
    return this.#shaped().most;
  }

  positions() {
    return this.once("positions", () => this.tiling.xy(this.shifts));
  }

  outlines() {
    return this.once("outlines", () => {
      const { shifts, length } = this, { numbers, padded, most } = this.#shaped();
      const out = new Int32Array(4 * length * most);
      for (let i = 0, at = 0; i < length; i++) {
        const shape = padded[numbers[i]], from = 4 * i;
        const a = shifts[from], b = shifts[from + 1], c = shifts[from + 2], d = shifts[from + 3];
        for (let k = 0; k < 4 * most; k += 4, at += 4) {
          out[at] = a + shape[k];
          out[at + 1] = b + shape[k + 1];
          out[at + 2] = c + shape[k + 2];
          out[at + 3] = d + shape[k + 3];
        }
      }
      return out;
    });
  }

  xy() {
    return this.once("xy", () => {
      const { length, most, counts } = this, out = this.tiling.xy(this.outlines());
      for (let i = 0; i < length; i++) out.fill(NaN, 2 * (i * most + counts[i]), 2 * (i + 1) * most);
      return out;
    });
  }

  polygon(tile) {
    const i = this.index(tile), begin = 4 * i * this.most;
    const xy = this.tiling.xy(this.outlines().subarray(begin, begin + 4 * this.counts[i]));
    return Array.from({ length: this.counts[i] }, (_, corner) => [xy[2 * corner], xy[2 * corner + 1]]);
  }

  middles() {
    return this.once("middles", () => {
      const { length, most, counts } = this, xy = this.xy(), out = new Float64Array(2 * length);
      for (let i = 0; i < length; i++) {
        const begin = 2 * i * most, end = begin + 2 * counts[i];
        for (let spot = begin; spot < end; spot++) out[2 * i + (spot & 1)] += xy[spot] / counts[i];
      }
      return out;
    });
  }

  // ---- vertices and edges

  #woven() {
    return this.once("woven", () => {
      const { length, most, counts } = this, outlines = this.outlines(), keys = keysOf(outlines), size = length * most;
      const corners = new Int32Array(size).fill(-1), found = new Table(size), own = new Float64Array(size);
      let count = 0;
      for (let i = 0; i < length; i++) {
        for (let spot = i * most; spot < i * most + counts[i]; spot++) {
          if (found.get(keys[spot]) >= 0) continue;
          own[count++] = keys[spot];
          found.set(keys[spot], spot);
        }
      }
      const vertices = new Int32Array(4 * count);
      own.subarray(0, count).sort().forEach((key, vertex) => {
        const spot = found.get(key);
        vertices.set(outlines.subarray(4 * spot, 4 * spot + 4), 4 * vertex);
        found.set(key, vertex);
      });
      for (let i = 0; i < length; i++) {
        for (let spot = i * most; spot < i * most + counts[i]; spot++) corners[spot] = found.get(keys[spot]);
      }
      return { vertices, corners };
    });
  }

  vertices() {
    return this.#woven().vertices;
  }

  corners() {
    return this.#woven().corners;
  }

  // The vertex at the end of each edge, or -1.
  #ends() {
    return this.once("ends", () => {
      const { length, most, counts } = this, corners = this.corners(), ends = new Int32Array(length * most).fill(-1);
      for (let i = 0; i < length; i++) {
        const begin = i * most, last = begin + counts[i] - 1;
        for (let spot = begin; spot < last; spot++) ends[spot] = corners[spot + 1];
        ends[last] = corners[begin];
      }
      return ends;
    });
  }

  // For each edge the number of that across, tile times M plus edge, or -1.
  #across() {
    return this.once("across", () => {
      const corners = this.corners(), ends = this.#ends(), found = new Table(corners.length);
      const count = this.vertices().length >> 2;
      corners.forEach((begin, spot) => begin >= 0 && found.set(begin * count + ends[spot], spot));
      return corners.map((begin, spot) => (begin < 0 ? -1 : found.get(ends[spot] * count + begin)));
    });
  }

  neighbours() {
    return this.once("neighbours", () => this.#across().map((spot) => (spot < 0 ? -1 : (spot / this.most) | 0)));
  }

  adjacency() {
    return this.once("adjacency", () => {
      const { most } = this, out = [];
      this.#across().forEach((other, spot) => {
        const mine = (spot / most) | 0, theirs = (other / most) | 0;
        if (other >= 0 && mine < theirs) out.push(mine, theirs, spot % most, other % most);
      });
      return Int32Array.from(out);
    });
  }

  edges() {
    return this.once("edges", () => {
      const corners = this.corners(), ends = this.#ends(), across = this.#across(), count = this.vertices().length >> 2;
      const keys = new Float64Array(corners.length);
      let found = 0;
      for (let spot = 0; spot < corners.length; spot++) {
        if (ends[spot] < 0 || (across[spot] >= 0 && across[spot] < spot)) continue;
        keys[found++] = Math.min(corners[spot], ends[spot]) * count + Math.max(corners[spot], ends[spot]);
      }
      const out = new Int32Array(2 * found);
      keys.subarray(0, found).sort().forEach((key, i) => {
        out[2 * i] = key / count;
        out[2 * i + 1] = key % count;
      });
      return out;
    });
  }

  perpendicular() {
    return this.tiling.xyBeyond(this.vertices());
  }

  // ---- stars

  #starred() {
    return this.once("starred", () => starsOf(this, this.corners(), this.#across()));
  }

  stars() {
    return this.#starred().stars.map(({ corners, count }) => ({ corners: corners.map((pair) => [...pair]), count }));
  }

  vertexStars() {
    return this.#starred().labels;
  }

  // ---- choosing tiles

  find(x, y) {
    const { length, most, counts } = this, xy = this.xy();
    for (let i = 0; i < length; i++) if (isInside(xy, 2 * i * most, counts[i], x, y)) return i;
    return -1;
  }

  // The numbers of some tiles, each once.
  numbersOf(tiles) {
    const isList = typeof tiles === "object" && (tiles?.[Symbol.iterator] || tiles?.length >= 0);
    if (!isList) throw new TypeError(`chosen takes a list of numbers of tiles, and not ${shown(tiles)}`);
    return Int32Array.from(new Set(Array.from(tiles, (tile) => this.index(tile))));
  }

  chosen(tiles) {
    const list = this.numbersOf(tiles);
    return new Patch(HIDDEN, this.tiling, list.length, chosenRows(this, this.#rows, list), this.origin);
  }

  connected(count, x, y) {
    const [left, low] = this.tiling.xy(this.origin.at);
    if (whole(count, "a count of tiles") < 1) throw new TypeError(`a count of tiles is at least 1, and not ${count}`);
    return this.chosen(nearestConnected(this, count, finite(x ?? left, "x"), finite(y ?? low, "y")));
  }

  supertiles(level) {
    return supertilesOf(this, small(level, "a level"));
  }

  // ---- texts

  toJSON() {
    return boardOf(this);
  }

  toSVG(options) {
    return svgOf(this, options);
  }
}

// The entries of some tiles, each of so many numbers.
function picked(array, width, list) {
  const out = new array.constructor(width * list.length);
  list.forEach((tile, i) => out.set(array.subarray(width * tile, width * (tile + 1)), width * i));
  return out;
}

function chosenRows(patch, rows, list) {
  return {
    kinds: () => picked(patch.kinds, 1, list),
    turns: () => picked(patch.turns, 1, list),
    shifts: () => picked(patch.shifts, 4, list),
    addresses: rows.addresses && (() => picked(patch.addresses, ADDRESS, list)),
    shape: rows.shape,
  };
}

// Whether a polygon of `count` corners, counterclockwise, has a point inside or on an edge.
function isInside(xy, at, count, x, y) {
  let isOdd = false;
  for (let i = 0, j = count - 1; i < count; j = i++) {
    const ax = xy[at + 2 * j], ay = xy[at + 2 * j + 1], bx = xy[at + 2 * i], by = xy[at + 2 * i + 1];
    const cross = (bx - ax) * (y - ay) - (by - ay) * (x - ax);
    if (Math.abs(cross) < 1e-9 && (x - ax) * (x - bx) + (y - ay) * (y - by) <= 1e-9) return true;
    if (ay > y !== by > y && cross > 0 === by > ay) isOdd = !isOdd;
  }
  return isOdd;
}

// The stars of a patch, from the permutation that leads from a corner to the next tile's corner at the same vertex:
// across the edge that ends there.
function starsOf(patch, corners, across) {
  const { most, counts, kinds } = patch, size = patch.vertices().length >> 2;
  const first = new Int32Array(size).fill(-1), degrees = new Int32Array(size), labels = new Int32Array(size).fill(-1);
  corners.forEach((vertex, spot) => {
    if (vertex < 0) return;
    degrees[vertex]++;
    if (first[vertex] < 0) first[vertex] = spot;
  });
  const onward = (spot) => across[spot % most ? spot - 1 : spot + counts[(spot / most) | 0] - 1];
  const numbers = new Map(), found = [], known = new Map();
  for (let vertex = 0; vertex < size; vertex++) {
    const turn = [];
    let spot = first[vertex];
    do {
      turn.push(kinds[(spot / most) | 0] * most + (spot % most));
      spot = onward(spot);
    } while (spot >= 0 && spot !== first[vertex] && turn.length < degrees[vertex]);
    if (spot !== first[vertex] || turn.length !== degrees[vertex]) continue;
    const said = turn.join();
    if (!known.has(said)) known.set(said, leastTurn(turn));
    const star = known.get(said), name = star.join();
    if (!numbers.has(name)) {
      numbers.set(name, found.length);
      found.push({ star, count: 0 });
    }
    labels[vertex] = numbers.get(name);
    found[labels[vertex]].count++;
  }
  return inOrder(found, labels, most);
}

const compareLists = (a, b) => {
  for (let i = 0; i < Math.min(a.length, b.length); i++) if (a[i] !== b[i]) return a[i] - b[i];
  return a.length - b.length;
};

function leastTurn(list) {
  return list.map((_, i) => [...list.slice(i), ...list.slice(0, i)]).reduce((a, b) => (compareLists(b, a) < 0 ? b : a));
}

// The most frequent star first, and the labels accordingly.
function inOrder(found, labels, most) {
  const compare = (a, b) => found[b].count - found[a].count || compareLists(found[a].star, found[b].star);
  const order = found.map((_, i) => i).sort(compare);
  const place = new Int32Array(order.length);
  order.forEach((from, to) => (place[from] = to));
  const stars = order.map((i) => ({
    corners: found[i].star.map((label) => [Math.floor(label / most), label % most]),
    count: found[i].count,
  }));
  return { stars, labels: labels.map((label) => (label < 0 ? -1 : place[label])) };
}

// ---- windows and whole tiles ------------------------------------------------------------------------------------

export class Window extends Patch {
  #box;
  #found;

  constructor(word, tiling, box, found) {
    mustBeHidden(word);
    const { tiles, names } = found;
    const rows = {
      kinds: () => tiles.column(IN_TILE.kind),
      turns: () => tiles.column(IN_TILE.turn),
      shifts: () => tiles.points(0),
      addresses: names && (() => names.pieces(0, ADDRESS)),
      shape: (kind, turn) => tiling.turned(kind, turn),
    };
    super(HIDDEN, tiling, tiles.count, rows, { ...box, whole: false });
    this.#box = box;
    this.#found = found;
    this.at = box.at;
    this.half = box.half;
    this.seed = box.seed;
    this.base = textOf(box.base);
  }

  whole() {
    const rows = wholeRows(this.tiling.glued(HIDDEN, this.#box));
    return new WholePatch(HIDDEN, this.tiling, rows, { ...this.#box, whole: true });
  }

  free() {
    this.#found.tiles.drop();
    this.#found.names?.drop();
  }
}

function wholeRows(records) {
  const once = (make) => {
    let kept;
    return () => (kept ??= make());
  };
  return {
    length: records.count,
    kinds: once(() => records.column(IN_TILE.kind)),
    turns: once(() => records.column(IN_TILE.turn)),
    shifts: once(() => records.points(0)),
    addresses: once(() => records.pieces(IN_WHOLE.address, ADDRESS)),
    parts: once(() => records.column(IN_WHOLE.parts)),
    otherKinds: once(() => records.column(IN_WHOLE.second + IN_TILE.kind)),
    otherTurns: once(() => records.column(IN_WHOLE.second + IN_TILE.turn)),
    otherShifts: once(() => records.points(IN_WHOLE.second)),
    otherAddresses: once(() => records.pieces(IN_WHOLE.other, ADDRESS)),
  };
}

export class WholePatch extends Patch {
  #rows;

  constructor(word, tiling, rows, origin) {
    super(word, tiling, rows.length, rows, origin);
    this.#rows = rows;
  }

  get parts() {
    return this.#rows.parts();
  }

  halves(tile) {
    const first = { ...this.tile(tile), address: super.address(tile) };
    if (this.parts[tile] === 1) return [first];
    const shift = Array.from(this.#rows.otherShifts().subarray(4 * tile, 4 * tile + 4));
    const address = this.tiling.write(this.#rows.otherAddresses().subarray(ADDRESS * tile, ADDRESS * (tile + 1)));
    return [first, { kind: this.#rows.otherKinds()[tile], turn: this.#rows.otherTurns()[tile], shift, address }];
  }

  address(tile) {
    return this.halves(tile).map((half) => half.address).join(" + ");
  }

  // (two halves of the same kinds and turns make the same whole tile)
  shapeNames() {
    const { parts } = this, { order } = this.tiling, kinds = this.#rows.otherKinds(), turns = this.#rows.otherTurns();
    const added = (i) => (parts[i] === 1 ? 0 : 256 * (1 + kinds[i] * order + turns[i]));
    return super.shapeNames().map((name, i) => name + added(i));
  }

  // As `draw` has it: from the end of the first half's glue edge round it, and then round the second half.
  makeShape(tile) {
    const { tiling } = this, kinds = [this.kinds[tile], this.#rows.otherKinds()[tile]];
    const mine = tiling.turned(kinds[0], this.turns[tile]);
    if (this.parts[tile] === 1) return mine;
    const theirs = tiling.turned(kinds[1], this.#rows.otherTurns()[tile]), out = [];
    const apart = [0, 1, 2, 3].map((i) => this.#rows.otherShifts()[4 * tile + i] - this.shifts[4 * tile + i]);
    for (const [half, corners, moved] of [[0, mine, [0, 0, 0, 0]], [1, theirs, apart]]) {
      const count = corners.length >> 2, glue = tiling.glueEdges()[kinds[half]];
      for (let step = 1; step < count; step++) {
        const corner = (glue + step) % count;
        for (let i = 0; i < 4; i++) out.push(corners[4 * corner + i] + moved[i]);
      }
    }
    return Int32Array.from(out);
  }

  chosen(tiles) {
    const list = this.numbersOf(tiles), rows = { length: list.length };
    for (const [name, make] of Object.entries(this.#rows)) {
      const width = /addresses/i.test(name) ? ADDRESS : /shifts/i.test(name) ? 4 : 1;
      let kept;
      if (name !== "length") rows[name] = () => (kept ??= picked(make(), width, list));
    }
    return new WholePatch(HIDDEN, this.tiling, rows, this.origin);
  }
}

// ---- patches that grow ------------------------------------------------------------------------------------------

function nearestConnected(patch, count, x, y) {
  const { most, counts, length } = patch, near = patch.neighbours(), middles = patch.middles();
  // (rounded, so that tiles at one distance come in the order of the patch)
  const distance = (i) => (middles[2 * i] - x) ** 2 + (middles[2 * i + 1] - y) ** 2;
  const far = Float64Array.from({ length }, (_, i) => Math.round(1e9 * distance(i)));
  const waiting = new Heap((a, b) => far[a] - far[b] || a - b), seen = new Uint8Array(length), chosen = [];
  const wait = (tile) => {
    seen[tile] = 1;
    waiting.push(tile);
  };
  if (length) wait(far.reduce((best, value, i) => (value < far[best] ? i : best), 0));
  while (chosen.length < count && waiting.length) {
    const tile = waiting.pop();
    chosen.push(tile);
    for (let edge = 0; edge < counts[tile]; edge++) {
      const other = near[tile * most + edge];
      if (other >= 0 && !seen[other]) wait(other);
    }
  }
  if (chosen.length < count) throw new RangeError(`only ${chosen.length} tiles are connected here`);
  return chosen.sort((a, b) => a - b);
}

class Heap {
  #items = [];
  #compare;

  constructor(compare) {
    this.#compare = compare;
  }

  get length() {
    return this.#items.length;
  }

  push(item) {
    const items = this.#items;
    let at = items.length;
    for (let up = (at - 1) >> 1; at && this.#compare(item, items[up]) < 0; up = (at - 1) >> 1) {
      items[at] = items[up];
      at = up;
    }
    items[at] = item;
  }

  pop() {
    const items = this.#items, first = items[0], item = items.pop();
    if (!items.length) return first;
    let at = 0;
    for (let down = 1; down < items.length; down = 2 * at + 1) {
      if (down + 1 < items.length && this.#compare(items[down + 1], items[down]) < 0) down++;
      if (this.#compare(items[down], item) >= 0) break;
      items[at] = items[down];
      at = down;
    }
    items[at] = item;
    return first;
  }
}

// The supertiles of a level that tiles belong to: their motions follow from where each tile lies in its supertile.
function supertilesOf(patch, level) {
  const { tiling, addresses, turns, shifts } = patch, seen = new Set();
  const rows = { kinds: [], turns: [], shifts: [], addresses: [] };
  const tiles = Int32Array.from(patch.kinds.keys()).filter((tile) => addresses[ADDRESS * tile + 1] >= level);
  const places = tiling.placeAll(cutAddresses(addresses, tiles, 0, level));
  const above = cutAddresses(addresses, tiles, level);
  tiles.forEach((tile, i) => {
    if (places.statuses[i]) throw new Refusal(`${places.statuses[i]} ${NAMES[places.statuses[i]]}`);
    const turn = (turns[tile] - places.turns[i] + tiling.order) % tiling.order, kind = above[ADDRESS * i];
    const moved = tiling.turnedPoint(places.shifts.subarray(4 * i, 4 * i + 4), turn);
    const shift = moved.map((part, k) => shifts[4 * tile + k] - part), name = `${kind} ${turn} ${shift}`;
    if (seen.has(name)) return;
    seen.add(name);
    rows.kinds.push(kind);
    rows.turns.push(turn);
    rows.shifts.push(...shift);
    rows.addresses.push(i);
  });
  rows.addresses = picked(above, ADDRESS, Int32Array.from(rows.addresses));
  return new Patch(HIDDEN, tiling, rows.kinds.length, supertileRows(tiling, level, rows), patch.origin);
}

// The addresses of some tiles with digits from one level to another: of tiles in a supertile, or of supertiles.
function cutAddresses(addresses, tiles, begin, end) {
  const out = new Uint8Array(ADDRESS * tiles.length);
  tiles.forEach((tile, i) => {
    const from = ADDRESS * tile, to = ADDRESS * i, stop = end ?? addresses[from + 1];
    out[to] = begin ? addresses[from + 2 * begin + 1] : addresses[from];
    out[to + 1] = stop - begin;
    out.set(addresses.subarray(from + 2 + 2 * begin, from + 2 + 2 * stop), to + 2);
  });
  return out;
}

function supertileRows(tiling, level, rows) {
  let scale = [1, 0, 0, 0];
  for (let i = 0; i < level; i++) scale = tiling.product(scale, tiling.factor);
  return {
    kinds: () => Uint8Array.from(rows.kinds),
    turns: () => Uint8Array.from(rows.turns),
    shifts: () => Int32Array.from(rows.shifts),
    addresses: () => rows.addresses,
    shape: (kind, turn) => {
      const corners = tiling.turned(kind, turn), out = [];
      for (let i = 0; i < corners.length; i += 4) out.push(...tiling.product(corners.subarray(i, i + 4), scale));
      if (out.some((part) => Math.abs(part) > 2 ** 30)) throw new RangeError("these supertiles are too large");
      return Int32Array.from(out);
    },
  };
}

// ---- boards and pictures ----------------------------------------------------------------------------------------

const rounded = (value) => Math.round(value * 1e9) / 1e9 + 0;
const orNull = (number) => (number < 0 ? null : number);

function boardOf(patch) {
  const { tiling, most, counts } = patch, corners = patch.corners(), near = patch.neighbours();
  const vertices = patch.vertices(), xy = tiling.xy(vertices), labels = patch.vertexStars();
  const rowOf = (array, i) => Array.from(array.subarray(i * most, i * most + counts[i]), orNull);
  const tiles = Array.from({ length: patch.length }, (_, id) => ({
    id,
    kind: patch.kinds[id],
    turn: patch.turns[id],
    ...(patch.hasAddresses ? { address: patch.address(id) } : {}),
    corners: rowOf(corners, id),
    neighbours: rowOf(near, id),
  }));
  return {
    made_by: `tiling ${tiling.drawWords({ ...patch.origin, layers: ["svg", "list"] }).join(" ")}`,
    order: tiling.order,
    tiles,
    vertices: Array.from(labels, (label, id) => ({
      id,
      x: rounded(xy[2 * id]),
      y: rounded(xy[2 * id + 1]),
      exact: Array.from(vertices.subarray(4 * id, 4 * id + 4)),
      star: orNull(label),
    })),
    stars: patch.stars().map((star, id) => ({ id, tiles: star.corners })),
  };
}

const COLOURS = [
  "#1f5f7a", "#8ecae6", "#f2e9d8", "#3a9a9c", "#f4b860", "#8e3b5e", "#d9694a", "#6b8e4e",
  "#c9a9d0", "#2b3a55", "#b7d3a8", "#e7a1a8", "#7a5a3a", "#9aa5ad", "#5d5aa8", "#c8b23c",
];
const ENTITIES = { "&": "&amp;", "<": "&lt;", ">": "&gt;", '"': "&quot;" };
const inFew = (value) => String(Math.round(value * 1e4) / 1e4 + 0);
const escaped = (text) => String(text).replace(/[&<>"]/g, (letter) => ENTITIES[letter]);

function svgOf(patch, options = {}) {
  const { width = 800, colours = COLOURS, ids = false } = known(options, ["width", "colours", "ids"], "toSVG");
  const box = boxOf(patch.xy()), tall = Math.round((width * box[3]) / box[2]);
  const kinds = [...new Set(patch.kinds)].sort((a, b) => a - b);
  const byKind = (tile) => colours[kinds.indexOf(patch.kinds[tile]) % colours.length];
  const colourOf = typeof colours === "function" ? colours : byKind;
  if (colourOf === byKind && !Array.isArray(colours)) {
    throw new TypeError(`colours are a list or a function, and not ${shown(colours)}`);
  }
  return [
    `<svg xmlns="http://www.w3.org/2000/svg" viewBox="${box.map(inFew).join(" ")}" width="${width}" height="${tall}">`,
    '<g stroke="#222" stroke-width=".04" stroke-linejoin="round">',
    ...Array.from({ length: patch.length }, (_, tile) => polygonText(patch, tile, colourOf(tile, patch), ids)),
    "</g>",
    "</svg>",
    "",
  ].join("\n");
}

// Left, top, width and height of places, with y downwards and a margin.
function boxOf(xy) {
  let [left, right, top, bottom] = [Infinity, -Infinity, Infinity, -Infinity];
  for (let i = 0; i < xy.length; i += 2) {
    if (Number.isNaN(xy[i])) continue;
    left = Math.min(left, xy[i]);
    right = Math.max(right, xy[i]);
    top = Math.min(top, -xy[i + 1]);
    bottom = Math.max(bottom, -xy[i + 1]);
  }
  return left < right ? [left - 0.1, top - 0.1, right - left + 0.2, bottom - top + 0.2] : [0, 0, 1, 1];
}

function polygonText(patch, tile, colour, hasId) {
  if (typeof colour !== "string") throw new TypeError(`the colour of tile ${tile} is a text, and not ${shown(colour)}`);
  const points = patch.polygon(tile).map(([x, y]) => `${inFew(x)},${inFew(-y)}`);
  const look = `fill="${escaped(colour)}" points="${points.join(" ")}"`;
  if (!hasId) return `<polygon ${look}/>`;
  const begin = tile * patch.most, near = patch.neighbours().subarray(begin, begin + patch.counts[tile]);
  const others = Array.from(near, (other) => (other < 0 ? "-" : other)).join(" ");
  const title = patch.hasAddresses ? `<title>${patch.address(tile)}</title>` : "";
  return `<polygon id="tile${tile}" data-near="${others}" ${look}>${title}</polygon>`;
}
