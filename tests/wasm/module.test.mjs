// Tests of js/pagnetuf.js over the module that TILING_WASM names, or .tiling/tiling.wasm: node --test tests/wasm/*.test.mjs
// Values are the literature's, those of the worked examples of docs/FORMATS.md, and the command's own texts.
import assert from "node:assert/strict";
import { readFileSync, readdirSync } from "node:fs";
import { test } from "node:test";
import { Worker } from "node:worker_threads";
import { gzipSync } from "node:zlib";
import { Engine, Patch, Refusal, Window, ruleFile } from "../../js/pagnetuf.js";

const top = new URL("../../", import.meta.url);
const wasm = process.env.TILING_WASM ?? new URL(".tiling/tiling.wasm", top).pathname;
const engine = await Engine.load(wasm);
const [chair, p2, p3, ab, halfhex] = Engine.builtIn.map((name) => engine.open(name));
const ruleText = (name) => readFileSync(new URL(`rules/${name}.toml`, top), "utf8");
const GOLDEN = (1 + Math.sqrt(5)) / 2;

const refusalOf = (call) => {
  try {
    call();
  } catch (refusal) {
    assert.ok(refusal instanceof Refusal, String(refusal.stack));
    return refusal.line;
  }
  return assert.fail("nothing was refused");
};
const lineOf = (call) => {
  try {
    call();
    return "";
  } catch (refusal) {
    return refusal.line;
  }
};
const near = (a, b, off = 1e-9) => assert.ok(Math.abs(a - b) <= off, `${a} is not ${b}`);
const same = (a, b) => a.kind === b.kind && a.turn === b.turn && a.shift.join() === b.shift.join();
const area = (polygon) =>
  polygon.reduce((sum, [x, y], i) => {
    const [u, v] = polygon[(i + 1) % polygon.length];
    return sum + (x * v - u * y) / 2;
  }, 0);
const areas = (patch) => Array.from({ length: patch.length }, (_, i) => area(patch.polygon(i)));

test("the module has no imports, at most 540 KB, and at most 200 KB gzipped", () => {
  const bytes = readFileSync(wasm);
  assert.deepEqual(WebAssembly.Module.imports(new WebAssembly.Module(bytes)), []);
  assert.ok(bytes.length <= 540000 && gzipSync(bytes, { level: 9 }).length <= 200000);
});

test("places", () => {
  assert.deepEqual(chair.place("0:"), { kind: 0, turn: 0, shift: [0, 0, 0, 0] });
  assert.deepEqual(chair.place("0:1/0,2/0"), { kind: 0, turn: 1, shift: [7, 1, 0, 0] });
  assert.deepEqual(p3.place("0:0/0,0/0"), { kind: 0, turn: 4, shift: [2, 0, 1, -1] });
  assert.deepEqual(p2.place("1:1/0"), { kind: 1, turn: 4, shift: [2, 0, 1, -1] });
  assert.deepEqual(ab.place("0:3/0"), { kind: 0, turn: 4, shift: [2, 2, 1, -1] });
});

test("neighbours", () => {
  assert.deepEqual(chair.neighbour("0:0/0", 0), { address: "0:1/0", edge: 3 });
  assert.deepEqual(chair.neighbour("0:1/0", 3), { address: "0:0/0", edge: 0 });
  assert.deepEqual(chair.neighbour("0:0/0,1/0", 4), { address: "0:1/0,0/0", edge: 7 });
  assert.deepEqual(p3.neighbour("0:0/0", 0), { address: "2:1/0", edge: 0 });
  assert.deepEqual(p3.neighbour("2:1/0,0/0", 2), { address: "3:1/2,1/0", edge: 0 });
  assert.deepEqual(p2.neighbour("1:1/0", 0), { address: "0:2/0", edge: 2 });
  assert.deepEqual(ab.neighbour("0:0/0", 1), { address: "1:1/0", edge: 2 });
  assert.deepEqual(ab.neighbour("1:1/0,6/0", 0), { address: "2:0/2,2/0", edge: 2 });
});

test("an address comes back in the form in which it was given", () => {
  const given = { kind: 2, digits: [{ child: 1, parent: 0 }, { child: 0, parent: 0 }] };
  assert.deepEqual(p3.read("2:1/0,0/0"), given);
  assert.equal(p3.write(given), "2:1/0,0/0");
  assert.deepEqual(p3.neighbour(given, 2).address, p3.read("3:1/2,1/0"));
  const bytes = p3.bytes("2:1/0,0/0");
  assert.equal(bytes.length, 130);
  assert.deepEqual(Array.from(bytes.subarray(0, 6)), [2, 2, 1, 0, 0, 0]);
  assert.equal(p3.write(p3.neighbour(bytes, 2).address), "3:1/2,1/0");
  assert.deepEqual(p3.place(bytes), p3.place("2:1/0,0/0"));
  assert.ok(p3.fits(given) && !p3.fits("2:9/0") && !p3.fits("nothing") && !p3.fits("0:".padEnd(5000, "0/0,")));
});

test("refusals have the name, the number and the fields of the command", () => {
  const outside = assert.throws(() => chair.neighbour("0:0/0", 4), { name: "Outside", status: 8, fields: [4, 0] });
  assert.equal(outside, undefined);
  assert.equal(refusalOf(() => chair.neighbour("0:0/0", 8)), "12 NoEdge 8 8");
  assert.equal(refusalOf(() => chair.neighbour("0:0/0", 300)), "12 NoEdge 300 8");
  assert.equal(refusalOf(() => p3.neighbour("0:0/0,0/0", 2)), "8 Outside 0 1");
  assert.equal(refusalOf(() => chair.place("0:4/0")), "4 BadAddress WrongChild 0");
  assert.equal(refusalOf(() => chair.place("3")), "4 BadAddress BadText 1");
  assert.equal(refusalOf(() => chair.place("1:")), "4 BadAddress UnknownKind 0");
  assert.equal(refusalOf(() => chair.neighbour("0:0/1", 0)), "4 BadAddress UnknownKind 1");
  assert.equal(refusalOf(() => chair.place({ kind: 1, digits: [] })), "4 BadAddress UnknownKind 0");
  assert.equal(refusalOf(() => chair.place(Uint8Array.of(1, ...new Uint8Array(129)))), "4 BadAddress UnknownKind 0");
  assert.equal(refusalOf(() => chair.place(`0:${Array(65).fill("0/0").join()}`)), "4 BadAddress TooDeep");
  assert.equal(refusalOf(() => chair.place(`0:${Array(40).fill("2/0").join()}`)), "6 CoordLimit 26843544,13421772,0,0");
  assert.equal(refusalOf(() => chair.star("0:", 8)), "15 NoVertex 8 8");
  assert.equal(refusalOf(() => chair.star(`0:${Array(64).fill("0/0").join()}`, 4)), `5 DepthLimit 0:${Array(64).fill("0/0").join()} 3`);
  assert.equal(refusalOf(() => chair.window({ at: [1000000, 1000000, 0, 0], half: [20, 10], seed: 10 })), "6 CoordLimit -16468338,-26972202,0,0");
  assert.equal(refusalOf(() => chair.window({ half: [2000, 1000] })), "7 TooManyTiles");
  assert.equal(refusalOf(() => chair.window({ half: [0, 1] })), "2 BadWords 5");
  assert.equal(refusalOf(() => chair.window({ half: [70000, 1] })), "2 BadWords 5");
  assert.equal(refusalOf(() => chair.prototile(1)), "2 BadWords");
  assert.equal(refusalOf(() => engine.open("penrose")), "2 BadWords 1");
  assert.equal(refusalOf(() => engine.open("format = 1\n")), "3 RuleRefused Missing order");
  assert.equal(refusalOf(() => engine.open(new Uint8Array(1 << 21))), "3 RuleTooLong");
  assert.equal(refusalOf(() => engine.call(["nonsense"])), "2 BadWords 0");
  assert.equal(refusalOf(() => engine.call("calc rule=chair", "show a\n")), "13 BadScript UnknownName 1");
  assert.match(new Refusal("8 Outside 4 0").message, /^8 Outside 4 0: the edge/);
  assert.throws(() => chair.window({ half: [0, 1] }), { message: /: half=0,1$/ });
});

test("a value of a wrong type is a TypeError", () => {
  const wrong = [
    () => p3.neighbour("2:", 1.5), () => p3.neighbour("2:", "1"), () => p3.place(7), () => p3.place(new Uint8Array(3)),
    () => p3.window({ at: [0, 0] }), () => p3.window({ seed: -1 }), () => p3.window({ seed: 5n }), () => p3.window({ seed: [1, 2 ** 32] }),
    () => p3.window({ half: [1] }), () => p3.prototile(undefined), () => p3.neighbourAll(["2:"], []), () => new Patch(), () => new Engine(),
    () => engine.open(7),
  ];
  for (const call of wrong) assert.throws(call, TypeError, String(call));
});

// A TypeError whose message has these words.
const wrongType = (call, words) => assert.throws(call, (fault) => fault instanceof TypeError && fault.message.includes(words));

test("a TypeError names the argument, and shows it", () => {
  const window = p3.window({ half: [6, 6] });
  wrongType(() => p3.neighbour("2:", "1"), 'an edge is a whole number, and not "1"');
  wrongType(() => p3.window({ half: 3 }), "half has two whole numbers, and is not 3");
  wrongType(() => p3.window({ at: [1, "2"] }), 'at has four whole numbers, and is not [1,"2"]');
  wrongType(() => p3.window({ seed: 5n }), "and not 5n");
  for (const count of [-1, 0, 1.5, "20", undefined]) wrongType(() => window.connected(count), "a count of tiles");
  wrongType(() => window.connected(2, "3"), 'x is a number, and not "3"');
  wrongType(() => window.connected(2, 3, NaN), "y is a number, and not NaN");
  wrongType(() => window.chosen((i) => i < 3), "chosen takes a list of numbers of tiles, and not a function");
  for (const tiles of ["12", 5, null, undefined]) wrongType(() => window.chosen(tiles), "chosen takes a list");
  wrongType(() => window.whole().chosen([0.5]), "a tile is a whole number, and not 0.5");
  assert.throws(() => window.polygon(window.length), { name: "RangeError", message: /^the patch has \d+ tiles, counted from 0, and none is \d+$/ });
});

test("an option that a call doesn't have is a TypeError", () => {
  const window = p3.window({ half: [6, 6] }), wrong = { halfs: [3, 3] };
  wrongType(() => p3.window(wrong), "window has no option halfs, but at, half, seed, base, addresses");
  const calls = [() => p3.meets(window, wrong), () => p3.verify(window, wrong), () => p3.draw(wrong), () => p3.tileAt([0, 0, 0, 0], wrong),
    () => p3.walk("0:", [], wrong), () => p3.star("0:", 0, wrong), () => window.toSVG(wrong)];
  for (const call of calls) wrongType(call, "has no option halfs");
  wrongType(() => window.toSVG({ colors: ["red"] }), "toSVG has no option colors, but width, colours, ids");
  wrongType(() => p3.window(null), "the options of window are an object, and not null");
  assert.equal(p3.verify(window, window), window.length); // (a window has the options of its own)
  assert.equal(p3.draw(window), p3.draw({ half: [6, 6] }));
  assert.deepEqual(p3.window(p3.window({ half: [6, 6], addresses: false })).addresses, window.addresses);
});

test("chosen keeps each tile once, in the order of the list", () => {
  const window = p3.window({ half: [6, 6] }), some = window.chosen([4, 1, 4, 1, 2]);
  assert.deepEqual([0, 1, 2].map((i) => some.address(i)), [4, 1, 2].map((i) => window.address(i)));
  assert.deepEqual([some.length, window.chosen(new Set([3, 5])).length, window.whole().chosen([1, 1]).length], [3, 2, 1]);
});

test("connected grows from the middle of the window, or from the place that is asked for", () => {
  const window = p3.window({ at: [1000, 200, 0, 0], half: [12, 12] }), [x, y] = p3.xy(window.at);
  const board = window.whole().connected(20), middle = window.find(x, y);
  assert.ok(board.find(x, y) >= 0 && window.connected(1).address(0) === window.address(middle));
  assert.deepEqual(window.connected(20).shifts, window.connected(20, x, y).shifts);
  assert.deepEqual(window.chosen(window.kinds.keys()).connected(5).shifts, window.connected(5).shifts);
  assert.notDeepEqual(window.connected(5, x - 8, y - 6).shifts, window.connected(5).shifts);
});

test("a refusal of an address echoes it, and says which are two", () => {
  const joined = p3.window({ half: [4, 4] }).whole().address(0);
  const calls = [["nonsense", () => p3.place("nonsense")], ["9:", () => p3.window({ base: "9:" })], ["9:", () => p3.star("9:", 0)], ["9:", () => p3.pair("2:", "9:")],
    ["99:", () => p3.read({ kind: 99, digits: [] })], ["0:0/9", () => p3.neighbour("0:0/9", 0)], ["9:", () => engine.call("place rule=p3 addr=9:")]];
  for (const [address, call] of calls) assert.throws(call, (it) => it.name === "BadAddress" && it.message.endsWith(`: addr=${address}`));
  assert.throws(() => p3.place(joined), (it) => it.message.endsWith(`: addr=${joined}, which are two halves, of which a call takes one`));
  assert.throws(() => p3.place("0:".padEnd(9999, "0/0,")), (it) => it.name === "BadAddress" && it.message.length < 600);
  assert.ok(!p3.fits(joined));
});

test("tiles of another tiling are a TypeError", async () => {
  const other = chair.window({ half: [4, 4] }), place = { half: [4, 4], seed: 3 };
  wrongType(() => p3.verify(other), "these tiles are of the tiling of chair, and not of p3");
  wrongType(() => p3.meets(other.chosen([0])), "these tiles are of the tiling of chair, and not of p3");
  const again = engine.open("p3"), file = await engine.openFile("penrose_p3"), third = await engine.openFile("sphinx");
  for (const tiling of [p3, again, file]) assert.equal(p3.verify(tiling.window(place), place), p3.window(place).length);
  wrongType(() => file.meets(third.window(place)), "of the tiling of another rule file, and not of this rule file");
});

test("what Engine.load can't take is a TypeError that says what it takes", async () => {
  const other = Uint8Array.of(0, 97, 115, 109, 1, 0, 0, 0);
  for (const source of [null, 5, {}, new Uint8Array(8), other, WebAssembly.compile(other), readFileSync(new URL("rules/chair.toml", top))]) {
    await assert.rejects(Engine.load(source), { name: "TypeError", message: /^Engine.load takes a URL, a path, the bytes, a response or the compiled module of tiling.wasm/ });
  }
  await assert.rejects(Engine.load({ ok: false, status: 404, url: "tiling.wasm" }), { message: "tiling.wasm can't be read: 404" });
});

test("a list of colours goes to the kinds that occur, and a colour is a text", () => {
  const wholes = p3.window({ half: [6, 6] }).whole(), colours = ["#111111", "#222222"];
  const fills = (patch, wanted) => [...patch.toSVG({ colours: wanted }).matchAll(/fill="([^"]*)"/g)].map((it) => it[1]);
  assert.deepEqual(fills(wholes, colours), Array.from(wholes.kinds, (kind) => colours[kind / 2]));
  const thick = wholes.chosen([...wholes.kinds.keys()].filter((i) => wholes.kinds[i] === 2));
  assert.deepEqual(new Set(fills(thick, colours)), new Set(["#111111"]));
  assert.deepEqual(new Set(fills(thick, (tile, patch) => colours[patch.kinds[tile] / 2])), new Set(["#222222"]));
  wrongType(() => wholes.toSVG({ colours: () => undefined }), "the colour of tile 0 is a text, and not undefined");
  wrongType(() => wholes.toSVG({ colours: [] }), "the colour of tile 0 is a text");
  wrongType(() => wholes.toSVG({ colours: "red" }), 'colours are a list or a function, and not "red"');
});

test("the edges of a whole tile: after the first half's glue edge those of it, and then those of the second", () => {
  for (const tiling of [p2, p3]) {
    const wholes = tiling.window({ half: [6, 6] }).whole(), key = (points) => points.join();
    for (let i = 0; i < wholes.length; i++) {
      const halves = wholes.halves(i), own = halves.flatMap((half) => {
        const corners = tiling.corners(half), count = tiling.edges(half.kind), glue = tiling.glueEdge(half.kind);
        const steps = Array.from({ length: count - 1 }, (_, step) => (glue + 1 + step) % count);
        return steps.map((edge) => key(corners.subarray(4 * edge, 4 * edge + 4)));
      });
      const outline = wholes.outlines().subarray(4 * i * wholes.most, 4 * (i * wholes.most + wholes.counts[i]));
      assert.equal(halves.length, 2);
      assert.deepEqual(Array.from({ length: wholes.counts[i] }, (_, corner) => key(outline.subarray(4 * corner, 4 * corner + 4))), own);
    }
  }
});

test("what the command prints", () => {
  assert.equal(engine.call(["place", "rule=chair", "addr=0:1/0,2/0"]), "0 1 7,1,0,0\n");
  assert.equal(engine.call("walk rule=chair seed=42 addr=0: path=0,3"), "0 0 0,0,0,0 0:3/0 -\n0 1 3,1,0,0 0:1/0 1\n0 1 4,0,0,0 0:0/0 0\n");
  assert.equal(engine.call("check rule=-", ruleText("sphinx")), "accepted order 6 kinds 2 types 3\n");
  assert.equal(engine.call("verify rule=chair seed=42 addr=0: at=1,1,0,0 half=2,1", "0 1 3,1,0,0 0:1/0\n0 0 0,0,0,0 0:\n"), "right 2\n");
  assert.ok(engine.call("draw rule=p3 addr=0: at=0,0,0,0 half=60,60 layers=svg").length > 400000);
});

test("walks and stars are the command's", () => {
  const told = (tiles) => tiles.map((it) => `${it.kind} ${it.turn} ${it.shift} ${it.address} ${it.number ?? "-"}\n`).join("");
  assert.equal(told(chair.walk("0:", [0, 3], { seed: 42 })), engine.call("walk rule=chair seed=42 addr=0: path=0,3"));
  assert.equal(told(chair.walk("0:", [], { seed: 42, grow: 6 })), "0 0 0,0,0,0 0:3/0,1/0,0/0,3/0,3/0,2/0 -\n");
  assert.equal(told(p3.walk("0:", [], { seed: 42, grow: 3 })), "0 0 0,0,0,0 0:2/3,1/1,0/1 -\n");
  for (const [tiling, vertex] of [[p3, 0], [p2, 1], [ab, 2], [chair, 5], [halfhex, 3]]) {
    const words = ["star", `rule=${tiling.name}`, "addr=0:", `vertex=${vertex}`, "seed=9"];
    assert.equal(told(tiling.star("0:", vertex, { seed: 9 })), engine.call(words));
  }
  assert.equal(refusalOf(() => chair.walk("0:", [0, 9])), engine.closed ? "" : refusalOf(() => engine.call("walk rule=chair addr=0: path=0,9")));
});

const listed = (patch) =>
  Array.from({ length: patch.length }, (_, i) => {
    const { kind, turn, shift } = patch.tile(i);
    return `${kind} ${turn} ${shift} ${patch.address(i)}\n`;
  }).join("");

test("a window's tiles are those of `draw`, for every rule", () => {
  const names = readdirSync(new URL("rules/", top)).filter((it) => it.endsWith(".toml"));
  assert.ok(names.length >= 45);
  const rules = [chair, p2, p3, ab, halfhex, ...names.map((name) => engine.open(ruleText(name.slice(0, -5))))];
  for (const [i, tiling] of rules.entries()) {
    const place = { at: [i, -2 * i, 0, 0], half: [7, 5], seed: 1000003 * i };
    const window = tiling.window(place);
    assert.equal(listed(window), tiling.draw({ ...place, layers: ["list"] }));
    const pairs = tiling.draw({ ...place, layers: ["list"], whole: true }).split("\n").filter(Boolean);
    const wholes = window.whole();
    assert.equal(wholes.length, pairs.length);
    const said = Array.from({ length: wholes.length }, (_, k) => wholes.halves(k).map((it) => `${it.kind} ${it.turn} ${it.shift} ${it.address}`).join(" + "));
    assert.deepEqual(said, pairs);
    drawnAlike(tiling, window, place, false);
    drawnAlike(tiling, wholes, place, true);
  }
});

// The polygons of a patch, beside those of the engine's own picture, which rounds 2000 x and 1000 y / sin(360°/order) from
// its centre down.
function drawnAlike(tiling, patch, place, whole) {
  const paths = tiling.draw({ ...place, layers: ["svg"], whole }).matchAll(/ d="M([^"]*)Z"/g), sine = Math.sin((2 * Math.PI) / tiling.order);
  const [left, low] = tiling.xy(place.at);
  let count = 0;
  for (const [i, [, path]] of [...paths].entries()) {
    const corners = path.split("L").map((it) => it.split(" ").map(Number));
    const found = patch.polygon(i).map(([x, y]) => [2000 * (x - left), (1000 * (y - low)) / sine]);
    assert.equal(found.length, corners.length);
    corners.forEach(([x, y], corner) => near(found[corner][0], x, 1.001) ?? near(found[corner][1], y, 1.001));
    count++;
  }
  assert.equal(count, patch.length);
}

test("the neighbours of a window are those of the engine", () => {
  for (const tiling of [chair, p2, p3, ab, halfhex]) {
    const window = tiling.window({ half: [8, 6], seed: 5 }), near = window.neighbours(), { most, counts } = window;
    let asked = 0;
    for (let tile = 0; tile < window.length; tile++) {
      for (let edge = 0; edge < counts[tile]; edge++) {
        const other = near[tile * most + edge];
        if (other < 0) continue;
        assert.equal(tiling.neighbour(window.address(tile), edge).address, window.address(other));
        asked++;
      }
    }
    assert.ok(asked > 100);
    const adjacency = window.adjacency();
    assert.equal(adjacency.length / 4, asked / 2);
    for (let i = 0; i < adjacency.length; i += 4) {
      const [a, b, mine, theirs] = adjacency.subarray(i, i + 4);
      const { relation, edges } = tiling.pair(window.address(a), window.address(b));
      assert.equal(relation, "beside");
      assert.ok(edges.some((it) => it[0] === mine && it[1] === theirs));
    }
  }
  assert.equal(p3.pair("2:1/0,0/0", "2:1/0,0/0").relation, "same");
  assert.equal(p3.pair("0:0/0", "1:0/1").relation, "strangers");
});

test("a connected patch without holes has one more vertex and tile than edges (Euler)", () => {
  for (const tiling of [chair, p2, p3, ab, halfhex]) {
    const board = tiling.window({ half: [20, 16] }).whole().connected(60);
    assert.equal(board.length, 60);
    const reached = new Set([0]), { most } = board;
    for (const tile of reached) for (const other of board.neighbours().subarray(tile * most, tile * most + most)) if (other >= 0) reached.add(other);
    assert.equal(reached.size, 60);
    assert.equal(board.vertices().length / 4 - board.edges().length / 2 + 60, 1);
    for (const it of areas(board)) assert.ok(it > 0.1);
  }
  assert.throws(() => chair.window({ half: [2, 2] }).connected(500), RangeError);
});

test("the eight vertex stars of Penrose's rhombs, with de Bruijn's shares", () => {
  const stars = p3.window({ half: [130, 130] }).whole().stars(), all = stars.reduce((sum, star) => sum + star.count, 0);
  const thick = stars.map(({ corners }) => corners.filter(([kind]) => kind === 2).length);
  assert.deepEqual(thick, [2, 3, 1, 3, 3, 5, 4, 5]);
  const powers = [2, 3, 4, 5, 6].map((power) => GOLDEN ** -power);
  stars.slice(0, 5).forEach((star, i) => near(star.count / all, powers[i], 0.005));
});

test("shares of tiles", () => {
  const share = (patch, kind) => patch.kinds.reduce((sum, it) => sum + (it === kind), 0) / patch.length;
  const rhombs = p3.window({ half: [120, 100] }).whole();
  near(share(rhombs, 2), 1 / GOLDEN, 0.005); // (thick to thin is as the golden ratio)
  const beenker = ab.window({ half: [120, 100] }).whole();
  near(share(beenker, 0), Math.SQRT2 / (1 + Math.SQRT2), 0.005); // (rhombs to squares is as the root of 2)
});

test("perpendicular space: pentagons of radius 1 and phi, an octagon of width 1 + root 2", () => {
  const patch = p3.window({ half: [130, 130] }).whole(), places = patch.perpendicular(), vertices = patch.vertices();
  const classes = [[], [], [], [], []];
  for (let i = 0; i < places.length / 2; i++) {
    const sum = vertices[4 * i] - vertices[4 * i + 1] + vertices[4 * i + 2] - vertices[4 * i + 3];
    classes[((sum % 5) + 5) % 5].push([places[2 * i], places[2 * i + 1]]);
  }
  const mean = (list) => list.reduce((sum, it) => sum + it, 0) / list.length;
  const radius = (some) => {
    const [x, y] = [mean(some.map((it) => it[0])), mean(some.map((it) => it[1]))];
    return Math.max(...some.map(([u, v]) => Math.hypot(u - x, v - y)));
  };
  const radii = classes.filter((some) => some.length).map(radius).sort((a, b) => a - b);
  assert.equal(radii.length, 4);
  [1, 1, GOLDEN, GOLDEN].forEach((wanted, i) => near(radii[i], wanted, 0.03));
  const octagon = ab.window({ half: [120, 110] }).whole().perpendicular().filter((_, i) => i % 2 === 0);
  near(Math.max(...octagon) - Math.min(...octagon), 1 + Math.SQRT2, 0.06);
  assert.throws(() => chair.window().perpendicular(), TypeError);
});

test("factors", () => {
  assert.deepEqual(chair.factor, [2, 0, 0, 0]);
  assert.deepEqual(p2.factor, [1, 0, 1, -1]);
  assert.deepEqual(p3.factor, [1, 0, 1, -1]);
  assert.deepEqual(ab.factor, [1, 1, 0, -1]);
  assert.deepEqual(halfhex.factor, [2, 0, 0, 0]);
  for (const name of readdirSync(new URL("rules/", top)).filter((it) => it.endsWith(".toml"))) {
    const text = ruleText(name.slice(0, -5)), factor = /^lambda\s*=\s*\[([^\]]*)\]/m.exec(text)[1].split(",").map(Number);
    assert.deepEqual(engine.open(text).factor, factor, name);
  }
});

// The numbers of a rule file: all lists that a key has, in their order.
function numbersOf(text) {
  const found = {}, plain = text.replace(/#.*$/gm, "");
  for (const [, key, value] of plain.matchAll(/^(\w+)\s*=\s*([^=]*?)\s*(?=^\w+\s*=|^\[|(?![\s\S]))/gm)) {
    (found[key] ??= []).push(JSON.parse(value.replace(/,(\s*\])/g, "$1")));
  }
  return found;
}

test("the numbers of each rule are those of its file", () => {
  for (const name of readdirSync(new URL("rules/", top)).filter((it) => it.endsWith(".toml"))) {
    const text = ruleText(name.slice(0, -5)), rule = engine.open(text).rule(), file = numbersOf(text);
    assert.deepEqual([[rule.format], [rule.order], [rule.factor]], [file.format, file.order, file.lambda], name);
    assert.deepEqual([[rule.glue], rule.types.map((it) => it.mate)], [file.glue, file.mate], name);
    assert.deepEqual(rule.types.map((it) => it.parts), file.parts, name);
    assert.deepEqual(rule.kinds.map((it) => it.edges), file.edges, name);
    assert.deepEqual(rule.kinds.map((it) => Array.from(it.vertices)), file.vertices.map((it) => it.flat()), name);
    const children = rule.kinds.map((it) => it.children.map(({ kind, turn, shift }) => [kind, turn, ...shift]));
    assert.deepEqual(children, file.children, name);
  }
  assert.deepEqual(p3.rule().kinds[2].children[1], { kind: 3, turn: 0, shift: [0, 0, 1, -1] });
  assert.deepEqual(Object.keys(p3.rule()), ["order", "format", "factor", "glue", "types", "kinds"]);
});

test("which tiles of one window meet another: those that the other has, too", () => {
  const name = (patch, i) => JSON.stringify(patch.tile(i));
  for (const tiling of [chair, p2, p3, ab, halfhex]) {
    const box = { at: [9, 3, 0, 0], half: [8, 11] }, first = tiling.window({ seed: 4 }), second = tiling.window({ seed: 4, ...box });
    const there = new Set(Array.from({ length: second.length }, (_, i) => name(second, i)));
    const flags = tiling.meets(first, box);
    flags.forEach((flag, i) => assert.equal(flag, Number(there.has(name(first, i)))));
    assert.ok(flags.includes(0) && flags.includes(1));
    assert.ok(tiling.meets(second, box).every((flag) => flag === 1));
    assert.equal(refusalOf(() => tiling.meets(first, { half: [0, 1] })), "2 BadWords");
    assert.equal(refusalOf(() => tiling.meets({ kinds: [99], turns: [0], shifts: [0, 0, 0, 0] })), "2 BadWords");
  }
  assert.throws(() => chair.meets({ kinds: [0], turns: [0], shifts: [0, 0.5, 0, 0] }), TypeError);
});

test("supertiles: each tile lies in one, whose area is that of its tiles", () => {
  const sphinx = engine.open(ruleText("sphinx")), turned = engine.open(ruleText("half_square_two"));
  for (const [tiling, level] of [[chair, 1], [chair, 3], [p3, 2], [p2, 3], [ab, 1], [halfhex, 2], [sphinx, 2], [turned, 3]]) {
    const window = tiling.window({ half: [30, 24], seed: 8 }), supertiles = window.supertiles(level);
    assert.ok(supertiles.length > 1 && supertiles.length < window.length);
    const middles = window.middles(), inside = new Float64Array(supertiles.length), tiles = areas(window);
    for (let i = 0; i < window.length; i++) {
      const holding = supertiles.find(middles[2 * i], middles[2 * i + 1]);
      assert.ok(holding >= 0, `${tiling.name} ${level}: tile ${i} lies in none`);
      const digits = tiling.read(window.address(i)).digits.slice(level);
      assert.deepEqual(tiling.read(supertiles.address(holding)).digits, digits);
      inside[holding] += tiles[i];
    }
    const whole = areas(supertiles).filter((it, i) => Math.abs(it - inside[i]) < 1e-6);
    assert.ok(whole.length > 0, "a supertile lies wholly in the window");
    areas(supertiles).forEach((it, i) => assert.ok(it >= inside[i] - 1e-6));
  }
});

test("points and lengths", () => {
  for (const tiling of [chair, p2, p3, ab, halfhex]) {
    for (const [x, y] of [[0, 0], [3.3, -7.7], [-100.4, 55.5]]) {
      const [u, v] = tiling.xy(tiling.pointNear(x, y));
      assert.ok(Math.abs(u - x) <= 0.5000001 && Math.abs(v - y) <= 0.5000001);
    }
  }
  assert.deepEqual(p3.halfFor(40, 30), [40, 26]); // (15 / sin 36° is 25.5)
  assert.deepEqual(chair.halfFor(7, 7), [7, 4]);
  assert.deepEqual(p3.turnedPoint([1, 2, 3, 4], 10), [1, 2, 3, 4]);
  const shape = p3.shape(2, 3), corners = p3.xy(p3.corners({ kind: 2, turn: 3, shift: [5, 0, 0, 0] }));
  shape.forEach((value, i) => near(corners[i], value + (i % 2 ? 0 : 5)));
  assert.deepEqual(Array.from(halfhex.prototile(0)).length, 4 * halfhex.edges(0));
  assert.deepEqual([0, 1, 2, 3].map((kind) => p3.glueEdge(kind) !== null), [true, true, true, true]);
  assert.equal(chair.glueEdge(0), null);
});

test("the tile at a point", () => {
  for (const tiling of [chair, p2, p3, ab, halfhex]) {
    const window = tiling.window({ half: [15, 9], seed: 77 });
    for (let x = -6; x <= 6; x += 1.37) {
      const point = tiling.pointNear(x, x / 2), [u, v] = tiling.xy(point), { address, ...tile } = tiling.tileAt(point, { seed: 77 });
      const number = Array.from({ length: window.length }, (_, i) => i).find((i) => same(window.tile(i), tile));
      assert.ok(number >= 0 && window.address(number).startsWith(address));
      assert.ok(window.find(u, v) >= 0);
      assert.equal(window.chosen([number]).find(u, v), 0);
    }
  }
  const top = { kind: 0, turn: 0, shift: [0, 0, 0, 0] };
  assert.equal(chair.locate(top, 1, [1, 1, 0, 0]).kind, 0);
  assert.equal(refusalOf(() => chair.locate(top, 1, [99, 0, 0, 0])), "8 Outside");
});

test("what locate and tileAt refuse says which argument is wrong, or the first value that is too far out", () => {
  const top = { kind: 0, turn: 0, shift: [0, 0, 0, 0] }, far = 2 ** 20;
  for (const wrong of [{ kind: 1 }, { turn: 4 }, { shift: [2 ** 24 + 1, 0, 0, 0] }]) {
    assert.equal(refusalOf(() => chair.locate({ ...top, ...wrong }, 1, [0, 0, 0, 0])), "2 BadWords 1");
  }
  for (const depth of [65, -1]) assert.equal(refusalOf(() => chair.locate(top, depth, [0, 0, 0, 0])), "2 BadWords 2");
  assert.equal(refusalOf(() => chair.locate(top, 1, [far + 1, 0, 0, 0])), "2 BadWords 3");
  // a power of the factor, a corner of the supertile, the shift of a child, and a corner of one
  assert.equal(refusalOf(() => chair.locate(top, 30, [0, 0, 0, 0])), `6 CoordLimit ${2 ** 25},0,0,0`);
  const moved = (...shift) => ({ ...top, shift: [...shift, 0, 0] });
  assert.equal(refusalOf(() => chair.locate(moved(2 ** 24, 0), 1, [0, 0, 0, 0])), `6 CoordLimit ${2 ** 24 + 2},2,0,0`);
  for (const tiling of [chair, p2, p3, ab, halfhex]) {
    const free = tiling.order > 6 ? 4 : 2;
    const values = Array.from({ length: 40 }, (_, i) => [0, 1, 2, 3].map((k) => (k < free ? ((7919 * (i + k)) % 33 - 16) << 20 : 0)));
    for (const [i, shift] of values.entries()) {
      const line = lineOf(() => tiling.locate({ kind: 0, turn: 0, shift }, i % 24, shift.map((it) => Math.max(-far, Math.min(far, it)))));
      const [, name, value] = line.split(" ");
      if (name === "CoordLimit") assert.ok(value.split(",").some((it) => Math.abs(it) > 2 ** 24), line);
      else assert.ok(["", "8 Outside"].includes(line), line);
    }
  }
  assert.equal(refusalOf(() => p3.tileAt([far + 1, 0, 0, 0])), "2 BadWords 4");
  assert.equal(refusalOf(() => p3.tileAt([0, 0, 0, 0], { base: "9:" })), "4 BadAddress UnknownKind 0");
  const point = [-far, far, 0, 0], seeds = [...Array(200).keys()];
  const seed = seeds.find((it) => lineOf(() => p3.tileAt(point, { seed: it })).startsWith("6 "));
  assert.equal(refusalOf(() => p3.tileAt(point, { seed })), refusalOf(() => p3.window({ at: point, half: [1, 1], seed })));
});

test("many at once are as one by one", () => {
  const window = ab.window({ half: [6, 6] }), texts = Array.from({ length: window.length }, (_, i) => window.address(i));
  const places = ab.placeAll(window.addresses);
  texts.forEach((text, i) => {
    const { kind, turn, shift } = ab.place(text);
    assert.deepEqual([places.kinds[i], places.turns[i], ...places.shifts.subarray(4 * i, 4 * i + 4), places.statuses[i]], [kind, turn, ...shift, 0]);
  });
  const edges = texts.map((_, i) => i % 5), across = ab.neighbourAll(texts, edges), told = ab.texts(across.addresses);
  texts.forEach((text, i) => {
    try {
      const { address, edge } = ab.neighbour(text, edges[i]);
      assert.deepEqual([told[i], across.edges[i], across.statuses[i]], [address, edge, 0]);
    } catch (refusal) {
      assert.deepEqual([told[i], across.statuses[i]], [text, refusal.status]);
      if (refusal.status === 8) assert.deepEqual([across.edges[i], across.parts[i]], refusal.fields);
    }
  });
  assert.deepEqual(Array.from(ab.placeAll(["0:", "9:", "none", "1:0/9"]).statuses), [0, 4, 4, 4]);
});

test("listings", () => {
  const place = { half: [5, 5], seed: 42 }, window = chair.window(place), text = chair.draw({ ...place, layers: ["list"] });
  assert.equal(chair.verify(window, place), window.length);
  assert.equal(chair.verify(text, place), window.length);
  const reversed = window.chosen(Array.from({ length: window.length }, (_, i) => window.length - 1 - i));
  assert.equal(chair.verify(reversed, place), window.length);
  assert.equal(refusalOf(() => chair.verify(window.chosen([0, 1, 2]), place)), "17 BadListing Missing");
  assert.equal(refusalOf(() => chair.verify(chair.window({ half: [6, 6], seed: 42 }), place)).replace(/\d+$/, "n"), "17 BadListing Stray n");
  const { kinds, turns, addresses } = window, shifts = window.shifts.slice();
  const twice = { kinds: [0, 0], turns: [turns[0], turns[0]], shifts: [...shifts.slice(0, 4), ...shifts.slice(0, 4)] };
  const double = { ...twice, addresses: [window.address(0), window.address(0)] };
  assert.equal(refusalOf(() => chair.verify(double, place)), "17 BadListing Double 1");
  shifts[4] += 1;
  assert.equal(refusalOf(() => chair.verify({ kinds, turns, shifts, addresses }, place)), "17 BadListing WrongPlace 1");
  assert.match(refusalOf(() => chair.verify("", place)), /^17 BadListing Missing 0:/);
});

test("seeds", () => {
  const said = (seed) => listed(p3.window({ half: [6, 4], seed }));
  assert.equal(said(7), said([7, 0]));
  assert.equal(said(2 ** 32 * 5 + 9), said([9, 5]));
  assert.equal(said([1, 2 ** 32 - 1]), p3.draw({ half: [6, 4], seed: [1, 2 ** 32 - 1], layers: ["list"] }));
  assert.ok(p3.drawWords({ seed: [1, 2 ** 32 - 1] }).includes("seed=18446744069414584321"));
  assert.notEqual(said(1), said(2));
});

test("a window stays as it was when the engine finds the next", () => {
  const first = p3.window({ half: [9, 9], seed: 1 }), text = p3.draw({ half: [9, 9], seed: 1, layers: ["list"] });
  const second = p3.window({ half: [9, 9], seed: 2 });
  const largest = p3.window({ half: [130, 130] }); // (memory grows here)
  assert.ok(largest.length > 4096);
  assert.equal(listed(first), text);
  assert.equal(listed(second), p3.draw({ half: [9, 9], seed: 2, layers: ["list"] }));
  const third = p3.window({ half: [9, 9], seed: 1 }), kinds = third.kinds;
  third.free();
  assert.deepEqual(third.kinds, kinds);
  assert.throws(() => third.shifts, /free/);
  const unnamed = p3.window({ addresses: false });
  assert.throws(() => unnamed.addresses, TypeError);
  assert.equal(unnamed.length, p3.window().length);
  assert.ok(unnamed instanceof Window && unnamed instanceof Patch);
});

test("several engines, and one that is closed", async () => {
  const bytes = readFileSync(wasm), module = await WebAssembly.compile(bytes);
  const one = await Engine.load(bytes), other = await Engine.load(module), third = await Engine.load(Promise.resolve(bytes));
  const window = one.open("p3").window({ half: [6, 5], seed: 3 });
  const same = other.open("p3").window({ half: [6, 5], seed: 3 });
  const asked = one.open("p3").window({ half: [6, 5], seed: 3 }), vertices = asked.vertices();
  one.close();
  one.close();
  assert.equal(asked.vertices(), vertices);
  assert.deepEqual([asked.edges(), asked.stars(), asked.xy()], [same.edges(), same.stars(), same.xy()]);
  assert.deepEqual(asked.polygon(3), same.polygon(3));
  assert.ok(one.closed && !other.closed);
  assert.deepEqual(window.kinds, same.kinds);
  assert.deepEqual(window.addresses, same.addresses);
  assert.throws(() => window.tiling.place("0:"), /closed/);
  assert.deepEqual(window.chosen([1]).shifts, same.chosen([1]).shifts);
  assert.deepEqual(window.positions(), same.positions());
  assert.throws(() => window.vertices(), /closed/);
  assert.throws(() => window.address(0), /closed/);
  assert.throws(() => one.open("p3"), /closed/);
  assert.equal(third.call("check rule=p3"), other.call("check rule=p3"));
  assert.ok(third.memoryBytes > 1 << 20);
});

test("rule files", async () => {
  const sphinx = await engine.openFile("sphinx"), text = ruleText("sphinx");
  assert.deepEqual([sphinx.order, sphinx.kinds, sphinx.name], [6, 2, "-"]);
  assert.equal(listed(sphinx.window()), listed(engine.open(text).window()));
  assert.equal(listed(sphinx.window()), listed(engine.open(new TextEncoder().encode(text)).window()));
  assert.equal((await engine.openFile(new URL("rules/sphinx.toml", top))).kinds, 2);
  assert.ok(ruleFile("sphinx").href.endsWith("/js/rules/sphinx.toml"));
  assert.deepEqual(Engine.ruleFiles, readdirSync(new URL("rules/", top)).filter((it) => it.endsWith(".toml")).map((it) => it.slice(0, -5)).sort());
  assert.equal((await engine.openFile("sphinx.toml")).kinds, 2);
  await assert.rejects(engine.openFile("nowhere.toml"), /nowhere\.toml/);
  const rejected = [["sphynx", "such as sphinx, sphinx_nine"], ["p3", "open takes chair, p2, p3, ab, halfhex"], ["p3", "such as penrose_p3"], ["", "Engine.ruleFiles"]];
  for (const [name, words] of rejected) {
    await assert.rejects(engine.openFile(name), (it) => it.line === "2 BadWords 1" && it.message.includes(`openFile knows no "${name}"; `) && it.message.includes(words));
  }
  await assert.rejects(engine.openFile(undefined), { name: "TypeError", message: /^openFile takes a name, a URL or a path, and not undefined$/ });
  for (const name of ["sphinx", "penrose", ""]) {
    assert.throws(() => engine.open(name), { line: "2 BadWords 1", message: new RegExp(`: open knows no "${name}"; open takes chair, p2, p3, ab, halfhex; openFile takes .*${name}`) });
  }
  assert.match(refusalOf(() => sphinx.place("0:9/0")), /^4 BadAddress WrongChild 0$/);
  assert.equal(refusalOf(() => sphinx.window({ half: [4096, 4096] })), "7 TooManyTiles");
});

test("a board as JSON and as a picture", () => {
  const board = p3.window().whole().connected(60), json = JSON.parse(JSON.stringify(board));
  assert.equal(json.tiles.length, 60);
  assert.equal(json.made_by, "tiling draw rule=p3 seed=0 addr=0: at=0,0,0,0 half=20,12 glue=yes layers=svg,list");
  for (const { id, corners, neighbours } of json.tiles) {
    assert.equal(corners.length, 4);
    neighbours.forEach((other) => other === null || assert.ok(json.tiles[other].neighbours.includes(id)));
    const at = corners.map((vertex) => json.vertices[vertex]);
    at.forEach(({ x, y }, i) => near(Math.hypot(x - at[(i + 1) % 4].x, y - at[(i + 1) % 4].y), 1, 1e-8));
  }
  const svg = board.toSVG({ width: 500, colours: ["red", "<b>"], ids: true });
  assert.equal(svg.match(/<polygon /g).length, 60);
  assert.match(svg, /fill="&lt;b&gt;"/);
  assert.equal(board.toSVG({ colours: (tile) => `#${tile}` }).match(/fill="#59"/g).length, 1);
});

test("the module runs in a worker", async () => {
  const code = `import { parentPort, workerData } from "node:worker_threads";
    const { Engine } = await import(workerData.module);
    parentPort.postMessage((await Engine.load(workerData.wasm)).open("p3").window().kinds);`;
  const data = { module: new URL("js/pagnetuf.js", top).href, wasm };
  const worker = new Worker(new URL(`data:text/javascript,${encodeURIComponent(code)}`), { workerData: data });
  const kinds = await new Promise((resolve, reject) => worker.once("message", resolve).once("error", reject));
  assert.deepEqual(kinds, p3.window().kinds);
});

test("each function of the header is called, and each member of the types is there", () => {
  const header = readFileSync(new URL("include/tiling.h", top), "utf8"), source = readFileSync(new URL("js/pagnetuf.js", top), "utf8");
  const functions = [...header.matchAll(/^\w+ (tiling_\w+)\(/gm)].map((it) => it[1]);
  const unused = functions.filter((name) => !source.includes(`.${name}(`));
  assert.deepEqual(unused, ["tiling_share"]); // (JavaScript shares an object by itself)
  const types = readFileSync(new URL("js/pagnetuf.d.ts", top), "utf8"), window = p3.window(), whole = window.whole();
  const things = { Engine: [engine, Engine], Tiling: [p3], Patch: [window], Window: [window], WholePatch: [whole] };
  for (const [, name, body] of types.matchAll(/^export declare class (\w+)[^{]*\{([\s\S]*?)^\}/gm)) {
    if (!things[name]) continue;
    const members = [...body.matchAll(/^  (?:static )?(?:readonly )?(\w+)[(<:]/gm)].map((it) => it[1]);
    assert.ok(members.length > 1);
    for (const member of members) assert.ok(things[name].some((it) => member in it), `${name}.${member}`);
  }
});
