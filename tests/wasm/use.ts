// What people write in TypeScript, against js/pagnetuf.d.ts: tsc --noEmit. It is compiled, and never run.
import { Address, Board, Engine, Named, Patch, Placed, Refusal, Rule } from "../../js/pagnetuf.js";
import { Tiling, WholePatch, Window } from "../../js/pagnetuf.js";

async function use(): Promise<void> {
  const engine: Engine = await Engine.load(new URL("tiling.wasm", "file:///"));
  const other = await Engine.load(fetch("tiling.wasm"));
  const third = await Engine.load(new Uint8Array(8)), files: Tiling[] = await Promise.all(Engine.ruleFiles.map((it) => third.openFile(it)));
  const p3: Tiling = engine.open("p3");
  const turn: number = p3.place("2:1/0,0/0").turn;
  const text: string = p3.neighbour("2:1/0,0/0", 2).address;
  const object: Address = p3.neighbour({ kind: 2, digits: [] }, turn).address;
  const bytes: Uint8Array = p3.neighbour(p3.bytes(text), 2).address;
  const window: Window = p3.window({ at: [0, 0, 0, 0], half: [20, 12], seed: [1, 2] });
  const wholes: WholePatch = window.whole().connected(60);
  const halves: Named<string>[] = wholes.halves(0);
  const kinds: Uint8Array = wholes.kinds, xy: Float64Array = wholes.xy(), shifts: Int32Array = window.shifts;
  const rule: Rule = p3.rule(), child: Placed = rule.kinds[0].children[0];
  const met: Uint8Array = p3.meets(window, { half: [9, 9] });
  const patch: Patch = window.supertiles(2).chosen(new Set([0])), count: number = p3.verify(window, window);
  const board: Board = patch.toJSON(), star: string = p3.star(text, 0).map((it) => it.address).join();
  const svg: string = p3.draw({ layers: ["svg", "list"], whole: true }) + wholes.toSVG({ colours: (tile) => `#${tile}` });
  try {
    engine.call(["place", "rule=p3", "addr=2:1/0"], bytes);
  } catch (refusal) {
    if (refusal instanceof Refusal && refusal.name === "Outside") console.log(refusal.status, refusal.fields[0]);
  }
  console.log(other.closed, third.memoryBytes, object.digits[0].child, halves, kinds, xy, shifts, board, star, svg);
  console.log(child, met, count, files);
  // @ts-expect-error: there is no such layer
  p3.draw({ layers: ["png"] });
  // @ts-expect-error: a seed is no BigInt
  p3.window({ seed: 5n });
}

export { use };
