// Aperiodic substitution tilings, exactly: the engine of tiling.wasm for JavaScript. docs/JAVASCRIPT.md begins with
// twenty lines that run; docs/FORMATS.md has the texts, and docs/COORDINATES.md the points.
//
//     import { Engine } from "pagnetuf";
//     const p3 = (await Engine.load()).open("p3");
//     p3.place("2:1/0,0/0");          // { kind: 2, turn: 9, shift: [1, 1, 0, 0] }
//     p3.neighbour("2:1/0,0/0", 2);   // { address: "3:1/2,1/0", edge: 0 }
//
// Words of this file. `order` is 4, 6, 8 or 10, and zeta is a step of length 1 in the direction 360°/order. A point
// is four whole numbers: a0 + a1 zeta + a2 zeta^2 + a3 zeta^3. A tile is its prototile, turned by zeta^turn about
// the point 0, and then moved by `shift`. x points right, y up, and both count steps of length 1. Edge i runs from
// corner i to the next, and corners are counterclockwise. All is counted from 0.
//
// Whatever the engine refuses is thrown as a Refusal. A value of a wrong type is a TypeError that names it, and so are
// an option that a call doesn't have, and a call of an engine that was closed.

/** Four whole numbers: a0 + a1 zeta + a2 zeta^2 + a3 zeta^3. */
export type Point = [number, number, number, number];
export type PointLike = ArrayLike<number>;

/** A whole number from 0 to 2^53 - 1, or its two halves of 32 bits, the low one first. */
export type Seed = number | readonly [low: number, high: number];

/** An address as an object. The digits go from fine to coarse: the tile below is child number `child` of a
 * supertile of kind `parent`. */
export interface Address {
  kind: number;
  digits: { child: number; parent: number }[];
}

/** An address: a text such as "0:1/0,2/0", an object, or the 130 bytes that typed arrays of addresses have: the
 * kind, how many digits there are, and 64 digits, each a child and a parent. */
export type AddressLike = string | Address | Uint8Array;

/** An answer has its address in the form of the one that was given. */
export type SameForm<A extends AddressLike> = A extends string ? string : A extends Uint8Array ? Uint8Array : Address;

/** Many addresses: texts, objects, or 130 bytes for each. */
export type Addresses = readonly (string | Address)[] | Uint8Array;

/** A placed tile: z -> zeta^turn z + shift takes the prototile of its kind there. */
export interface Placed {
  kind: number;
  turn: number;
  shift: Point;
}

/** A placed tile with its address. */
export interface Named<A> extends Placed {
  address: A;
}

/** A tile of a star or of a walk. `number` is its own number for the vertex, or its edge that leads back; null for
 * the first tile of a walk. */
export interface Numbered<A> extends Named<A> {
  number: number | null;
}

/** The tile across an edge, and its own edge that leads back. */
export interface Across<A> {
  address: A;
  edge: number;
}

/** How a tile lies to another, and the edges that they share: pairs of an edge of the first and one of the
 * second. "strangers" have no common supertile; tiles that are "apart" share no edge. */
export interface Relation {
  relation: "strangers" | "same" | "apart" | "beside";
  edges: [mine: number, theirs: number][];
}

/** The plane in which the tile `base` stands on its prototile, and the supertiles around it grow as the seed
 * chooses. The same two give the same tiling in every call. By default "0:" and 0. */
export interface Frame {
  base?: AddressLike;
  seed?: Seed;
}

/** A window: the points whose X = 2 x and Y = y / sin(360°/order) differ from those of the point `at` by less than
 * the two numbers of `half`, each 1 to 4096. So it is half[0] lengths wide and 2 half[1] sin(360°/order) high. By
 * default [0, 0, 0, 0] and [20, 12]. `Tiling.pointNear` and `Tiling.halfFor` make both from lengths. A `Window`
 * is a box, too. */
export interface Box {
  at?: PointLike;
  half?: readonly [number, number];
}

export interface WindowOptions extends Frame, Box {
  /** Whether addresses are wanted, which is so by default. Without them a window takes less time, and a quarter of
   * the memory. */
  addresses?: boolean;
}

export interface DrawOptions extends Frame, Box {
  /** By default ["svg"]. */
  layers?: readonly ("svg" | "list" | "census")[];
  /** Whether halves are joined to whole tiles, if the rule has halves. */
  whole?: boolean;
}

/** The numbers of a rule, as its rule file has them: docs/FORMATS.md, "The rule file". */
export interface Rule {
  order: 4 | 6 | 8 | 10;
  format: 1 | 2;
  /** The factor by which a supertile of one level is larger. */
  factor: Point;
  /** The types of the edges along which halves are glued. */
  glue: number[];
  /** Each edge type: that of the same edge in the opposite direction, and the types into which it is cut. */
  types: { mate: number; parts: number[] }[];
  /** Each kind: its corners, 4 numbers each; the type of each edge; and the tiles that fill it, inflated. */
  kinds: { vertices: Int32Array; edges: number[]; children: Placed[] }[];
}

export type RefusalName =
  | "NotText" | "BadWords" | "RuleRefused" | "RuleTooLong" | "BadAddress" | "DepthLimit" | "CoordLimit" | "TooManyTiles"
  | "Outside" | "NoMemory" | "NoEdge" | "BadScript" | "NoVertex" | "StarTooBig" | "BadListing";

/** What the engine refuses: docs/FORMATS.md, "Notes and exit codes". */
export declare class Refusal extends Error {
  /** Such as "Outside". */
  name: RefusalName;
  /** The exit code of the command, such as 8. */
  readonly status: number;
  /** What the command prints after the name; a field that is a whole number is a number. */
  readonly fields: (number | string)[];
  /** The line of the command, such as "8 Outside 4 0". `message` has it with a sentence, and often what was given. */
  readonly line: string;
}

/** Where the module is: a URL or, in Node, a path; its bytes; a response; or the compiled module. */
export type Source = string | URL | BufferSource | Response | WebAssembly.Module;

/** One instance of the module, with a memory of its own. Any number of them may be open. */
export declare class Engine {
  private constructor();
  /** Makes an engine from tiling.wasm; without a source from the file beside this module. Whatever else is given is a
   * TypeError. */
  static load(source?: Source | Promise<Source>): Promise<Engine>;
  /** The names of the built-in rules: chair, p2, p3, ab, halfhex. */
  static readonly builtIn: readonly string[];
  /** The names of the rule files of the package, for `openFile`; rules/README.md of the repository describes them. */
  static readonly ruleFiles: readonly string[];
  /** Opens a built-in rule by its name, or the rule file with this text or these bytes. It stays in memory until the
   * engine is closed. Refusal BadWords: no built-in rule has this name; RuleRefused, RuleTooLong, NoMemory. */
  open(rule: string | Uint8Array): Tiling;
  /** Reads a rule file and opens it: that at a URL or path, or one of the package by its name, such as "sphinx", or as
   * "sphinx.toml" if there is no other. Refusal as for `open`; BadWords: the package has no such name. */
  openFile(file: string | URL): Promise<Tiling>;
  /** All that the command does: what it prints for these arguments, with `input` as standard input. The arguments are
   * a list, or a text with spaces between them. Refusal: each of the command. */
  call(words: string | readonly string[], input?: string | Uint8Array): string;
  /** Lets go of the instance. Patches keep `kinds`, `turns`, `shifts`, `addresses`, `positions()`, and what they were
   * asked for before. If that was `vertices()`, all that follows from corners works, too, such as `edges()`, `stars()`
   * and pictures. All else, also the text of an address, ends with a TypeError. */
  close(): void;
  readonly closed: boolean;
  /** How many bytes of memory the instance has. It grows as calls need it, and never shrinks. */
  readonly memoryBytes: number;
}

/** A rule that was made ready. */
export declare class Tiling {
  private constructor();
  readonly engine: Engine;
  /** The name of a built-in rule; "-" for a rule file. */
  readonly name: string;
  readonly order: 4 | 6 | 8 | 10;
  /** How many kinds of tiles there are; they are numbered from 0. */
  readonly kinds: number;
  /** The factor by which a supertile of one level is larger, as a point. */
  readonly factor: Point;
  /** Whether some kind is a half of a tile. */
  readonly hasHalves: boolean;

  /** All the numbers of the rule. */
  rule(): Rule;
  /** How many edges a kind has, and as many corners. Refusal BadWords. */
  edges(kind: number): number;
  /** The exact corners of a kind's prototile: 4 numbers each. Refusal BadWords. */
  prototile(kind: number): Int32Array;
  /** The edge along which a kind, a half of a tile, is glued to the other; null for a whole tile. Refusal BadWords. */
  glueEdge(kind: number): number | null;
  /** The exact corners of a placed tile: 4 numbers each. Refusal BadWords. */
  corners(tile: Placed): Int32Array;
  /** x and y of the corners of a kind, turned, about the point 0: 2 numbers each. For those who draw: each tile of a
   * kind and a turn is this shape at `Patch.positions`. */
  shape(kind: number, turn?: number): Float64Array;
  /** x and y of exact points: from 4 numbers each, 2 each. */
  xy(points: ArrayLike<number>): Float64Array;
  /** A point times zeta^turn, exactly. */
  turnedPoint(point: PointLike, turn: number): Point;
  /** The product of two points, exactly. */
  product(a: PointLike, b: PointLike): Point;
  /** An exact point near x and y: within half a length in x, and half of sin(360°/order) in y. */
  pointNear(x: number, y: number): Point;
  /** The least `half` of a window at least so wide and so high, in lengths. */
  halfFor(width: number, height: number): [number, number];

  /** Reads an address. Refusal BadAddress. */
  read(text: AddressLike): Address;
  /** Writes an address as a text. Refusal BadWords: no address of any rule. */
  write(address: AddressLike): string;
  /** An address as 130 bytes; many one after the other. Refusal BadAddress. */
  bytes(address: AddressLike | readonly (string | Address)[]): Uint8Array;
  /** The texts of addresses of 130 bytes each. */
  texts(bytes: Uint8Array): string[];
  /** Whether it is the address of a tile of this rule. */
  fits(address: AddressLike): boolean;

  /** Where a tile lies in the supertile that its address names. Refusal BadAddress, CoordLimit. */
  place(address: AddressLike): Placed;
  /** The tile across an edge. Refusal BadAddress, NoEdge, Outside: its fields are the supertile's own edge on which
   * this edge lies, and the part of it. */
  neighbour<A extends AddressLike>(address: A, edge: number): Across<SameForm<A>>;
  /** How a tile lies to another. Refusal BadAddress. */
  pair(a: AddressLike, b: AddressLike): Relation;
  /** The only tile that holds a point, of the supertile of `depth` levels at `top`. Refusal BadWords: 1 for `top`, 2
   * for `depth`, 3 for `point`; Outside, without fields: the supertile does not hold the point; CoordLimit: the first
   * value on the way with a coefficient above 2^24. */
  locate(top: Placed, depth: number, point: PointLike): Named<string>;
  /** `place` for many addresses. Each answer has a status: 0, or that of its refusal. */
  placeAll(addresses: Addresses): { kinds: Uint8Array; turns: Uint8Array; shifts: Int32Array; statuses: Uint8Array };
  /** `neighbour` for many addresses, with an edge for each. An address whose status isn't 0 is as it was; if the
   * status is 8, `edges` and `parts` have the supertile's edge and the part of it. */
  neighbourAll(addresses: Addresses, edges: ArrayLike<number>): {
    addresses: Uint8Array;
    edges: Uint8Array;
    parts: Uint8Array;
    statuses: Uint8Array;
  };

  /** Exactly the tiles that meet a window, each exactly once, by shift, turn and kind. Refusal BadWords, BadAddress,
   * DepthLimit; TooManyTiles above 200,000; CoordLimit far out, where another seed usually helps; NoMemory. */
  window(options?: WindowOptions): Window;
  /** n: 1 for each tile that meets a window, 0 for each other one. It is what decides which tiles `window` has, for
   * tiles of any frame. Of whole tiles it looks at the first halves alone. A patch of another tiling is a TypeError.
   * Refusal BadWords. */
  meets(tiles: Patch | Omit<Listing, "addresses">, window?: Box): Uint8Array;
  /** The only tile of a frame that holds a point. Refusal BadWords, BadAddress, CoordLimit, as for `window` there. */
  tileAt(point: PointLike, frame?: Frame): Named<string>;
  /** The tiles of a path across edges, the base first. The frame first grows to `grow` levels, 0 by default. Refusal
   * BadAddress, NoEdge, DepthLimit; BadWords: `grow` above 64, or more than 30,000 edges. */
  walk<A extends AddressLike>(base: A, path: ArrayLike<number>, options?: { seed?: Seed; grow?: number }): Numbered<SameForm<A>>[];
  /** The tiles around a vertex of a tile, counterclockwise, the tile first. Refusal BadAddress, NoVertex, DepthLimit,
   * StarTooBig. */
  star<A extends AddressLike>(base: A, vertex: number, options?: { seed?: Seed }): Numbered<SameForm<A>>[];
  /** The number of tiles of a right listing of a window: tiles in any order, or a text as `draw` prints it, which is
   * for built-in rules alone. Refusal BadListing: its fields are the fault and where it is, which is the index of a
   * tile, or the number of a line, from 1. A patch of another tiling is a TypeError. */
  verify(listing: Patch | Listing | string, window?: Frame & Box): number;
  /** What the command `draw` prints of a window: a picture, a list, a census. Refusal as for `window`. */
  draw(options?: DrawOptions): string;
  /** The arguments of that command, to paste behind ./tiling. */
  drawWords(options?: DrawOptions): string[];
}

/** Tiles from elsewhere, for `verify`: a shift of 4 numbers each. */
export interface Listing {
  kinds: ArrayLike<number>;
  turns: ArrayLike<number>;
  shifts: ArrayLike<number>;
  addresses: Addresses;
}

/** A vertex star: the kind of each tile around a vertex and its corner there, counterclockwise from the least
 * pair; and how often it occurs. */
export interface Star {
  corners: [kind: number, corner: number][];
  count: number;
}

/** What `JSON.stringify` writes of a patch, as the command `python3 -m pagnetuf board` does. null is the rim. */
export interface Board {
  made_by: string;
  order: number;
  tiles: { id: number; kind: number; turn: number; address?: string; corners: number[]; neighbours: (number | null)[] }[];
  vertices: { id: number; x: number; y: number; exact: Point; star: number | null }[];
  stars: { id: number; tiles: [kind: number, corner: number][] }[];
}

export interface SvgOptions {
  /** In pixels; 800 by default. */
  width?: number;
  /** A list goes to the kinds that occur in the patch, the first colour to the least. For one colour of a kind in every
   * patch take a function of a tile's number: (tile, patch) => colours[patch.kinds[tile]]. */
  colours?: readonly string[] | ((tile: number, patch: Patch) => string);
  /** Whether each tile has its number as id, and its address and neighbours. */
  ids?: boolean;
}

/** n placed tiles of one plane. Arrays are flat and belong to the caller, who must not change those that are properties;
 * M is `most`. Nothing is computed before it is asked for, and then once. */
export declare class Patch {
  protected constructor();
  readonly tiling: Tiling;
  readonly length: number;
  /** n each: the kind and the turn of each tile. */
  readonly kinds: Uint8Array;
  readonly turns: Uint8Array;
  /** 4 n: the exact position of each tile's point 0. */
  readonly shifts: Int32Array;
  readonly hasAddresses: boolean;
  /** 130 n: see AddressLike. A TypeError if they weren't wanted. */
  readonly addresses: Uint8Array;
  /** The text of a tile's address; of a whole tile of two halves both, joined by " + ". A call takes one, as
   * `WholePatch.halves` has them. */
  address(tile: number): string;
  tile(tile: number): Placed;
  /** The greatest number of corners of a tile here. */
  readonly most: number;
  /** n: how many corners each tile has. */
  readonly counts: Uint8Array;
  /** 2 n: x and y of each tile's point 0. */
  positions(): Float64Array;
  /** The shapes that occur, each x and y of its corners about the point 0; and n: the number of each tile's. For those
   * who draw: tile i is the shape xy[numbers[i]], moved by its position. */
  shapes(): { numbers: Int32Array; xy: Float64Array[] };
  /** 4 n M: the exact corners. A tile with fewer than M repeats its last. */
  outlines(): Int32Array;
  /** 2 n M: x and y of the corners, NaN after a tile's last. */
  xy(): Float64Array;
  /** x and y of the corners of one tile. */
  polygon(tile: number): [x: number, y: number][];
  /** 2 n: the mean of each tile's corners. */
  middles(): Float64Array;
  /** 4 V: each vertex exactly once, in the order of their coefficients. */
  vertices(): Int32Array;
  /** n M: the number of the vertex at each corner, -1 after a tile's last. */
  corners(): Int32Array;
  /** n M: the tile across each edge, -1 at the rim. */
  neighbours(): Int32Array;
  /** 4 A: each edge that two tiles share: the tile of lesser number, the other, and the edge of each. */
  adjacency(): Int32Array;
  /** 2 E: each edge exactly once, as two vertices, the lesser first. */
  edges(): Int32Array;
  /** 2 V: the vertices in perpendicular space, for the orders 8 and 10; a TypeError for 4 and 6. */
  perpendicular(): Float64Array;
  /** The vertex stars that occur, the most frequent first. Vertices at the rim have none. */
  stars(): Star[];
  /** V: for each vertex the number of its star in `stars()`, -1 at the rim. */
  vertexStars(): Int32Array;
  /** The tile that holds x, y, or -1. On an edge, that of the lesser number; computed in floats. */
  find(x: number, y: number): number;
  /** The patch of some of its tiles, each once, in the order in which the list first has them. A RangeError if there is
   * no such tile. */
  chosen(tiles: ArrayLike<number> | Iterable<number>): Patch;
  /** The patch of `count` tiles, 1 at least, connected by edges, that grows from the tile nearest to x, y: by default
   * the point `at` of the window from which the tiles are, its middle. A RangeError if fewer are connected. */
  connected(count: number, x?: number, y?: number): Patch;
  /** The supertiles of `level` levels that these tiles belong to, each once, as a patch; it needs addresses. A tile
   * whose address has fewer digits is left out. */
  supertiles(level: number): Patch;
  toJSON(): Board;
  toSVG(options?: SvgOptions): string;
}

/** Exactly the tiles that meet a window. Its numbers stay in the engine's memory, and are copied when they are asked
 * for, or when the engine finds the next window. */
export declare class Window extends Patch {
  readonly at: Point;
  readonly half: [number, number];
  readonly seed: Seed;
  readonly base: string;
  /** The whole tiles of these tiles, as `draw` with glue=yes has them: halves are joined, also with halves outside the
   * window. Refusal as for `Tiling.window`. */
  whole(): WholePatch;
  /** Gives its numbers up before the engine finds the next window, so that none is copied: for those who draw one
   * window after another. What was asked for already stays. */
  free(): void;
}

/** Whole tiles of one or two halves. Kinds, turns, shifts and addresses are those of the first half. */
export declare class WholePatch extends Patch {
  /** n: 2 for two glued halves, else 1. */
  readonly parts: Uint8Array;
  /** The halves of one whole tile, one or two. Of two the first has the tile's first edges: those that follow its glue
   * edge (`Tiling.glueEdge`), in their order. Then come those that follow the glue edge of the second. */
  halves(tile: number): Named<string>[];
  chosen(tiles: ArrayLike<number> | Iterable<number>): WholePatch;
  connected(count: number, x?: number, y?: number): WholePatch;
}

/** Where a rule file of the package is: `ruleFile("sphinx")`. */
export declare function ruleFile(name: string): URL;
