// The tilings of the menu: a rule file's name, the tiling's own name, a few words about it, and the names of
// its tiles by
// the kinds of whole tiles. `rule` is the name by which the engine has it built in.
export const GROUPS = [
  {
    title: "Penrose and five-fold",
    tilings: [
      { name: "penrose_p3", title: "Penrose rhombs", note: "P3, by Roger Penrose", rule: "p3",
          kinds: { 0: "thin rhomb", 2: "thick rhomb" } },
      { name: "penrose_p2", title: "Penrose kites and darts", note: "P2, by Roger Penrose", rule: "p2",
          kinds: { 0: "dart", 2: "kite" } },
      { name: "penrose_p1", title: "Penrose pentagons", note: "P1: also stars, boats and diamonds" },
      { name: "tuebingen_triangles", title: "Tübingen triangles",
          note: "by Baake, Kramer, Schlottmann, Zeidler" },
      { name: "fibonacci_rhombs", title: "Fibonacci rhombs", note: "the Fibonacci word in two directions" },
      { name: "robinson_rhomb_halves", title: "Penrose rhombs, renumbered",
          note: "P3, with the thick rhomb first" },
      { name: "robinson_rhomb_turned", title: "Penrose rhombs, turning",
          note: "P3, with a factor that turns by 216°" },
      { name: "robinson_kite_halves", title: "Kites and darts, renumbered",
          note: "P2, with its kinds in another order" },
    ],
  },
  {
    title: "Eight-fold",
    tilings: [
      { name: "ammann_beenker", title: "Ammann–Beenker", note: "rhombs and squares, by Robert Ammann",
          rule: "ab", kinds: { 0: "rhomb", 1: "square" } },
      { name: "ammann_beenker_mirrored", title: "Ammann–Beenker, mirrored",
          note: "with its kinds in another order" },
      { name: "silver_mean_squares", title: "Silver mean squares",
          note: "squares and rectangles of two sizes" },
    ],
  },
  {
    title: "Chairs, sphinxes, and other shapes",
    tilings: [
      { name: "chair", title: "Chair", note: "L-trominoes, four in one", rule: "chair",
          kinds: { 0: "chair" } },
      { name: "half_chair", title: "Chair of halves", note: "each chair is two trapezoids" },
      { name: "quadrant_chair", title: "Stretched chair", note: "a rectangle without a quarter" },
      { name: "half_hex", title: "Half-hexagons", note: "trapezoids, four in one", rule: "halfhex",
          kinds: { 0: "half-hexagon" } },
      { name: "half_hex_halves", title: "Half-hexagons of halves", note: "each is cut along its axis" },
      { name: "sphinx", title: "Sphinx", note: "six triangles each, four in one" },
      { name: "sphinx_nine", title: "Sphinx, nine in one", note: "one of exactly four ways" },
      { name: "equithirds", title: "Equithirds", note: "two triangles of one area, by Bill Kalahurka" },
      { name: "domino_table", title: "Table", note: "dominoes, four in one", kinds: { 0: "domino" } },
      { name: "tromino_nine", title: "L-trominoes", note: "nine in one" },
      { name: "l_tetromino_four", title: "L-tetrominoes", note: "four in one" },
      { name: "p_pentomino_four", title: "P-pentominoes", note: "four in one, of both hands" },
    ],
  },
  {
    title: "Squares with colours or arrows",
    tilings: [
      { name: "thue_morse_squares", title: "Thue–Morse squares",
          note: "the Thue–Morse word in two directions" },
      { name: "squiral_squares", title: "Squiral", note: "squares of two colours, nine in one" },
      { name: "period_doubling_squares", title: "Period doubling", note: "squares of four colours" },
      { name: "rudin_shapiro_squares", title: "Rudin–Shapiro", note: "squares of sixteen kinds" },
      { name: "chair_squares", title: "Chair, as squares", note: "three squares for each chair" },
      { name: "table_squares", title: "Table, as squares", note: "two squares for each domino" },
    ],
  },
  {
    title: "Grids that repeat",
    tilings: [
      { name: "square_four", title: "Squares, four in one", note: "the square grid" },
      { name: "square_nine", title: "Squares, nine in one", note: "the square grid" },
      { name: "rectangle_four", title: "Rectangles, four in one", note: "two by one" },
      { name: "rectangle_three", title: "Rectangles, three in one", note: "sides 1 and √3" },
      { name: "paper_rectangle_two", title: "Sheets of paper", note: "sides 1 and √2, two in one" },
      { name: "parallelogram_two", title: "Parallelograms", note: "sides 1 and √2, two in one" },
      { name: "rhomb_six_four", title: "Rhombs of 60°", note: "four in one" },
      { name: "rhomb_eight_four", title: "Rhombs of 45°", note: "four in one" },
      { name: "rhomb_ten_four", title: "Rhombs of 72°", note: "four in one" },
      { name: "triangle_four", title: "Triangles, four in one", note: "equilateral" },
      { name: "triangle_nine", title: "Triangles, nine in one", note: "equilateral" },
      { name: "half_triangle_three", title: "Half triangles", note: "angles 30°, 60°, 90°, three in one" },
      { name: "half_square_two", title: "Half squares, two in one", note: "turned by 135°" },
      { name: "half_square_turned", title: "Half squares, turning",
          note: "two in one, with a factor that turns" },
      { name: "half_square_four", title: "Half squares, four in one",
          note: "right triangles with two equal sides" },
      { name: "right_triangle_four", title: "Right triangles", note: "legs 1 and 2, four in one" },
    ],
  },
];

const BY_NAME = new Map(GROUPS.flatMap(({ tilings }) => tilings.map((tiling) => [tiling.name, tiling])));

/** A tiling of the menu, or what is known of a file that was opened. */
export const tilingNamed = (name) => BY_NAME.get(name)
    ?? { name, title: name.replace(/\.toml$/, ""), note: "your rule file", isOwn: true };

/** The name in the menu of a tiling, which may be given by the name of the built-in rule. */
export function knownName(text) {
  const found = [...BY_NAME.values()].find(({ name, rule }) => name === text || rule === text);
  return found?.name;
}

export const TILING_COUNT = BY_NAME.size;

/** The name of a kind of whole tiles, if it has one. */
export function kindName(tiling, kind, isWhole) {
  const known = tilingNamed(tiling).kinds?.[kind];
  return known && isWhole ? known[0].toUpperCase() + known.slice(1) : undefined;
}

/** What a star is called: the most frequent one has the number 0, and is the first. */
export const starName = (number) => `Star ${number + 1}`;

/** What a tile of a kind is called. */
export const tileName = (tiling, kind, isWhole) => kindName(tiling, kind, isWhole) ?? `Tile of kind ${kind}`;
