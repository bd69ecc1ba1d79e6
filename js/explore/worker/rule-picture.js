// The picture of a rule file with the place of its fault in red: each prototile on the left, and on the right
// the
// prototile enlarged and cut into its children. As tools/draw_rule.py draws it, in floats and without the
// engine.
import { documentOf } from "./toml.js";

const [GAP, PAD, HEAD] = [52, 24, 20];
const RED = "#d00000", BLUE = "#1f5fa8";
const FILLS = ["#d6e6f4", "#fbe6c8", "#dcebd0", "#f0d5dc", "#e6dcf0", "#d3eeea", "#f3efc0", "#e3ddd3"];

// ---- complex numbers -----------------------------------------------------------------------------
const plus = (a, b) => [a[0] + b[0], a[1] + b[1]];
const minus = (a, b) => [a[0] - b[0], a[1] - b[1]];
const times = (a, b) => [a[0] * b[0] - a[1] * b[1], a[0] * b[1] + a[1] * b[0]];
const scaled = (a, by) => [a[0] * by, a[1] * by];
const length = (a) => Math.hypot(...a);
const toward = (angle) => [Math.cos(angle), Math.sin(angle)];
const cross = (a, b) => a[0] * b[1] - a[1] * b[0];
const same = (a, b) => length(minus(a, b)) < 1e-9;
const sides = (polygon) => polygon.map((a, i) => [a, polygon[(i + 1) % polygon.length]]);
const area = (polygon) => sides(polygon).reduce((sum, [a, b]) => sum + cross(a, b), 0) / 2;
const onSegment = (a, b, p) =>
    Math.abs(length(minus(p, a)) + length(minus(b, p)) - length(minus(b, a))) < 1e-6;

function centre(polygon) {
  const whole = area(polygon);
  if (Math.abs(whole) < 1e-9) return scaled(polygon.reduce(plus), 1 / polygon.length);
  const sum = sides(polygon).reduce(
      (found, [a, b]) => plus(found, scaled(plus(a, b), cross(a, b) / 6)), [0, 0]);
  return scaled(sum, 1 / whole);
}

function box(polygon) {
  const xs = polygon.map((p) => p[0]), ys = polygon.map((p) => p[1]);
  const [left, top] = [Math.min(...xs), Math.min(...ys)];
  return { left, top, wide: Math.max(...xs) - left, high: Math.max(...ys) - top };
}

// ---- the rule ------------------------------------------------------------------------------------
/** A rule file's numbers in floats; an error where they haven't the form of a rule. */
class Rule {
  constructor(document) {
    this.format = document.format;
    this.order = document.order;
    this.factor = this.point(document.lambda);
    this.mates = document.type.map((entry) => entry.mate);
    this.parts = document.type.map((entry) => entry.parts);
    this.kinds = document.kind.map((entry) => ({
      vertices: entry.vertices.map((it) => this.point(it)),
      edges: entry.edges,
      children: entry.children.map(([kind, turn, ...shift]) => ({ kind, turn, shift: this.point(shift) })),
    }));
  }

  point(coefficients) {
    if (coefficients.length !== 4) throw new SyntaxError("a point has four numbers");
    return coefficients.map((a, i) => scaled(toward((2 * Math.PI * i) / this.order), a)).reduce(plus);
  }

  /** The corners of a child in its inflated parent. */
  placed({ kind, turn, shift }) {
    const by = toward((2 * Math.PI * turn) / this.order);
    return this.kinds[kind].vertices.map((z) => plus(times(by, z), shift));
  }

  /** The edges of a type, as pairs of a kind and an edge. */
  edgesOf(type) {
    return this.kinds.flatMap((kind, k) => kind.edges.flatMap((it, e) => (it === type ? [[k, e]] : [])));
  }

  edge(kind, edge) {
    return sides(this.kinds[kind].vertices)[edge];
  }

  /** The child edges along an inflated edge, from its start to its end. */
  alongEdge(kind, edge) {
    const [p, q] = this.edge(kind, edge).map((z) => times(this.factor, z)), found = [];
    this.kinds[kind].children.forEach((child, c) => {
      sides(this.placed(child)).forEach(([a, b], e) => {
        const isAlong = onSegment(p, q, a) && onSegment(p, q, b) && length(minus(a, p)) < length(minus(b, p));
        if (isAlong) found.push({ far: length(minus(a, p)), child: c, edge: e,
            type: this.kinds[child.kind].edges[e] });
      });
    });
    return found.sort((a, b) => a.far - b.far);
  }
}

// ---- what a refusal names ------------------------------------------------------------------------
const name = (...numbers) => numbers.join(" ");

/** Sets of red things by their numbers, and the sentence that says what is wrong. */
class Marks {
  constructor() {
    for (const what of ["prototile", "child", "inflated", "fans", "kinds"]) this[what] = new Set();
    this.note = "";
  }
}

const FAULTS = {
  ChildEdgeLoose(rule, marks, [k, c, e]) {
    marks.child.add(name(k, c, e));
    return (
      `Edge ${e} of child ${c} is met by no whole edge of another child with its type's mate, ` +
      "and is no part of the boundary."
    );
  },
  BoundaryWrong(rule, marks, [k, e, part]) {
    const type = rule.kinds[k].edges[e], found = rule.alongEdge(k, e);
    marks.inflated.add(name(k, e));
    if (part < found.length) marks.child.add(name(k, found[part].child, found[part].edge));
    const types = found.map((it) => it.type).join(" ");
    return (
      `Inflated edge ${e} of kind ${k}: type ${type} says ${rule.parts[type].join(" ")}, ` +
      `the children's edges there are ${types}; part ${part} differs.`
    );
  },
  BadLength(rule, marks, [k, e]) {
    const type = rule.kinds[k].edges[e], alike = [...rule.edgesOf(type), ...rule.edgesOf(rule.mates[type])];
    const [first] = [...alike, [k, e]].sort(([a, b], [c, d]) => a - c || b - d),
        long = (it) => length(minus(...rule.edge(...it))).toFixed(3);
    marks.prototile.add(name(k, e));
    return (
      `Edge ${e} of kind ${k} is ${long([k, e])} long, and edge ${first[1]} of kind ${first[0]}, ` +
      `of the same type or its mate, ${long(first)}.`
    );
  },
  NotStar(rule, marks, [k]) {
    marks.fans.add(k);
    return (
      `Kind ${k}: the triangles from vertex 0 to the edges that don't end there have to turn left, ` +
      "and not overlap."
    );
  },
  WrongFactor(rule, marks) {
    const long = length(rule.factor).toFixed(3),
        degrees = ((Math.atan2(rule.factor[1], rule.factor[0]) * 180) / Math.PI).toFixed(0);
    rule.kinds.forEach((_, k) => marks.kinds.add(k));
    const large = "it has to be above 1, and its 64th power above 2^24.";
    if (rule.format === 2) return `The length of the factor is ${long}: ${large}`;
    if (Math.abs(rule.factor[1]) < 1e-9) return `The factor is ${rule.factor[0].toFixed(3)}: ${large}`;
    const real = "in format 1 it has to be real, and above 1.";
    return `The factor turns by ${degrees}°, and its length is ${long}: ${real}`;
  },
  BadMate(rule, marks, [type]) {
    const mate = rule.mates[type];
    markType(rule, marks, type);
    const back = rule.mates[mate];
    return `The mate of type ${type} is ${mate}, and the mate of type ${mate} is ${back}, not ${type}.`;
  },
  GlueWrong(rule, marks, [type]) {
    const mate = rule.mates[type], count = (it) => rule.edgesOf(it).length;
    markType(rule, marks, type);
    markType(rule, marks, mate);
    const own = mate === type ? ", its own mate" : `, with the mate ${mate}`;
    return (
      `Type ${type}${own}, is on ${count(type)} edges, its mate on ${count(mate)}: ` +
      "it has to be on one, and its mate on one of another kind."
    );
  },
  BadSubdivision(rule, marks, [type]) {
    const mate = rule.mates[type],
        back = [...rule.parts[type]].reverse().map((part) => rule.mates[part] ?? part);
    markType(rule, marks, type);
    markType(rule, marks, mate);
    const [own, theirs] = [type, mate].map((it) => rule.parts[it].join(" "));
    return (
      `Type ${type} is cut into ${own}, so its mate ${mate} has to be cut into ${back.join(" ")}, ` +
      `and it is cut into ${theirs}.`
    );
  },
  Unused(rule, marks, [k]) {
    marks.kinds.add(k);
    return `Kind ${k} is a child of no kind.`;
  },
  TooMany(rule, marks, [k], words) {
    if (words[0] === "child" || words[0] === "edges") marks.kinds.add(k);
    for (const [parent, kind] of rule.kinds.entries()) {
      const lost = kind.children.findIndex((child) => child.kind >= rule.kinds.length);
      if (words[0] === "child" && lost >= 0) {
        const of = kind.children[lost].kind, last = rule.kinds.length - 1;
        return `Child ${lost} of kind ${parent} is of kind ${of}, the last kind is ${last}. It isn't drawn.`;
      }
    }
    return (
      `Too many or too few: ${words.join(" ")}. ` +
      "There are 1 to 16 kinds of 3 to 12 edges with 1 to 16 children, 1 to 32 types of 1 to 8 parts."
    );
  },
};

const markType = (rule, marks, type) => rule.edgesOf(type)
    .forEach(([k, e]) => marks.prototile.add(name(k, e)));

/** The marks of a refusal, given as its words; null if it has no place in a picture. */
function marksOf(rule, [fault, ...words]) {
  if (!FAULTS[fault]) return null;
  const marks = new Marks(), numbers = words.filter((word) => /^\d+$/.test(word)).map(Number);
  marks.note = FAULTS[fault](rule, marks, numbers, words);
  return marks;
}

// ---- drawing -------------------------------------------------------------------------------------
const short = (value) => value.toFixed(1);
const fill = (kind) => FILLS[kind] ?? `hsl(${(kind * 67) % 360} 45% 86%)`;
const path = (polygon, extra) =>
    `<path d="M${polygon.map((z) => z.map(short).join(" ")).join("L")}Z" ${extra}/>`;
const segment = ([a, b], extra) =>
    `<path d="M${a.map(short).join(" ")}L${b.map(short).join(" ")}" ${extra}/>`;
const text = (z, what, extra) => `<text x="${short(z[0])}" y="${short(z[1])}" ${extra}>${what}</text>`;
const red = (side) => segment(side, `stroke="${RED}" stroke-width="4" stroke-linecap="round"`);
const circle = (z, radius, extra) =>
    `<circle cx="${short(z[0])}" cy="${short(z[1])}" r="${radius}" ${extra}/>`;
const shown = (unit) => (z) => [z[0] * unit, -z[1] * unit];

/** The place of the dot, in the tile next to vertex 0. */
function nextToFirst(polygon) {
  const u = minus(polygon[1], polygon[0]), v = minus(polygon.at(-1), polygon[0]);
  const turn = (((Math.atan2(cross(v, u), u[0] * v[0] + u[1] * v[1]) % (2 * Math.PI)) + 2 * Math.PI) % (
      2 * Math.PI)) / 2;
  return plus(polygon[0], times(scaled(u, 1 / length(u)), scaled(toward(-turn), turn < 0.6 ? 11 : 7)));
}

const dot = (polygon) => circle(nextToFirst(polygon), 2.2, 'fill="#222"');

/** The place of a tile's number: its centre, but not on the dot. */
function middle(polygon) {
  const z = centre(polygon), d = nextToFirst(polygon), far = length(minus(z, d));
  return far > 14 || far === 0 ? z : plus(d, scaled(minus(z, d), 14 / far));
}

function edgeType([a, b], number) {
  const along = minus(b, a), out = scaled([-along[1], along[0]], 10 / length(along));
  return text(plus(plus(scaled(plus(a, b), 0.5), out), [0, 3.5]), number, `fill="${BLUE}" font-size="10"`);
}

/** The arrow of a directed type: the type and its mate show the same one. */
function arrow([a, b], rule, type) {
  const mate = rule.mates[type] ?? type;
  if (mate === type || same(a, b)) return [];
  const along = scaled(minus(b, a), (type < mate ? 1 : -1) / length(minus(b, a)));
  const tip = plus(scaled(plus(a, b), 0.5), scaled(along, 4));
  const back = [0.42, -0.42].map((angle) => minus(tip, scaled(times(along, toward(angle)), 8)));
  return [path([tip, ...back], `fill="${BLUE}"`)];
}

function prototilePanel(rule, k, unit, marks) {
  const kind = rule.kinds[k], tile = kind.vertices.map(shown(unit)), edges = sides(tile);
  const lines = [path(tile, `fill="${fill(k)}" stroke="#222" stroke-width="1.6"`)];
  if (marks.fans.has(k)) {
    tile.slice(2, -1).forEach((v) =>
        lines.push(segment([tile[0], v], `stroke="${RED}" stroke-width="1" stroke-dasharray="3 3"`)));
    lines.push(...edges.slice(1, -1).filter(([a, b]) => cross(minus(b, tile[0]), minus(a, tile[0])) < 1e-6)
        .map(red));
  }
  lines.push(...edges.filter((_, e) => marks.prototile.has(name(k, e))).map(red));
  lines.push(...tile.slice(1).map((z) => circle(z, 1.6, 'fill="white" stroke="#222" stroke-width="0.8"')),
      dot(tile));
  edges.forEach((side, e) => lines.push(...arrow(side, rule, kind.edges[e]), edgeType(side, kind.edges[e])));
  return { polygon: tile, lines };
}

function childrenPanel(rule, k, unit, marks) {
  const large = rule.kinds[k].vertices.map((z) => times(rule.factor, z)).map(shown(unit));
  const lines = [], labels = [], reds = [];
  rule.kinds[k].children.forEach((child, c) => {
    if (!rule.kinds[child.kind]) return;
    const tile = rule.placed(child).map(shown(unit)), at = middle(tile);
    lines.push(path(tile, `fill="${fill(child.kind)}" stroke="#555" stroke-width="0.8"`));
    labels.push(dot(tile), text(plus(at, [0, rule.kinds.length === 1 ? 4 : 1]), c,
        'font-size="13" font-weight="bold"'));
    if (rule.kinds.length > 1) labels.push(text(plus(at, [0, 11]), `k${child.kind}`, 'font-size="10"'));
    sides(tile).forEach((side, e) => {
      const type = rule.kinds[child.kind].edges[e];
      labels.push(...arrow(side, rule, type));
      const isRim = sides(large).some(
          ([p, q]) => side.every((z) => onSegment(p, q, z))
          && length(minus(side[1], q)) < length(minus(side[0], q)));
      if (isRim) labels.push(edgeType(side, type));
      if (marks.child.has(name(k, c, e))) reds.push(red(side));
    });
  });
  lines.push(path(large, 'fill="none" stroke="#222" stroke-width="1.8"'));
  sides(large).forEach((side, e) => {
    if (marks.inflated.has(name(k, e))) lines.push(
        segment(side, `stroke="${RED}" stroke-width="2" stroke-dasharray="5 3"`));
  });
  return { polygon: large, lines: [...lines, ...reds, ...labels] };
}

/** A panel with the upper left corner of its box at x, y. */
function shifted({ polygon, lines }, x, y) {
  const { left, top } = box(polygon);
  return [`<g transform="translate(${short(x - left)} ${short(y - top)})">`, ...lines, "</g>"];
}

function unitOf(rule) {
  const boxes = rule.kinds.map((kind) => box(kind.vertices));
  const widest = Math.max(...boxes.flatMap(({ wide, high }) => [wide, high])) * length(rule.factor);
  const least = Math.min(...rule.kinds.map((kind) => Math.abs(area(kind.vertices))));
  return Math.max(38, Math.min(90, Math.max(250 / widest, least > 1e-9 ? 46 / Math.sqrt(least) : 0)));
}

function draw(rule, marks, columns = rule.kinds.length >= 4 ? 2 : 1) {
  const unit = unitOf(rule), body = [];
  const panels = rule.kinds.map(
      (_, k) => [prototilePanel(rule, k, unit, marks), childrenPanel(rule, k, unit, marks)]);
  const width = [0, 1].map((i) => Math.max(...panels.map((pair) => box(pair[i].polygon).wide)));
  const cell = width[0] + GAP + width[1] + 2 * PAD;
  let y = 0;
  for (let row = 0; row < panels.length; row += columns) {
    const line = panels.slice(row, row + columns),
        high = Math.max(...line.flat().map((panel) => box(panel.polygon).high));
    line.forEach(([small, large], i) => {
      const x = i * (cell + 10) + PAD, low = y + HEAD + high / 2, k = row + i;
      const extra = marks.kinds.has(k) ? ` fill="${RED}" font-weight="bold"` : "";
      body.push(text([x - 10, y + 13], `kind ${k}`, `font-size="12" text-anchor="start"${extra}`));
      body.push(...shifted(small, x, low - box(small.polygon).high / 2 + 6));
      const start = `M${short(x + width[0] + GAP / 2 - 8)} ${short(low)}`;
      body.push(`<path d="${start}h14m-5 -4l5 4l-5 4" fill="none" stroke="#222"/>`);
      body.push(...shifted(large, x + width[0] + GAP, low - box(large.polygon).high / 2 + 6));
    });
    y += high + HEAD + PAD;
  }
  const [w, h] = [Math.max(columns * cell + (columns - 1) * 10, 340), y + 6].map(Math.round);
  const size = `width="${w}" height="${h}" viewBox="0 0 ${w} ${h}"`;
  const style = 'font-family="sans-serif" text-anchor="middle" stroke-linejoin="round"';
  const head = `<svg xmlns="http://www.w3.org/2000/svg" ${size} ${style}>`;
  return [head, `<rect width="${w}" height="${h}" fill="white"/>`, ...body, "</svg>", ""].join("\n");
}

/** The picture of a rule file, a kind below the other. */
export const rulePicture = (file) => draw(new Rule(documentOf(file)), new Marks(), 1);

/** The picture of a rule file's fault, with a sentence about it. `words` are those of the refusal, from the
 * fault's name
 * on. Null where the fault has no place that could be drawn. */
export function faultPicture(file, words) {
  try {
    const rule = new Rule(documentOf(file)), marks = marksOf(rule, words);
    return marks && { picture: draw(rule, marks), note: marks.note };
  } catch (fault) {
    if (fault instanceof TypeError || fault instanceof SyntaxError) return null;
    throw fault;
  }
}
