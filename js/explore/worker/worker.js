// The worker: it has the engine, and answers the questions of the page. A question is { id, ask, .. }; its
// answer is
// { id, value }, or { id, fault } where the engine refuses.
import { Engine } from "../../pagnetuf.js";
import { Drawable } from "./tilings.js";
import { supertileAt, tileAt } from "./near.js";
import { paint } from "./painter.js";
import { starsIn } from "./stars.js";
import { boardOf, commandOf, pngOf, svgOf } from "./files.js";
import { faultPicture, rulePicture } from "./rule-picture.js";

let begin;
const engine = new Promise((...settle) => (begin = settle));
const opened = new Map(); // by name: promises of tilings
const files = new Map(); // by name: the texts of their rule files

/** The tiling that a look names. */
const drawableOf = (name) => opened.get(name);

/** The tiling of a rule: of a name that is built in, or a rule file. */
async function drawableFrom(name, rule) {
  return new Drawable(name, (await engine).open(rule));
}

/** Keeps a tiling while it is opened, and then. */
function keep(name, file, drawable) {
  opened.set(name, drawable);
  files.set(name, file);
  drawable.catch(() => opened.delete(name));
}

const questions = {
  /** The engine as the page has compiled it, or why it could not. */
  begin({ module, fault }) {
    const [found, failed] = begin;
    if (module) found(Engine.load(module));
    else failed(fault);
  },

  /** A tiling of the page, and by which name its rule is built in, if it is. */
  async open({ name, file, builtIn }) {
    if (!opened.has(name)) keep(name, file, drawableFrom(name, builtIn ?? file));
    return (await drawableOf(name)).told();
  },

  /** A rule file of the reader's own: what `open` answers, or its fault with a picture. */
  async openFile({ name, bytes }) {
    const file = new TextDecoder().decode(bytes), drawable = drawableFrom(name, bytes);
    try {
      const told = (await drawable).told();
      keep(name, file, drawable);
      return { told };
    } catch (refusal) {
      if (!refusal.status) throw refusal;
      const words = refusal.line.split(" ").slice(2);
      return { refused: { ...toldRefusal(refusal), ...faultPicture(file, words) } };
    }
  },

  /** The picture of a rule. */
  rulePicture({ name }) {
    return rulePicture(files.get(name));
  },

  /** How many stars there are. */
  async starCount({ look }) {
    return (await drawableOf(look.tiling)).starsOf(look.isWhole).size;
  },

  async paint({ look, part }) {
    const drawable = await drawableOf(look.tiling), began = performance.now();
    const { canvas, tiles } = paint(drawable, look, part), bitmap = canvas.transferToImageBitmap();
    return { bitmap, tiles, spent: performance.now() - began };
  },

  async tileAt({ look, where }) {
    return tileAt(await drawableOf(look.tiling), look, where);
  },

  async supertileAt({ look, where }) {
    return supertileAt(await drawableOf(look.tiling), look, where);
  },

  async stars({ look, view }) {
    return starsIn(await drawableOf(look.tiling), look, view);
  },

  async command({ look, view }) {
    return commandOf(await drawableOf(look.tiling), look, view);
  },

  async svg({ look, view }) {
    return svgOf(await drawableOf(look.tiling), look, view);
  },

  async png({ look, part }) {
    return pngOf(await drawableOf(look.tiling), look, part);
  },

  async board({ look, where }) {
    return boardOf(await drawableOf(look.tiling), look, where);
  },

  /** The first of some points around which the tiling has an answer, or null. */
  async firstOf({ look, points }) {
    const { tiling } = await drawableOf(look.tiling), { seed, base } = look;
    return points.find((at) => isAnswered(
        () => tiling.window({ seed, base, at, half: [2, 2], addresses: false }))) ?? null;
  },
};

function isAnswered(ask) {
  try {
    ask();
    return true;
  } catch (refusal) {
    if (refusal.status) return false;
    throw refusal;
  }
}

const toldRefusal = ({ name, status, line, message }) => ({ name, status, line, message });

self.onmessage = async ({ data }) => {
  try {
    const value = await questions[data.ask](data);
    self.postMessage({ id: data.id, value }, value?.bitmap ? [value.bitmap] : []);
  } catch (fault) {
    const told = fault.status ? toldRefusal(fault) : { name: fault.name, message: fault.message };
    self.postMessage({ id: data.id, fault: told });
  }
};
