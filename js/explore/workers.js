// The workers that have the engine. Questions go to the first; pictures go to the one that has least to do.

/** What the engine refused, as an error. */
export class Refused extends Error {
  constructor({ name, status, line, message }) {
    super(message);
    Object.assign(this, { name, status, line });
  }
}

class Helper {
  constructor(url) {
    this.worker = new Worker(url);
    this.waiting = new Map();
    this.next = 0;
    this.worker.onmessage = ({ data }) => this.answered(data);
    this.worker.onerror = (event) => this.failed(event.message);
  }

  ask(ask, more, transfer = []) {
    return new Promise((resolve, reject) => {
      const id = this.next++;
      this.waiting.set(id, { resolve, reject });
      this.worker.postMessage({ id, ask, ...more }, transfer);
    });
  }

  answered({ id, value, fault }) {
    const { resolve, reject } = this.waiting.get(id);
    this.waiting.delete(id);
    if (fault) reject(new Refused(fault));
    else resolve(value);
  }

  failed(message) {
    for (const { reject } of this.waiting.values()) reject(new Error(message));
    this.waiting.clear();
  }
}

export class Workers {
  /** Each worker waits for the engine, and has all that is opened. */
  constructor(url, count) {
    this.helpers = Array.from({ length: count }, () => new Helper(url));
  }

  /** Gives each worker the engine, or the fault for which there is none. */
  begin(engine) {
    this.askAll("begin", engine);
  }

  get count() {
    return this.helpers.length;
  }

  /** Asks all workers. The answer is that of the one that is ready first; what another refuses, it refuses
   * again when it counts. */
  async askAll(question, more) {
    const answers = this.helpers.map((helper) => helper.ask(question, more));
    return Promise.any(answers).catch(() => answers[0]);
  }

  /** Opens a tiling in all workers: its rule file, or the rule that is built in by a name. */
  open(name, rule) {
    return this.askAll("open", { name, ...rule });
  }

  ask(question, more) {
    return this.helpers[0].ask(question, more);
  }

  paint(look, part) {
    const idle = this.helpers.reduce(
        (best, helper) => (helper.waiting.size < best.waiting.size ? helper : best));
    return idle.ask("paint", { look, part });
  }

  /** Opens a rule file in all workers. */
  openFile(name, bytes) {
    return this.askAll("openFile", { name, bytes });
  }
}
