// Reads the part of TOML that rule files are written in: keys, whole numbers, lists, texts, [tables] and
// [[lists of
// tables]]. The engine decides whether a file is right; this serves the picture of its fault.

class Reader {
  constructor(text) {
    this.text = text.replace(/^\ufeff/, "");
    this.spot = 0;
    this.document = {};
    this.table = this.document;
  }

  /** Passes over a pattern, and returns what it matched, or null. */
  take(pattern) {
    const found = new RegExp(pattern.source, `${pattern.flags.replace("y", "")}y`);
    found.lastIndex = this.spot;
    const match = found.exec(this.text);
    if (match) this.spot += match[0].length;
    return match;
  }

  need(pattern, what) {
    const match = this.take(pattern);
    if (!match) throw new SyntaxError(
        `line ${this.text.slice(0, this.spot).split("\n").length}: ${what} is missing`);
    return match;
  }

  blank() {
    this.take(/(?:\s|#[^\n]*)*/);
  }

  read() {
    for (this.blank(); this.spot < this.text.length; this.blank()) this.statement();
    return this.document;
  }

  statement() {
    const head = this.take(/(\[\[?)\s*/);
    const names = this.names();
    if (!head) {
      this.need(/\s*=\s*/, "=");
      this.placeAt(this.table, names.slice(0, -1))[names.at(-1)] = this.value();
      return;
    }
    this.need(head[1] === "[[" ? /\s*\]\]/ : /\s*\]/, "]");
    this.table = head[1] === "[[" ? this.newEntry(names) : this.placeAt(this.document, names);
  }

  names() {
    const found = [];
    do found.push(this.need(/\s*("[^"\n]*"|'[^'\n]*'|[\w-]+)/, "a key")[1].replace(/^["']|["']$/g, ""));
    while (this.take(/\s*\.\s*/));
    return found;
  }

  /** The table of these names, the last of each list of tables. */
  placeAt(table, names) {
    return names.reduce((at, name) => {
      const found = (at[name] ??= {});
      return Array.isArray(found) ? found.at(-1) : found;
    }, table);
  }

  newEntry(names) {
    const table = this.placeAt(this.document, names.slice(0, -1)), entry = {};
    (table[names.at(-1)] ??= []).push(entry);
    return entry;
  }

  value() {
    const number = this.take(/[+-]?(?:0[xob][\da-f_]+|\d[\d_]*)/i);
    if (number) return Number(number[0].replaceAll("_", ""));
    const text = this.take(/"((?:[^"\\\n]|\\.)*)"|'([^'\n]*)'|true|false/);
    if (text) return text[1] ?? text[2] ?? text[0] === "true";
    if (this.take(/\[/)) return this.list();
    this.need(/\{/, "a value");
    return this.inlineTable();
  }

  list() {
    const found = [];
    for (this.blank(); !this.take(/\]/); this.blank()) {
      found.push(this.value());
      this.blank();
      if (!this.take(/,/)) {
        this.need(/\]/, "]");
        break;
      }
    }
    return found;
  }

  inlineTable() {
    const found = {};
    for (this.blank(); !this.take(/\}/); this.blank()) {
      const names = this.names();
      this.need(/\s*=\s*/, "=");
      this.placeAt(found, names.slice(0, -1))[names.at(-1)] = this.value();
      this.blank();
      this.take(/,/);
    }
    return found;
  }
}

/** The document of a text. Throws a SyntaxError. */
export const documentOf = (text) => new Reader(text.replaceAll("\r\n", "\n")).read();
