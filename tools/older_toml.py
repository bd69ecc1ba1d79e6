"""TOML 1.1 written as TOML 1.0 has it, which is what Python's own reader takes.

In inline tables the newlines, comments and the comma after the last entry become blanks; in strings the escapes \\e and
\\xHH are written otherwise; times get seconds, and a leap second is the second before it. Brackets and braces are nested
up to 80 deep, and keys have up to 80 parts, as the program takes them. Nothing else is imported here: the Python package
uses this file too."""
import re

DEEPEST = 80
DELIMITERS = ('"""', "'''", '"', "'")
PLACE = re.compile(r"\(at line (\d+), column (\d+)\)")
SHORT_TIME = re.compile(r"(?:\d{4}-\d\d-\d\d[Tt])?\d\d:\d\d(?![:\d])")
LEAP_SECOND = re.compile(r"(?:\d{4}-\d\d-\d\d[Tt])?\d\d:\d\d:60")
BARE = re.compile(r"[0-9A-Za-z:+.\-_]+")
ESCAPE = re.compile(r"\\(?:x([0-9A-Fa-f]{2})|(e)|.)", re.S)


class NotToml(Exception):
    """Why bytes are no document, in a few words."""


class Inline:
    """An inline table that is being read: what its last entry has so far, and where its last comma stands."""

    def __init__(self):
        self.has, self.comma = "nothing", None

    def take(self, character, at):
        """One more character that is neither blank nor part of a comment."""
        if character == ",":
            self.comma = at if self.has == "value" else None
            self.has = "nothing"
        elif self.has == "nothing":
            self.has, self.comma = "key", None
        elif self.has == "key" and character == "=":
            self.has = "sign"
        elif self.has == "sign":
            self.has = "value"


class Older:
    """A document of TOML 1.1 written as one of 1.0: its pieces, and for each character the place that it
    comes from."""

    def __init__(self, text):
        self.text, self.at, self.pieces, self.places, self.open, self.dots = text, 0, [], [], [], 0
        while self.at < len(text):
            self.step()

    def put(self, piece, length):
        """Writes a piece for so many characters of the text."""
        self.pieces.extend(piece)
        self.places.extend(min(self.at + i, self.at + length - 1) for i in range(len(piece)))
        self.at += length

    def inline(self):
        """The inline table in which the text stands, or None."""
        return self.open[-1] if self.open else None

    def step(self):
        """Writes what begins here: a string, a comment, a word, or one character."""
        rest = self.text[self.at : self.at + 3]
        delimiter = next((mark for mark in DELIMITERS if rest.startswith(mark)), None)
        bare = BARE.match(self.text, self.at)
        if rest[0] == "#":
            self.comment()
        elif rest[0] in " \t\r\n":
            self.blank()
        elif delimiter:
            self.note(rest[0])
            self.string(delimiter)
        elif bare:
            self.note(rest[0])
            self.word(bare[0])
        else:
            self.mark(rest[0])

    def note(self, character):
        if self.inline():
            self.inline().take(character, len(self.pieces))

    def is_between(self):
        """Whether a newline may stand here in an inline table: not round the sign of an entry."""
        return self.inline() and self.inline().has in ("nothing", "value")

    def comment(self):
        end = self.text.find("\n", self.at)
        length = (end if end >= 0 else len(self.text)) - self.at
        piece = self.text[self.at : self.at + length]
        self.put(" " * length if self.is_between() and piece.rstrip("\r").isprintable() else piece, length)

    def blank(self):
        length = 2 if self.text.startswith("\r\n", self.at) else 1
        piece = self.text[self.at : self.at + length]
        if piece[-1] == "\n":
            self.dots = 0
        self.put(" " * length if self.is_between() and piece[-1] == "\n" else piece, length)

    def string(self, delimiter):
        """A string to its end; where that is missing, to the end of the text."""
        body = rf"(?:\\.|(?!{delimiter}).)*" if delimiter[0] == '"' else rf"(?:(?!{delimiter}).)*"
        found = re.compile(rf"{delimiter}({body})", re.S).match(self.text, self.at)
        self.put(delimiter, len(delimiter))
        if delimiter[0] == "'":
            self.put(found[1], len(found[1]))
        else:
            for part in re.finditer(r"\\(?:x[0-9A-Fa-f]{2}|.)|[^\\]+|\\", found[1], re.S):
                escape = ESCAPE.match(part[0])
                code = escape and (escape[1] or ("1b" if escape[2] else None))
                self.put(f"\\u00{code}" if code else part[0], len(part[0]))
        if self.text.startswith(delimiter, self.at):
            self.put(delimiter, len(delimiter))
            more = re.compile(f"{delimiter[0]}{{0,2}}").match(self.text, self.at)[0] if len(delimiter) == 3 else ""
            self.put(more, len(more))

    def word(self, word):
        self.count_dots(word.count("."))
        short, leap = SHORT_TIME.match(word), LEAP_SECOND.match(word)
        done = (short or leap).end() if short or leap else 0
        if done:
            self.put(short[0] + ":00" if short else leap[0][:-2] + "59", done)
        self.put(word[done:], len(word) - done)

    def count_dots(self, more):
        """Dots between parts of a key; a value has one at most."""
        self.dots += more
        if self.dots >= DEEPEST:
            raise NotToml(f"a key has more than {DEEPEST} parts (at {self.place(self.at)})")

    def mark(self, character):
        table = self.inline()
        if character == ".":
            self.count_dots(1)
        elif character in "=,{}[]":
            self.dots = 0
        if character == "}" and table:
            if table.comma is not None and table.has == "nothing":
                self.pieces[table.comma] = " "
            self.open.pop()
        elif character == "]" and self.open:
            self.open.pop()
        else:
            self.note(character)
        if character in "{[":
            self.open.append(Inline() if character == "{" else None)
        if len(self.open) > DEEPEST:
            raise NotToml(f"brackets or braces are nested deeper than {DEEPEST} (at {self.place(self.at)})")
        self.put(character, 1)

    def place(self, at):
        """A place of the text as people count."""
        before = self.text[:at]
        return f"line {before.count(chr(10)) + 1}, column {at - before.rfind(chr(10))}"

    def told(self, fault):
        """What Python's reader says of the written text, with the place of the text that was given."""
        found = PLACE.search(fault)
        if not found:
            return fault
        lines = "".join(self.pieces).split("\n")
        at = sum(len(line) + 1 for line in lines[: int(found[1]) - 1]) + int(found[2]) - 1
        return PLACE.sub(f"(at {self.place(self.places[at] if at < len(self.places) else len(self.text))})", fault)


if __name__ == "__main__":
    from command_line import is_module, run

    run(is_module, __doc__)
