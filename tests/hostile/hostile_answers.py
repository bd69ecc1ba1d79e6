"""What a call of the program must answer, by docs/FORMATS.md and without the engine: which arguments, addresses and lines
of scripts and listings are refused and how, which other statuses may come, and what a note and a text look like."""
import functools
import os
import re
import sys

sys.dont_write_bytecode = True
TOP = os.path.dirname(os.path.dirname(os.path.dirname(os.path.abspath(__file__))))
sys.path[1:1] = [os.path.join(TOP, "tools"), os.path.join(TOP, "checks")]
from command_line import is_module, run  # noqa: E402
from supertiles import Ring  # noqa: E402
from toml_document import NotToml, document_of  # noqa: E402
from windows import words_of  # noqa: E402

LONGEST = 1048576  # bytes of a rule file or a script
LONGEST_LISTING = 67108864  # bytes
MOST_LISTED = 200000  # lines of a listing
SHORT = 20000  # bytes of a rule file that is read here as well
MANY_LINES = 5000  # of a text of `calc`, of a longer one both ends are looked at
DEEPEST = 64
GREATEST = 2**24  # of the coefficients of a shift
MOST_ROUND = 64  # tiles that are printed round a vertex

BUILT_IN = {b"chair": "chair", b"p2": "penrose_p2", b"p3": "penrose_p3", b"ab": "ammann_beenker", b"halfhex": "half_hex"}
# for each command its required keys and those that may be left out
COMMANDS = {
    b"place": ((b"rule", b"addr"), ()),
    b"neighbour": ((b"rule", b"addr", b"edge"), ()),
    b"walk": ((b"rule", b"addr"), (b"seed", b"grow", b"path")),
    b"draw": ((b"rule", b"addr", b"at", b"half", b"layers"), (b"seed", b"glue")),
    b"check": ((b"rule",), ()),
    b"calc": ((b"rule",), ()),
    b"drill": ((b"rule", b"n"), (b"seed",)),
    b"star": ((b"rule", b"addr", b"vertex"), (b"seed",)),
    b"verify": ((b"rule", b"addr", b"at", b"half"), (b"seed",)),
}
NOT_OVER_FILES = b"calc", b"verify"  # commands whose rule is a built-in one
# the statuses with which a call may end whose words, rule and address are right
ENDS = {
    b"place": {0, 6},
    b"neighbour": {0, 8, 12},
    b"walk": {0, 5, 12},
    b"draw": {0, 5, 6, 7},
    b"check": {0},
    b"calc": {0, 13},
    b"drill": {0},
    b"star": {0, 5, 15, 16},
    b"verify": {0, 5, 6, 17},
}

N = rb"(?:0|[1-9][0-9]{0,2})"
ADDRESS = re.compile(rb"%b:(?:%b/%b(?:,%b/%b)*)?" % (N, N, N, N, N))
BEGINNING = re.compile(rb"(?:%b(?::(?:%b/%b,)*(?:%b(?:/%b?)?)?)?)?" % (N, N, N, N, N))
NUMBER = re.compile(rb"0|[1-9][0-9]*")


def is_number(text, least, most):
    """Whether a text is a number without sign or zeros in front, within bounds of up to twenty digits."""
    return NUMBER.fullmatch(text) is not None and len(text) <= 20 and least <= int(text) <= most


def is_signed(text, most):
    """Whether a text is a signed number up to the bound in absolute value."""
    return is_number(text[1:], 1, most) if text.startswith(b"-") else is_number(text, 0, most)


def are_layers(text):
    """Whether a text names layers, each at most once."""
    names = text.split(b",")
    return len(set(names)) == len(names) and set(names) <= {b"svg", b"list", b"census"}


def has_form(command, key, value):
    """Whether a value of a key has its form."""
    parts = value.split(b",")
    if key == b"rule":
        return value in BUILT_IN or (value == b"-" and command not in NOT_OVER_FILES)
    if key == b"path":
        return len(parts) <= 1000 and all(is_number(part, 0, 255) for part in parts)
    if key == b"at":
        return len(parts) == 4 and all(is_signed(part, 1048576) for part in parts)
    if key == b"half":
        return len(parts) == 2 and all(is_number(part, 1, 4096) for part in parts)
    if key == b"layers":
        return are_layers(value)
    if key == b"glue":
        return value in (b"yes", b"no")
    bounds = {b"edge": (0, 255), b"vertex": (0, 255), b"seed": (0, 2**64 - 1), b"grow": (0, 64), b"n": (1, 200)}
    return key == b"addr" or is_number(value, *bounds[key])


def wrong_word(words):
    """The number of the first wrong word, the number of words where a key is missing, or None."""
    if not words or words[0] not in COMMANDS:
        return 0
    required, further = COMMANDS[words[0]]
    given = set()
    for place, word in enumerate(words[1:], 1):
        key, equals, value = word.partition(b"=")
        if not equals or key not in required + further or key in given or not has_form(words[0], key, value):
            return place
        given.add(key)
    return None if given >= set(required) else len(words)


def are_text(words):
    """Whether all words are UTF-8."""
    try:
        b" ".join(words).decode()
    except UnicodeDecodeError:
        return False
    return True


class Shape:
    """Of an accepted rule what addresses need: the children of each kind, how many edges a kind has, and its
    plane."""

    def __init__(self, rule):
        self.ring, self.factor, self.motions = Ring(rule["order"]), rule["lambda"], [kind["children"] for kind in rule["kind"]]
        self.placed = functools.lru_cache(16)(self.placed)
        self.children = [[child[0] for child in kind["children"]] for kind in rule["kind"]]
        self.edges = [len(kind["edges"]) for kind in rule["kind"]]
        self.uses = [
            [(n, parent) for parent, own in enumerate(self.children) for n, child in enumerate(own) if child == kind]
            for kind in range(len(self.children))
        ]
        self.counts = rule["order"], len(rule["kind"]), len(rule["type"])

    def point(self, coefficients):
        return tuple(coefficients[: self.ring.size])

    def padded(self, point):
        """A point as texts have it."""
        return b"%d,%d,%d,%d" % (point + (0,) * (4 - len(point)))

    def placed(self, text):
        """Whether the tile of an address lies within the limits, and where it lies, or else the first refused
        value."""
        kind, digits = parsed(text)
        turn, shift = 0, (0,) * self.ring.size
        for child, parent in reversed(digits):
            _, more, *moved = self.motions[parent][child]
            around = self.ring.turned(turn, self.point(moved))
            shift = tuple(a + b for a, b in zip(self.ring.times(shift, self.point(self.factor)), around))
            turn = (turn + more) % self.ring.order
            if any(abs(a) > GREATEST for a in shift):
                return False, self.padded(shift)
        return True, b"%d %d %b" % (kind, turn, self.padded(shift))


def parsed(text):
    """The kind and the digits of an address."""
    first, _, rest = text.partition(b":")
    return int(first), [tuple(map(int, digit.split(b"/"))) for digit in rest.split(b",") if digit]


def address_fault(shape, text):
    """The fault of an address, as a note tells it, or None."""
    if not ADDRESS.fullmatch(text):
        return b"BadText %d" % BEGINNING.match(text).end()
    own, digits = parsed(text)
    if len(digits) > DEEPEST:
        return b"TooDeep"
    if own >= len(shape.children):
        return b"UnknownKind 0"
    for level, (child, parent) in enumerate(digits):
        if parent >= len(shape.children):
            return b"UnknownKind %d" % (level + 1)
        if child >= len(shape.children[parent]) or shape.children[parent][child] != own:
            return b"WrongChild %d" % level
        own = parent
    return None


NAME = re.compile(rb"[a-z]")
# for each line of a script its words behind the first: a name that is read, one that is bound, an edge, or an
# address
LINES = {b"let": "bound address", b"show": "read", b"place": "read", b"across": "read edge bound", b"common": "read read", b"pair": "read read"}


def word_fits(form, word):
    """Whether a word of a line has its form."""
    if form == "edge":
        return is_number(word, 0, 255)
    return len(word) > 0 if form == "address" else NAME.fullmatch(word) is not None


def bad_place(words):
    """The number of the first word of a line that hasn't its form, is one too many or is missing, or None."""
    if words[0] not in LINES:
        return 0
    forms = LINES[words[0]].split()
    for place, (form, word) in enumerate(zip(forms, words[1:]), 1):
        if not word_fits(form, word):
            return place
    return None if len(words) == len(forms) + 1 else min(len(words), len(forms) + 1)


class Script:
    """What is known of a script before its crossings: the first line that has a fault for certain, with that
    fault, and the lines that print before it, by number."""

    def __init__(self, shape, text):
        self.shape, self.names, self.printing, self.fault = shape, {}, {}, None
        for number, line in enumerate(text.split(b"\n"), 1):
            if line and not line.startswith(b"#"):
                words = line.split(b" ")
                told = self.line_fault(number, words)
                if told:
                    self.line, self.fault = number, told
                    return
                if words[0] != b"let":
                    self.printing[number] = words[0]

    def line_fault(self, number, words):
        """The certain fault of a line, or None; binds what the line binds: to an address, or to None where
        none is known."""
        place = bad_place(words)
        if place is not None:
            return b"BadLine %d %d" % (number, place)
        forms = LINES[words[0]].split()
        if any(form == "read" and word not in self.names for form, word in zip(forms, words[1:])):
            return b"UnknownName %d" % number
        if words[0] == b"let":
            fault = address_fault(self.shape, words[2])
            if fault:
                return b"Address %d %b" % (number, fault)
            self.names[words[1]] = words[2]
        if words[0] == b"across":
            address, self.names[words[3]] = self.names[words[1]], None
            if address and int(words[2]) >= self.shape.edges[parsed(address)[0]]:
                return b"NoEdge %d" % number
        if words[0] == b"place" and self.names[words[1]]:
            within, text = self.shape.placed(self.names[words[1]])
            return None if within else b"CoordLimit %d %b" % (number, text)
        return None

    def allows(self, fault):
        """Whether a script may have this fault, as a note tells it."""
        name, line = (fault.split(b" ") + [b"0"])[:2]
        if self.fault and int(line) >= self.line:
            return fault == self.fault
        lines = {b"NoEdge": b"across", b"Outside": b"across", b"CoordLimit": b"place"}
        return name in lines and self.printing.get(int(line)) == lines[name]


def wrong_place(words):
    """The number of the first word of a line of a listing that hasn't its form, is one too many or is
    missing, or None."""
    forms = (
        lambda word: is_number(word, 0, 255),
        lambda word: is_number(word, 0, 255),
        lambda word: word.count(b",") == 3 and all(is_signed(part, GREATEST) for part in word.split(b",")),
        lambda word: len(word) > 0,
    )
    for place, (form, word) in enumerate(zip(forms, words)):
        if not form(word):
            return place
    return None if len(words) == len(forms) else min(len(words), len(forms))


class Listing:
    """What is known of a listing before the walk: its first fault of those from TooLong to Double, as a note
    tells it, or None, in `fault`; and where it has none, its lines' numbers and motions by their tiles, in
    `lines`. A tile is a kind and 64 digits, those of the frame behind its own."""

    def __init__(self, shape, values, text):
        self.shape, self.lines = shape, {}
        self.kind, self.digits = parsed(values[b"addr"])
        self.grown = self.grown_digits(int(values.get(b"seed", b"0")))
        self.fault = self.first_fault(text)

    def grown_digits(self, seed):
        """The digits of the frame at depth 64."""
        digits, words = list(self.digits), words_of(seed)
        while len(digits) < DEEPEST:
            uses = self.shape.uses[digits[-1][1] if digits else self.kind]
            digits.append(uses[next(words) % len(uses)])
        return tuple(digits)

    def tile(self, kind, digits):
        """The tile of an address, or None where it isn't of the frame."""
        top, own = digits[-1][1] if digits else kind, self.grown[len(digits) - 1][1] if digits else self.kind
        return (kind, (*digits, *self.grown[len(digits) :])) if top == own else None

    def read(self, line):
        """The name of a line's fault and what stands behind its number; or None, and the line's tile and
        motion."""
        words = line.split(b" ")
        place = wrong_place(words)
        if place is not None:
            return b"BadLine", b" %d" % place
        fault = address_fault(self.shape, words[3])
        if fault:
            return b"Address", b" " + fault
        kind, digits = parsed(words[3])
        if kind != int(words[0]):
            return b"BadKind", b""
        return None, (self.tile(kind, digits), words[1] + b" " + words[2])

    def first_fault(self, text):
        """The fault; else puts the lines."""
        lines, known, read = text.split(b"\n"), {}, []
        if lines[-1] == b"":
            lines.pop()
        if len(text) > LONGEST_LISTING or len(lines) > MOST_LISTED:
            return b"TooLong"
        for number, line in enumerate(lines, 1):
            if line not in known:
                known[line] = self.read(line)
            name, rest = known[line]
            if name:
                return b"%b %d%b" % (name, number, rest)
            read.append(rest)
        for number, (tile, _) in enumerate(read, 1):
            if not tile:
                return b"NotOfFrame %d" % number
        for number, (tile, motion) in enumerate(read, 1):
            if tile in self.lines:
                return b"Double %d" % number
            self.lines[tile] = number, motion
        return None

    def allows(self, fault):
        """Whether a listing that has no fault before the walk may have this one, as a note tells it."""
        name, first, *rest = fault.split(b" ")
        if name == b"Missing":
            return not address_fault(self.shape, first) and self.tile(*parsed(first)) not in (None, *self.lines)
        motions = {b"%d" % number: motion for number, motion in self.lines.values()}
        return first in motions and (name == b"Stray" or (name == b"WrongPlace" and motions[first] != b" ".join(rest)))

    def due(self, listed):
        """The notes, and the text, of which one must come where `draw` lists these lines."""
        drawn = {}
        for line in listed.split(b"\n")[:-1]:
            kind, turn, shift, address = line.split(b" ")
            drawn[self.tile(*parsed(address))] = turn + b" " + shift
        due = {b"Missing": drawn.keys() - self.lines.keys()}
        moved = [tile for tile in drawn if tile in self.lines and self.lines[tile][1] != drawn[tile]]
        due[b"WrongPlace"] = {b"WrongPlace %d %b" % (self.lines[tile][0], drawn[tile]) for tile in moved}
        strays = sorted(number for tile, (number, _) in self.lines.items() if tile not in drawn)
        due[b"Stray"] = {b"Stray %d" % strays[0]} if strays else set()
        return due

    def otherwise(self, status, out, err, listed):
        """What is wrong with an answer where `draw` lists these lines, or None."""
        due, fault = self.due(listed), err[:-1].partition(b" BadListing ")[2]
        name = fault.partition(b" ")[0]
        told = self.tile(*parsed(fault.split(b" ")[1])) if name == b"Missing" else fault
        if due[b"Missing"] or due[b"WrongPlace"]:
            is_due = name in (b"Missing", b"WrongPlace") and told in due[name]
        elif due[b"Stray"]:
            is_due = told in due[b"Stray"]
        else:
            is_due = status == 0
        return None if is_due else f"{out[:100]!r} and {err[:300]!r}, but `draw` lists other lines"


def is_integer(value):
    return type(value) is int


def are_integers(value, many=None):
    """Whether a value is an array of integers, of so many where a number is given."""
    return isinstance(value, list) and all(map(is_integer, value)) and many in (None, len(value))


def are_rows(value, many):
    """Whether a value is an array of arrays of so many integers."""
    return isinstance(value, list) and all(are_integers(row, many) for row in value)


def are_tables(value):
    return isinstance(value, list) and all(isinstance(entry, dict) for entry in value)


class Reading:
    """The first fault of a TOML document that is read as a rule, or None, in `fault`."""

    def __init__(self, document):
        self.order, self.fault, self.document = document.get("order"), None, document
        orders = (4, 8, 10) if document.get("format") == 1 else (4, 6, 8, 10)
        self.key("format", document, "format", is_integer, lambda value: value in (1, 2))
        self.key("order", document, "order", is_integer, lambda value: value in orders)
        self.key("lambda", document, "lambda", lambda value: are_integers(value, 4), self.is_point)
        self.key("glue", document, "glue", are_integers, self.are_types)
        self.entries("type", {"mate": self.mate, "parts": self.parts})
        self.entries("kind", {"vertices": self.vertices, "edges": self.edges, "children": self.children})
        self.further("top", document, {"format", "order", "lambda", "glue", "type", "kind"})

    def key(self, key, table, label, has_form, is_in_range):
        """Looks for the faults of a key: that it is missing, has another form, or is out of range."""
        if self.fault:
            return
        if key not in table:
            self.fault = f"Missing {label}"
        elif not has_form(table[key]):
            self.fault = f"WrongType {label}"
        elif not is_in_range(table[key]):
            self.fault = f"OutOfRange {label}"

    def further(self, place, table, keys):
        """Looks for a further key."""
        if not self.fault and set(table) - keys:
            self.fault = f"UnknownKey {place}"

    def entries(self, name, keys):
        """Looks for the faults of an array of tables, each of its entries by its keys."""
        self.key(name, self.document, name, are_tables, lambda _: True)
        for number, entry in enumerate([] if self.fault else self.document[name]):
            for key, look in keys.items():
                look(entry, f"{key} {number}")
            self.further(f"{name} {number}", entry, set(keys))

    def is_point(self, point):
        return all(abs(a) <= 64 for a in point) and (self.order not in (4, 6) or not any(point[2:]))

    def are_types(self, value):
        return all(0 <= ty <= 31 for ty in value)

    def mate(self, entry, label):
        self.key("mate", entry, label, is_integer, lambda value: 0 <= value <= 31)

    def parts(self, entry, label):
        self.key("parts", entry, label, are_integers, self.are_types)

    def vertices(self, entry, label):
        self.key("vertices", entry, label, lambda value: are_rows(value, 4), lambda rows: all(map(self.is_point, rows)))

    def edges(self, entry, label):
        self.key("edges", entry, label, are_integers, self.are_types)

    def children(self, entry, label):
        self.key("children", entry, label, lambda value: are_rows(value, 6), lambda rows: all(map(self.is_child, rows)))

    def is_child(self, row):
        return 0 <= row[0] <= 15 and 0 <= row[1] < self.order and self.is_point(row[2:])


def file_fault(text):
    """The fault of a rule file by its form, as a note tells it, None where it has none, and False where it
    isn't known."""
    if len(text) > SHORT:
        return False
    try:
        fault = Reading(document_of(text)).fault
        return fault.encode() if fault else None
    except NotToml:
        return b"NotToml"
    except (RecursionError, ValueError):
        return False


P = rb"-?[0-9]+(?:,-?[0-9]+){3}"
A = rb"%b:(?:%b/%b(?:,%b/%b)*)?" % (N, N, N, N, N)
KEY = rb"(?:format|order|lambda|glue|type|kind|(?:mate|parts|vertices|edges|children) [0-9]+)"
WHAT = rb"(?:kinds|types|glue|(?:mate|parts|edges|child) [0-9]+)"
FAULT = rb"(?:BadText [0-9]+|TooDeep|UnknownKind [0-9]+|WrongChild [0-9]+)"
RULE = (
    rb"(?:NotToml|(?:Missing|WrongType|OutOfRange) %b|UnknownKey (?:top|(?:type|kind) [0-9]+)|TooMany %b|WrongFactor"
    rb"|(?:NotStar|BadMate|BadSubdivision|Unused|GlueWrong) [0-9]+|BadLength [0-9]+ [0-9]+"
    rb"|(?:ChildEdgeLoose|BoundaryWrong) [0-9]+ [0-9]+ [0-9]+)" % (KEY, WHAT)
)
BY_FORM = re.compile(rb"3 RuleRefused (?:NotToml|(?:Missing|WrongType|OutOfRange|UnknownKey) .*)\n")
SCRIPT = (
    rb"(?:TooLong|BadLine [0-9]+ [0-9]+|UnknownName [0-9]+|Address [0-9]+ %b|NoEdge [0-9]+|Outside [0-9]+ [0-9]+ [0-9]+"
    rb"|CoordLimit [0-9]+ %b)" % (FAULT, P)
)
LISTED = (
    rb"(?:TooLong|BadLine [0-9]+ [0-4]|Address [0-9]+ %b|(?:BadKind|NotOfFrame|Double|Stray) [0-9]+|Missing %b"
    rb"|WrongPlace [0-9]+ [0-9] %b)" % (FAULT, A, P)
)
# for each status what stands on standard error. 10 and 14 can't come: standard output takes all, and no layer
# is missing.
NOTES = {
    status: re.compile(form)
    for status, form in {
        0: rb"",
        1: rb"",
        2: rb"2 BadWords [0-9]+\n",
        3: rb"3 (?:RuleTooLong|RuleRefused %b)\n" % RULE,
        4: rb"4 BadAddress %b\n" % FAULT,
        5: rb"5 DepthLimit %b [0-9]+\n" % A,
        6: rb"6 CoordLimit %b\n" % P,
        7: rb"7 TooManyTiles\n",
        8: rb"8 Outside [0-9]+ [0-9]+\n",
        9: rb"9 ReadFault\n",
        11: rb"11 NoMemory\n",
        12: rb"12 NoEdge [0-9]+ [0-9]+\n",
        13: rb"13 BadScript %b\n" % SCRIPT,
        15: rb"15 NoVertex [0-9]+ [0-9]+\n",
        16: rb"16 StarTooBig\n",
        17: rb"17 BadListing %b\n" % LISTED,
    }.items()
}
TILE = rb"[0-9]+ [0-9] %b %b" % (P, A)
CALCULATED = {b"show": A, b"place": rb"[0-9]+ [0-9] %b" % P, b"across": rb"%b [0-9]+" % A, b"common": rb"[a-z] (?:[0-9]+|none)", b"pair": rb"[a-z] (?:none|same|apart|%b/%b(?: %b/%b)*)" % (N, N, N, N)}
# the first line and the last of the text of a layer
FIRST = {b"svg": rb"<svg [^\n]*>", b"list": rb"%b(?: \+ %b)?" % (TILE, TILE), b"census": rb"0 [0-9]+"}
LAST = {b"svg": rb"</svg>", b"list": FIRST[b"list"], b"census": rb"all [0-9]+"}


def is_far(note):
    """Whether a point at the end of a note is beyond the limit."""
    return any(abs(int(a)) > GREATEST for a in note.split()[-1].split(b","))


def note_fits(status, note):
    """Whether standard error has what its status must have there, with the limits that a note tells."""
    if status not in NOTES or not NOTES[status].fullmatch(note):
        return False
    if b" CoordLimit " in note:
        return is_far(note)
    return status != 5 or note.count(b"/") == DEEPEST


def lines_fit(text, forms):
    """Whether a text is these lines."""
    lines = text.split(b"\n")
    return lines[-1:] == [b""] and len(lines) == len(forms) + 1 and all(map(re.fullmatch, forms, lines))


def ends_fit(text, first, last):
    """Whether a text begins and ends with these lines."""
    head, tail = text.partition(b"\n")[0], text[:-1].rpartition(b"\n")[2]
    return text.endswith(b"\n") and re.fullmatch(first, head) and re.fullmatch(last, tail)


def star_fits(values, text):
    """Whether a text has lines of a star: the first is of the base, where it stands on its prototile, and no
    tile comes twice."""
    lines = text.split(b"\n")[:-1]
    first = rb"[0-9]+ 0 0,0,0,0 %b(?:,?%b/%b)* %b" % (re.escape(values[b"addr"]), N, N, re.escape(values[b"vertex"]))
    if not 0 < len(lines) <= MOST_ROUND or not lines_fit(text, [first] + [TILE + rb" [0-9]+"] * (len(lines) - 1)):
        return False
    addresses = [line.split(b" ")[3] for line in lines]
    return len(set(addresses)) == len(lines) and len({address.count(b"/") for address in addresses}) == 1


def text_fits(command, values, text, shape, script, listing):
    """Whether standard output looks like an answer of the command; script and listing are what is known of
    one."""
    if command == b"place":
        return text == shape.placed(values[b"addr"])[1] + b"\n" if shape else lines_fit(text, [rb"[0-9]+ [0-9] %b" % P])
    if command == b"neighbour":
        return lines_fit(text, [rb"%b [0-9]+" % A])
    if command == b"check":
        return not shape or text == b"accepted order %d kinds %d types %d\n" % shape.counts
    if command == b"walk":
        steps = len(values[b"path"].split(b",")) if b"path" in values else 0
        return lines_fit(text, [TILE + rb" -"] + [TILE + rb" [0-9]+"] * steps)
    if command == b"star":
        return star_fits(values, text)
    if command == b"verify":
        return len(listing.lines) > 0 and text == b"right %d\n" % len(listing.lines)
    if command == b"drill":
        forms = [b"%b [0-9]+" % name for name in (b"tiles", b"largest", b"depth", b"refused")]
        return lines_fit(text, [b"windows " + values[b"n"], *forms])
    if command == b"calc":
        forms = [b"[a-z] " + CALCULATED[word] for word in script.printing.values()]
        return ends_fit(text, forms[0], forms[-1]) if len(forms) > MANY_LINES else lines_fit(text, forms)
    layers = values[b"layers"].split(b",")
    return ends_fit(text, FIRST[layers[0]], LAST[layers[-1]])


class Wanted:
    """What a call must answer: the statuses with which it may end, and the note where it is known. `shapes`
    are those of the built-in rules. `shape` is that of the rule file where it is known to be accepted, and
    `refused` is its note where it is known to be refused. `folder` says that standard input can't be read."""

    def __init__(self, shapes, words, text, shape=None, refused=None, folder=False):
        self.words, self.shape, self.script, self.listing, self.values, self.is_read = words, None, None, None, {}, False
        self.ends, self.note = self.limited(shapes, text, shape, refused, folder)

    def limited(self, shapes, text, shape, refused, folder):
        """The statuses, and the note or None."""
        if not are_text(self.words):
            return {1}, b""
        place = wrong_word(self.words)
        if place is not None:
            return {2}, b"2 BadWords %d\n" % place
        command = self.words[0]
        self.values = dict(word.split(b"=", 1) for word in self.words[1:])
        rule = self.values[b"rule"]
        self.shape = shape if rule == b"-" else shapes[rule]
        if command == b"verify":
            return self.of_listing(text, folder)
        if command == b"calc" or rule == b"-":
            if folder:
                return {9}, b"9 ReadFault\n"
            if len(text) > LONGEST:
                return ({13}, b"13 BadScript TooLong\n") if command == b"calc" else ({3}, b"3 RuleTooLong\n")
            if refused and rule == b"-":
                return {3}, refused
        return self.of_command(command, text)

    def of_listing(self, text, folder):
        """The same of `verify`, whose words are right."""
        fault = address_fault(self.shape, self.values[b"addr"])
        if fault:
            return {4}, b"4 BadAddress %b\n" % fault
        if folder:
            return {9}, b"9 ReadFault\n"
        self.listing = Listing(self.shape, self.values, text)
        if self.listing.fault:
            return {17}, b"17 BadListing %b\n" % self.listing.fault
        return ENDS[b"verify"], None

    def of_command(self, command, text):
        """The same where the words are right and the file could be read."""
        if not self.shape:
            return self.of_file(command, text)
        fault = address_fault(self.shape, self.values[b"addr"]) if b"addr" in self.values else None
        if fault:
            return {4}, b"4 BadAddress %b\n" % fault
        if command == b"place":
            within, told = self.shape.placed(self.values[b"addr"])
            return ({0}, None) if within else ({6}, b"6 CoordLimit %b\n" % told)
        if command == b"neighbour":
            edge, edges = int(self.values[b"edge"]), self.shape.edges[parsed(self.values[b"addr"])[0]]
            return ({0, 8}, None) if edge < edges else ({12}, b"12 NoEdge %d %d\n" % (edge, edges))
        if command == b"star":
            vertex, edges = int(self.values[b"vertex"]), self.shape.edges[parsed(self.values[b"addr"])[0]]
            return ({0, 5}, None) if vertex < edges else ({15}, b"15 NoVertex %d %d\n" % (vertex, edges))
        if command == b"calc":
            self.script = Script(self.shape, text)
            return {13} if self.script.fault else {0, 13}, None
        return ENDS[command], None

    def of_file(self, command, text):
        """The same over a rule file that is neither known to be accepted nor to be refused."""
        fault = file_fault(text)
        if fault:
            return {3}, b"3 RuleRefused %b\n" % fault
        self.is_read = fault is None
        return ENDS[command] | {3} | ({4} if b"addr" in self.values else set()), None

    def wrong(self, status, out, err):
        """What is wrong with an answer, in words, or None."""
        if status < 0:
            return f"ended by signal {-status}"
        if not note_fits(status, err):
            return f"status {status} with {err[:300]!r} on standard error"
        if status != 0 and out:
            return f"status {status} with {out[:300]!r} on standard output"
        if status not in self.ends or (self.note is not None and err != self.note):
            return f"status {status} and {err[:300]!r} in place of {sorted(self.ends)} and {self.note!r}"
        if self.is_read and BY_FORM.fullmatch(err):
            return f"{err!r}, but the file has the form of a rule"
        if status == 13 and self.script and not self.script.allows(err[:-1].split(b" ", 2)[2]):
            return f"{err[:300]!r}, but the script has {self.script.fault!r}"
        if status == 17 and self.note is None and not self.listing.allows(err[:-1].split(b" ", 2)[2]):
            return f"{err[:300]!r}, but the listing hasn't this fault"
        if status == 0 and not text_fits(self.words[0], self.values, out, self.shape, self.script, self.listing):
            return f"the text isn't one of the command: {out[:300]!r}"
        return None


if __name__ == "__main__":
    run(is_module, __doc__)
