"""Inputs for the program, each from its own stream of random numbers: arguments and standard input, right ones, ones with
one fault, and ones with many."""
import os
import re
import sys
import tomllib
from typing import NamedTuple

sys.dont_write_bytecode = True
TOP = os.path.dirname(os.path.dirname(os.path.dirname(os.path.abspath(__file__))))
sys.path[1:1] = [os.path.join(TOP, "tools"), os.path.join(TOP, "checks")]
from command_line import is_module, run  # noqa: E402
from hostile_answers import BUILT_IN, COMMANDS, DEEPEST, LONGEST, LONGEST_LISTING, MOST_LISTED, NOT_OVER_FILES  # noqa: E402
from hostile_answers import Shape, parsed  # noqa: E402
from rule_file import Rule, area  # noqa: E402
from supertiles import Ring, address  # noqa: E402
from windows import Box, Frame, Tiling, reduced, shift_of  # noqa: E402


class Input(NamedTuple):
    """The words of a call and its standard input, a folder where `folder` says so. Where standard input read as a rule file
    is known to be refused, its note; else the shape of the rule over which the call was made, where it is accepted."""

    maker: str
    words: list
    text: bytes = b""
    shape: Shape | None = None
    refused: bytes | None = None
    folder: bool = False


class Source:
    """A rule file: its bytes, its numbers, its shape, and the mean area of its prototiles."""

    def __init__(self, path):
        with open(path, "rb") as file:
            self.text = file.read()
        self.document = tomllib.loads(self.text.decode())
        self.shape = Shape(self.document)
        rule = Rule(self.document, path)
        self.area = sum(area(kind.vertices) for kind in rule.kinds) / len(rule.kinds)
        self.high = 2 * abs(rule.zeta.imag)


class Library:
    """The rule files, those that are refused with their notes, and the shapes of the built-in rules."""

    def __init__(self, top):
        rules, refused = os.path.join(top, "rules"), os.path.join(top, "docs", "refused")
        names = sorted(name for name in os.listdir(rules) if name.endswith(".toml"))
        self.sources = [Source(os.path.join(rules, name)) for name in names]
        self.by_name = {name: self.sources[names.index(f"{file}.toml")] for name, file in BUILT_IN.items()}
        self.shapes = {name: source.shape for name, source in self.by_name.items()}
        self.tilings = {name: Tiling(source.document) for name, source in self.by_name.items()}
        self.refused = []
        for name in sorted(os.listdir(refused)):
            with open(os.path.join(refused, name), "rb") as file:
                text = file.read()
            self.refused.append((text, text.partition(b"\n")[0].removeprefix(b"# Refused: ") + b"\n"))
        self.texts = [source.text for source in self.sources] + [text for text, _ in self.refused]


class Drawn:
    """What is drawn for one input: a stream of numbers, and the library."""

    def __init__(self, stream, library):
        self.stream, self.library = stream, library
        self.choice, self.below, self.between = stream.choice, stream.randrange, stream.randint

    def once_in(self, many):
        return self.stream.randrange(many) == 0

    def up_to(self, most):
        """A number from 1, of any length alike."""
        return min(most, int(most ** self.stream.random() * (1 + self.stream.random())))

    def shuffled(self, items):
        return self.stream.sample(items, len(items))


# Right calls


def some_rule(drawn, command):
    """The value of `rule`, its rule file, what stands on standard input, and the note of that where it is no rule file."""
    if command in NOT_OVER_FILES or drawn.below(5) < 3:
        name = drawn.choice(sorted(BUILT_IN))
        text, note = drawn.choice(((b"", b"3 RuleRefused Missing format\n"), (b"format = x", b"3 RuleRefused NotToml\n")))
        return name, drawn.library.by_name[name], text, note
    source = drawn.choice(drawn.library.sources)
    return b"-", source, source.text, None


def some_address(drawn, shape, most=DEEPEST):
    """A right address: digits from the uses of each kind, or one child of its own kind again and again."""
    kind = first = drawn.below(len(shape.children))
    depth, digits = min(most, drawn.choice((0, 0, 1, 2, 3, 5, 8, 13, 24, 40, 63, 64, drawn.below(65)))), []
    same = [number for number, child in enumerate(shape.children[kind]) if child == kind]
    if same and drawn.once_in(5):
        return b"%d:%b" % (kind, b",".join([b"%d/%d" % (drawn.choice(same), kind)] * depth))
    for _ in range(depth):
        child, kind = drawn.choice(shape.uses[kind])
        digits.append(b"%d/%d" % (child, kind))
    return b"%d:%b" % (first, b",".join(digits))


def some_seed(drawn):
    return b"%d" % drawn.choice((0, 1, 42, 2**63, 2**64 - 1, drawn.below(2**64), drawn.below(2**64)))


def some_edge(drawn, shape):
    """An edge that most kinds have, and now and then any number."""
    return b"%d" % (drawn.below(256) if drawn.once_in(20) else drawn.below(max(shape.edges)))


def some_layers(drawn):
    return b",".join(drawn.stream.sample([b"svg", b"list", b"census"], drawn.between(1, 3)))


def points(numbers):
    return b",".join(b"%d" % number for number in numbers)


def window(drawn, far, half):
    """The words of a window whose centre has coefficients up to `far`."""
    words = [b"at=" + points(drawn.between(-far, far) for _ in range(4)), b"half=" + points(half), b"layers=" + some_layers(drawn)]
    if drawn.once_in(2):
        words.append(b"seed=" + some_seed(drawn))
    if drawn.once_in(2):
        words.append(b"glue=" + drawn.choice((b"yes", b"no")))
    return words


def full_half(drawn, source):
    """Half extents of a window of some 200,000 tiles, a little less or more, of any shape."""
    tiles = drawn.stream.uniform(150000, 230000)
    wide = max(12, drawn.up_to(4096))
    return wide, max(1, min(4096, round(tiles * source.area / (wide * source.high))))


def right_call(drawn, command=None):
    """Right words, in any order, over a right rule."""
    command = command or drawn.choice((b"place", b"neighbour", b"walk", b"draw", b"check", b"drill", b"star"))
    name, source, text, note = some_rule(drawn, command)
    words = [b"rule=" + name]
    if command == b"verify":
        words, text, note = listing_words(drawn, name, source.shape)
    elif b"addr" in COMMANDS[command][0]:
        words.append(b"addr=" + some_address(drawn, source.shape))
    if command == b"neighbour":
        words.append(b"edge=" + some_edge(drawn, source.shape))
    if command == b"star":
        words += [b"vertex=" + some_edge(drawn, source.shape)] + [b"seed=" + some_seed(drawn)] * drawn.below(2)
    if command == b"walk":
        words += walk_words(drawn, source.shape)
    if command == b"draw":
        words += window(drawn, drawn.choice((1, 6, 6, 40, 3000)), (drawn.between(1, 6), drawn.between(1, 6)))
    if command == b"drill":
        words += [b"n=%d" % drawn.up_to(4)] + [b"seed=" + some_seed(drawn)] * drawn.below(2)
    return Input(f"right {command.decode()}", [command, *drawn.shuffled(words)], text, source.shape, note)


def walk_words(drawn, shape):
    """A path, a seed and a depth, each of which may be left out."""
    words, most = [], min(shape.edges)
    if not drawn.once_in(4):
        path = [drawn.below(most) for _ in range(drawn.choice((1, 2, 5, 20, drawn.up_to(1000), 1000)))]
        if drawn.once_in(10):
            path[-1] = drawn.below(256)
        words.append(b"path=" + points(path))
    if drawn.once_in(2):
        words.append(b"seed=" + some_seed(drawn))
    if drawn.once_in(2):
        words.append(b"grow=%d" % drawn.choice((0, 1, 64, drawn.below(65))))
    return words


def listing_words(drawn, name, shape):
    """The words of a small window and its listing, which is right where the window isn't beyond the limits: in any order,
    and with addresses that now and then stop where the supertile's digits go on."""
    tiling, addr = drawn.library.tilings[name], some_address(drawn, shape, drawn.choice((0, 1, 2, 5, 64)))
    far, half, seed = drawn.choice((1, 3, 3, 20)), (drawn.between(1, 3), drawn.between(1, 3)), some_seed(drawn)
    at = [drawn.between(-far, far) for _ in range(4)]
    words = [b"rule=" + name, b"addr=" + addr, b"at=" + points(at), b"half=" + points(half), b"seed=" + seed]
    frame = Frame(tiling, *parsed(addr), int(seed))
    box = Box(tiling.plane, tiling.point(reduced(tiling.ring.order, at)), half)
    while len(frame.digits) < DEEPEST and not frame.is_enough(box):
        frame.grow()
    cut = drawn.below(3)
    lines = [line_of(drawn, frame, tile, cut) for tile in frame.tiles(box)]
    text = b"".join(drawn.shuffled(lines) if drawn.below(4) else lines)
    return words, text if drawn.below(4) else text[:-1], None


def line_of(drawn, frame, tile, cut):
    """A line of a tile, whose address is cut short now and then where `cut` says so."""
    kind, turn, _, digits = tile
    while digits and digits[-1] == frame.digits[len(digits) - 1] and cut and drawn.below(3):
        digits = digits[:-1]
    return f"{kind} {turn} {','.join(map(str, shift_of(tile)))} {address((kind, digits))}\n".encode()


def place_or_check(drawn):
    return right_call(drawn, drawn.choice((b"place", b"place", b"check")))


def neighbour(drawn):
    return right_call(drawn, b"neighbour")


def walk(drawn):
    return right_call(drawn, b"walk")


def star(drawn):
    return right_call(drawn, b"star")


def small_window(drawn):
    return right_call(drawn, b"draw")


def drawn_window(drawn, maker, far, half_of):
    """A call of `draw` with the half extents that a function makes of the rule file."""
    name, source, text, note = some_rule(drawn, b"draw")
    address = some_address(drawn, source.shape, drawn.choice((0, 3, 64)))
    words = [b"rule=" + name, b"addr=" + address, *window(drawn, far, half_of(source))]
    return Input(maker, [b"draw", *drawn.shuffled(words)], text, source.shape, note)


def middle_window(drawn):
    return drawn_window(drawn, "middle window", 100, lambda _: (drawn.up_to(30), drawn.up_to(30)))


def full_window(drawn):
    return drawn_window(drawn, "full window", 100, lambda source: full_half(drawn, source))


def corner(drawn):
    """A call over a base of 64 digits that lies in a corner of its supertile, or near one, which can't grow."""
    call = right_call(drawn, drawn.choice((b"draw", b"draw", b"walk", b"neighbour", b"star", b"verify")))
    kind = drawn.below(len(call.shape.children))
    same = [number for number, child in enumerate(call.shape.children[kind]) if child == kind]
    if not same:
        return call
    digits = [b"%d/%d" % (drawn.choice(same), kind)] * drawn.choice((63, 64, 64))
    if len(digits) == 63:
        child, parent = drawn.choice(call.shape.uses[kind])
        digits.append(b"%d/%d" % (child, parent))
    made = b"addr=%d:%b" % (kind, b",".join(digits))
    if call.words[0] == b"verify":
        words = [b"at=0,0,0,0" if word.startswith(b"at=") else word for word in call.words]
        call = call._replace(words=words, text=b"%d 0 0,0,0,0 %b\n" % (kind, made[5:]))
    return call._replace(maker="corner", words=[made if word.startswith(b"addr=") else word for word in call.words])


def far_window(drawn):
    """A window anywhere in the limits of words, most often too far out."""
    far = drawn.choice((2**20, 2**20, drawn.up_to(2**20)))
    return drawn_window(drawn, "far window", far, lambda _: (drawn.between(1, 9), drawn.between(1, 9)))


def wide_window(drawn):
    """A window of any half extents."""
    return drawn_window(drawn, "wide window", drawn.choice((5, 2**20)), lambda _: (drawn.up_to(4096), drawn.up_to(4096)))


def drill(drawn):
    call = right_call(drawn, b"drill")
    return call._replace(maker="drill", words=[b"n=%d" % drawn.up_to(200) if word.startswith(b"n=") else word for word in call.words])


def unread(drawn):
    """A call whose standard input is a folder."""
    call = right_call(drawn, drawn.choice((b"place", b"check", b"calc", b"verify")))
    return call._replace(maker="a folder", folder=True)


# Words

NUMBERS = """0 1 2 3 7 8 63 64 65 128 199 200 201 255 256 257 999 1000 4095 4096 4097 1048575 1048576 1048577 -1 -0 -1048576
    -1048577 2147483647 2147483648 4294967295 4294967296 9223372036854775807 9223372036854775808 18446744073709551614
    18446744073709551615 18446744073709551616 -9223372036854775808 340282366920938463463374607431768211456 00 01 007 +1 +0 --1 -
    1. 1.0 .5 1e3 0x10 0b1 1_000 ١ １ ⅷ ½ inf nan NaN true""".split()
WORD_PARTS = """place neighbour neighbor walk draw check calc drill star verify help version PLACE Place rule addr edge seed grow path
    at half layers glue n vertex rules RULE address format chair p2 p3 ab halfhex hat - -- --help yes no svg list census png all 0: 0:0/0
    1:1/0 0:0/0,1/0 3 = == , ,, : / ; . .. ~ * ? $(reboot) %s %n {} é ζ λ 日本 \U0001f600 \u200b \ufeff a\u0301 \u202e""".split()


def nasty_number(drawn):
    if drawn.once_in(8):
        return b"%d" % drawn.between(-(2**drawn.below(130)), 2 ** drawn.below(130))
    return drawn.choice(NUMBERS).encode()


def long_value(drawn):
    """A value of up to 130,000 bytes, which is as long as a word may be."""
    length = drawn.choice((300, 4000, 65536, 130000))
    part = drawn.choice((b"9", b"0", b"1,", b"0/0,", b"0:", b"=", b"svg,", b"-", b" ", b"\xc3\xa9", b"\xff", b"x", b"\n"))
    return (part * length)[:length]


def nasty_value(drawn):
    """A value that most keys don't take."""
    which = drawn.below(12)
    if which == 0:
        return b""
    if which == 1:
        return long_value(drawn)
    if which == 2:
        return drawn.choice((b" ", b" 1", b"1 ", b"1\n", b"\t", b"1\r", b"\x01", b"\x7f"))
    if which < 6:
        return nasty_number(drawn)
    if which < 9:
        return b",".join(nasty_number(drawn) for _ in range(drawn.choice((2, 2, 3, 4, 4, 5))))
    return b"".join(drawn.choice(WORD_PARTS).encode() for _ in range(drawn.between(1, 3)))


def other_number(drawn, word):
    """A word with one of its numbers changed."""
    places = list(re.finditer(rb"-?[0-9]+", word))
    if not places:
        return word + nasty_number(drawn)
    place = drawn.choice(places)
    return word[: place.start()] + nasty_number(drawn) + word[place.end() :]


def other_byte(drawn, word):
    """A word with a byte changed, added or taken away; never a zero byte, which no word can hold."""
    place = drawn.below(len(word) + 1)
    byte = bytes([drawn.choice((drawn.between(1, 255), drawn.choice(b" =,:/-0123456789abcdefglr\xff\x80"))) ])
    return drawn.choice((word[:place] + byte + word[place:], word[:place] + byte + word[place + 1 :], word[:place] + word[place + 1 :]))


def with_key(drawn, word):
    """A word with another key."""
    key, _, value = word.partition(b"=")
    return drawn.choice((value, key, b"=" + value, key + b"==" + value, key.upper() + b"=" + value, b"x=" + value, b" " + word))


def with_value(drawn, word):
    """A word with another value."""
    return word.partition(b"=")[0] + b"=" + nasty_value(drawn)


def changed_words(drawn, words):
    """Words with one thing changed."""
    which, place = drawn.below(10), drawn.below(len(words))
    if which == 0:
        return words[:place] + words[place + 1 :]
    if which == 1:
        return words[: place + 1] + words[place:]
    if which == 2:
        return words[:place] + [some_word(drawn)] + words[place:]
    if which == 3:
        return drawn.shuffled(words)
    change = (other_number, other_number, other_byte, with_key, with_value, with_value)[which - 4]
    return words[:place] + [change(drawn, words[place])] + words[place + 1 :]


def some_word(drawn):
    """Any word."""
    if drawn.once_in(3):
        return nasty_value(drawn)
    return drawn.choice(WORD_PARTS).encode() + b"=" * drawn.below(2) + nasty_value(drawn)


def one_wrong(drawn):
    """A right call with one thing changed in its words."""
    call = right_call(drawn, drawn.choice(sorted(COMMANDS)))
    return call._replace(maker="words with one change", words=changed_words(drawn, call.words))


def more_wrong(drawn):
    """A right call with some things changed."""
    call = right_call(drawn, drawn.choice(sorted(COMMANDS)))
    words = call.words
    for _ in range(drawn.between(2, 6)):
        words = changed_words(drawn, words or [b"place"])
    return call._replace(maker="words with changes", words=words)


def any_words(drawn):
    """Words of parts and of nasty values."""
    return Input("any words", [some_word(drawn) for _ in range(drawn.up_to(12) - 1)])


def border_words(drawn):
    """A right call with a number of each key at its limit or beyond."""
    call = right_call(drawn, drawn.choice((b"neighbour", b"walk", b"draw", b"drill", b"star", b"verify")))
    values = {
        b"edge": lambda: nasty_number(drawn),
        b"vertex": lambda: nasty_number(drawn),
        b"seed": lambda: nasty_number(drawn),
        b"grow": lambda: nasty_number(drawn),
        b"n": lambda: drawn.choice((b"0", b"1", b"201", b"01", b"-1")),
        b"path": lambda: b",".join([b"0"] * drawn.choice((0, 1, 999, 1000, 1001)) + [nasty_number(drawn)] * drawn.below(2)),
        b"at": lambda: b",".join(nasty_number(drawn) if drawn.once_in(2) else b"1" for _ in range(drawn.choice((3, 4, 4, 4, 5)))),
        b"half": lambda: b",".join(drawn.choice((b"0", b"1", b"2", b"4097", b"01")) for _ in range(drawn.choice((1, 2, 2, 2, 3)))),
    }
    words = [word if word.partition(b"=")[0] not in values else word.partition(b"=")[0] + b"=" + values[word.partition(b"=")[0]]() for word in call.words]
    return call._replace(maker="words at limits", words=words)


# Addresses


def with_address(drawn, maker, address):
    """A call of a command over an address that a function makes of the rule's shape."""
    command = drawn.choice((b"place", b"place", b"neighbour", b"walk", b"draw", b"star", b"verify"))
    call = right_call(drawn, command)
    made = b"addr=" + address(call.shape).replace(b"\0", b"")
    return call._replace(maker=maker, words=[made if word.startswith(b"addr=") else word for word in call.words])


def changed_address(drawn, shape):
    """A right address with one number or byte changed, or with a digit dropped, doubled, or put elsewhere."""
    address, which = some_address(drawn, shape), drawn.below(6)
    first, _, rest = address.partition(b":")
    digits = rest.split(b",")
    place = drawn.below(len(digits))
    if which == 0:
        digits = digits[:place] + digits[place + 1 :]
    if which == 1:
        digits = digits[: place + 1] + digits[place:]
    if which == 2:
        digits = drawn.shuffled(digits)
    if which < 3:
        return first + b":" + b",".join(digits)
    return other_byte(drawn, address) if which == 3 else other_number(drawn, address)


def deep_address(drawn, shape):
    """An address of 65 digits or more."""
    kind = drawn.below(len(shape.children))
    same = [number for number, child in enumerate(shape.children[kind]) if child == kind] or [0]
    return b"%d:%b" % (kind, b",".join([b"%d/%d" % (same[0], kind)] * drawn.choice((64, 65, 66, 128, 255, 256, 257, 320, 9000))))


def garbage(drawn, _):
    """Bytes of addresses in any order, or any bytes."""
    if drawn.once_in(3):
        return drawn.stream.randbytes(drawn.up_to(200))
    return bytes(drawn.choice(b"0123456789:/,,//::0011 -+.") for _ in range(drawn.up_to(60)))


def wrong_address(drawn):
    maker, make = drawn.choice((("address with one change", changed_address), ("deep address", deep_address), ("garbage for address", garbage)))
    return with_address(drawn, maker, lambda shape: make(drawn, shape))


# Rule files


def over_file(drawn, maker, text, shape=None, refused=None):
    """A call of some command over a rule file, most often of `check`."""
    command = b"check" if drawn.below(4) else drawn.choice((b"place", b"neighbour", b"walk", b"draw", b"drill", b"star"))
    words = [word if not word.startswith(b"rule=") else b"rule=-" for word in right_call(drawn, command).words]
    if shape and b"addr" in COMMANDS[command][0]:
        words = [b"addr=" + some_address(drawn, shape) if word.startswith(b"addr=") else word for word in words]
    return Input(maker, words, text, shape, refused)


def refused_file(drawn):
    text, note = drawn.choice(drawn.library.refused)
    return over_file(drawn, "refused file", text, None, note)


def changed_lines(drawn, text):
    """A file with a line dropped, doubled, put elsewhere or added."""
    lines, which = text.split(b"\n"), drawn.below(4)
    place, other = drawn.below(len(lines)), drawn.below(len(lines))
    if which == 0:
        lines = lines[:place] + lines[place + 1 :]
    if which == 1:
        lines = lines[: place + 1] + lines[place:]
    if which == 2:
        lines[place], lines[other] = lines[other], lines[place]
    if which == 3:
        lines.insert(place, some_line(drawn))
    return b"\n".join(lines)


def changed_key(drawn, text):
    """A file with a key changed, dropped or doubled."""
    places = list(re.finditer(rb"(?m)^\w+(?= *=)|\[\[\w+\]\]", text))
    place = drawn.choice(places)
    key = drawn.choice(KEYS + (place.group(), place.group() + b"x", b'"' + place.group() + b'"', b"", b"a.b"))
    return text[: place.start()] + key + text[place.end() :]


def changed_bytes(drawn, text):
    for _ in range(drawn.up_to(4)):
        place = drawn.below(len(text) + 1)
        byte = bytes([drawn.choice((drawn.below(256), drawn.choice(b"[]{}=,.\"'#\n\r\t 0123456789-+_\\")))])
        text = text[:place] + drawn.choice((byte, b"")) + text[place + drawn.below(2) :]
    return text


def changed_file(drawn):
    """A rule file with one thing changed, or some."""
    text, base = drawn.choice(drawn.library.texts), drawn.choice((1, 1, 1, 2, 5))
    for _ in range(base):
        change = drawn.choice((changed_number, changed_number, changed_number, changed_key, changed_lines, changed_bytes, cut_short, joined))
        text = change(drawn, text) or b"\n"
        text = text if re.search(rb"(?m)^\w+(?= *=)|\[\[\w+\]\]", text) else drawn.choice(drawn.library.texts)
    return over_file(drawn, "changed file", text)


def changed_number(drawn, text):
    """A file with a number changed: by one, or to another that is near, at a limit, or no number."""
    place = drawn.choice(list(re.finditer(rb"-?[0-9]+", text)) or [re.match(b"", text)])
    old = int(place.group() or b"0")
    near = (old + 1, old - 1, -old, drawn.below(4), drawn.below(12), drawn.between(-65, 65))
    new = b"%d" % drawn.choice(near) if drawn.below(4) else drawn.choice((nasty_number(drawn), some_value(drawn, 2)))
    return text[: place.start()] + new + text[place.end() :]


def cut_short(drawn, text):
    return text[: drawn.below(len(text) + 1)]


def joined(drawn, text):
    """Two files, one behind the other or one in the other."""
    place = drawn.choice((0, len(text), drawn.below(len(text) + 1)))
    return text[:place] + drawn.choice(drawn.library.texts) + text[place:]


KEYS = (b"format", b"order", b"lambda", b"glue", b"type", b"kind", b"mate", b"parts", b"vertices", b"edges", b"children")


def some_value(drawn, depth):
    """A TOML value, or nearly one."""
    which = drawn.below(9 if depth else 6)
    if which < 3:
        return b"%d" % drawn.between(-3, 12)
    if which == 3:
        return nasty_number(drawn)
    if which == 4:
        return drawn.choice((b'"4"', b"''", b"true", b"false", b"1979-05-27", b"07:32:00", b"1979-05-27T07:32:00Z", b"nan", b"-inf", b'"""\n"""'))
    if which == 5:
        return drawn.choice((b"0x4", b"0o4", b"0b100", b"+4", b"4_0", b"1e0", b"4.", b'"\\u00e9"', b'"\\q"', b"'''x'''"))
    many = drawn.choice((0, 1, 4, 4, 4, 6, 6, drawn.up_to(40)))
    if which < 8:
        return b"[" + b", ".join(some_value(drawn, depth - 1) for _ in range(many)) + b"]"
    return b"{" + b", ".join(drawn.choice(KEYS) + b" = " + some_value(drawn, depth - 1) for _ in range(many)) + b"}"


def some_line(drawn):
    """A line of TOML, or nearly one."""
    which = drawn.below(8)
    if which == 0:
        return drawn.choice((b"[[type]]", b"[[kind]]", b"[type]", b"[kind]", b"[[kind.vertices]]", b"[x]", b"[[", b"]", b"# [", b"[a.b.c]"))
    key = drawn.choice(KEYS) if drawn.below(4) else drawn.choice((b"x", b"a.b", b'"a b"', b"''", b"\xc3\xa9", b"kind.x", b"1", b"-"))
    return key + b" = " + some_value(drawn, 3) + (b" # x" if drawn.once_in(9) else b"")


def any_document(drawn):
    """Lines of TOML at random, or bytes at random."""
    if drawn.once_in(4):
        return over_file(drawn, "random bytes", drawn.stream.randbytes(drawn.up_to(3000)))
    return over_file(drawn, "random document", b"\n".join(some_line(drawn) for _ in range(drawn.up_to(40))))


def number_text(drawn, number):
    """A number in one of the ways in which TOML writes it."""
    ways = ["%d", "%d", "%d", "+%d", "0x%X", "0x%x", "0o%o", "0x00%x"] if number >= 0 else ["%d"]
    text = drawn.choice(ways) % number
    return text if len(text) < 2 or not text.isdigit() else drawn.choice((text, "_".join(text)))


def value_text(drawn, value):
    """A value in one of the ways in which TOML writes it."""
    if isinstance(value, list):
        gap = drawn.choice(("", " ", "\n", " # [\n\t", "\r\n"))
        return "[" + gap + f",{gap}".join(value_text(drawn, item) for item in value) + ("," + gap) * (drawn.below(2) * bool(value)) + "]"
    return number_text(drawn, value)


def table_text(drawn, name, table):
    """An entry of `type` or `kind`."""
    lines = [f"{drawn.choice((key, repr(key)))} = {value_text(drawn, value)}" for key, value in drawn.shuffled(list(table.items()))]
    return drawn.choice((f"[[{name}]]", f'[[ "{name}" ]]  # x')) + "\n" + "\n".join(lines)


def written_otherwise(drawn):
    """A rule file in other words: order of keys, forms of numbers, blanks, comments, ends of lines."""
    source = drawn.choice(drawn.library.sources)
    document = source.document
    tops = [f"{key} = {value_text(drawn, document[key])}" for key in drawn.shuffled(["format", "order", "lambda", "glue"])]
    entries = [[table_text(drawn, name, table) for table in document[name]] for name in ("type", "kind")]
    if drawn.once_in(2):
        entries.reverse()
    text = "\n".join(tops + sum(entries, []) + [""]).replace("\r\n", "\n")
    return over_file(drawn, "file in other words", text.replace("\n", drawn.choice(("\n", "\r\n", "\n\n"))).encode(), source.shape)


def moved_rule(drawn):
    """A rule turned, scaled by a number of its ring, or with its kinds and types numbered otherwise: the same tiling."""
    source = drawn.choice(drawn.library.sources)
    document, ring = source.document, Ring(source.document["order"])
    scale = some_scale(drawn, ring)
    kinds, types = drawn.shuffled(range(len(document["kind"]))), drawn.shuffled(range(len(document["type"])))
    moved = lambda point: list(ring.times(scale, tuple(point[: ring.size]))) + [0] * (4 - ring.size)  # noqa: E731
    new = {
        **{key: document[key] for key in ("format", "order", "lambda")},
        "glue": [types[ty] for ty in document["glue"]],
        "type": numbered(types, [{"mate": types[ty["mate"]], "parts": [types[part] for part in ty["parts"]]} for ty in document["type"]]),
        "kind": numbered(
            kinds,
            [
                {
                    "vertices": [moved(vertex) for vertex in kind["vertices"]],
                    "edges": [types[ty] for ty in kind["edges"]],
                    "children": [[kinds[own], turn, *moved(shift)] for own, turn, *shift in kind["children"]],
                }
                for kind in document["kind"]
            ],
        ),
    }
    if any(abs(a) > 64 for kind in new["kind"] for point in kind["vertices"] + [child[2:] for child in kind["children"]] for a in point):
        return written_otherwise(drawn)
    return far_out(drawn, over_file(drawn, "rule moved", document_text(new), Shape(new)))


def document_text(document):
    """A rule's numbers as a rule file."""
    text = "".join(f"{key} = {document[key]}\n" for key in ("format", "order", "lambda", "glue"))
    for name in ("type", "kind"):
        text += "".join(f"[[{name}]]\n" + "".join(f"{key} = {value}\n" for key, value in entry.items()) for entry in document[name])
    return text.encode()


def far_out(drawn, call):
    """The same call, or now and then one whose window lies anywhere and is of any size."""
    if call.words[0] != b"draw" or drawn.below(3):
        return call
    far = drawn.up_to(2**20)
    other = {b"at": points(drawn.between(-far, far) for _ in range(4)), b"half": points((drawn.up_to(4096), drawn.up_to(4096)))}
    return call._replace(words=[b"%b=%b" % (key, other[key]) if (key := word.partition(b"=")[0]) in other else word for word in call.words])


def grid_rule(drawn):
    """A rule of parallelograms with up to twelve edges, cut into up to sixteen, in up to sixteen kinds that are alike."""
    order, factor, kinds = drawn.choice((4, 6, 8, 10)), drawn.between(2, 4), drawn.choice((1, 2, 3, 16, drawn.between(1, 16)))
    ring, (wide, high) = Ring(order), drawn.choice(((1, 1), (2, 1), (2, 2), (2, 3), (2, 4)))
    scale = some_scale(drawn, ring) if drawn.once_in(2) else (1,) + (0,) * (ring.size - 1)
    up = ring.turned(drawn.between(1, order // 2 - 1), scale)
    place = lambda x, y: [x * a + y * b for a, b in zip(scale, up)] + [0] * (4 - ring.size)  # noqa: E731
    round_it = [(x, 0) for x in range(wide)] + [(wide, y) for y in range(high)]
    round_it += [(x, high) for x in range(wide, 0, -1)] + [(0, y) for y in range(high, 0, -1)]
    vertices = [place(*corner) for corner in round_it[wide - 1 :] + round_it[: wide - 1]]
    shifts = [place(wide * x, high * y) for y in range(factor) for x in range(factor)]
    own = [[(kind + 1 + drawn.below(kinds) * (number > 0)) % kinds for number in range(len(shifts))] for kind in range(kinds)]
    document = {
        "format": 2, "order": order, "lambda": [factor, 0, 0, 0], "glue": [], "type": [{"mate": 0, "parts": [0] * factor}],
        "kind": [
            {"vertices": vertices, "edges": [0] * len(vertices), "children": [[kind, 0, *shift] for kind, shift in zip(children, shifts)]}
            for children in own
        ],
    }  # fmt: skip
    if any(abs(a) > 64 for point in vertices + shifts for a in point):
        return moved_rule(drawn)
    return far_out(drawn, over_file(drawn, "grid rule", document_text(document), Shape(document)))


# units by which a figure is made smaller
SMALLER = {8: (-1, 1, 0, -1), 10: (0, 0, 1, -1)}


def some_scale(drawn, ring):
    """A number of the ring other than 0, or a power of a unit, by which tiles become very small."""
    scale = tuple(drawn.choice((0, 0, 1, -1, 2)) for _ in range(ring.size))
    if any(scale) and drawn.below(3):
        return scale
    scale = ring.turned(drawn.below(ring.order), (1,) + (0,) * (ring.size - 1))
    for _ in range(drawn.below(6) if ring.order in SMALLER else 0):
        scale = ring.times(scale, SMALLER[ring.order])
    return scale


def numbered(places, items):
    """The items, each at the place that it is given."""
    result = [None] * len(items)
    for place, item in zip(places, items):
        result[place] = item
    return result


REPEATED = [
    b"[", b"{", b"]", b"[[", b"a.", b"a=", b"{a=", b"[{a=", b"\n", b"\r\n", b"\r", b"#", b"# \n", b"[[type]]\n", b"[[kind]]\n", b"[a]\n",
    b'"', b"'", b"'''", b'"""', b"\\", b"0", b"-", b".", b",", b" ", b"\t", b"\xff", b"\0", b"\xc3\xa9", b"\xf0\x9f\x98\x80", b"\xef\xbb\xbf",
    b"[[kind]]\nvertices=[]\nedges=[]\nchildren=[]\n", b"[[type]]\nmate=0\nparts=[0]\n", b"1,", b"[0,0,0,0],", b"_", b"+", b"=", b"e",
]  # fmt: skip
HEADS = [b"", b"", b"a=", b"a=[", b'a="', b"a='''", b"glue=[", b"format=1\norder=4\nlambda=[2,0,0,0]\nglue=[", b"lambda=[", b"[", b"a={", b"a=1", b"#"]
CHAIR = b"format=1\norder=4\nlambda=[2,0,0,0]\nglue=[]\n"


def numbered_lines(form, size):
    """Lines with numbers counted up, as many as a size has room for."""
    lines, length = [], 0
    while length < size:
        lines.append(form % len(lines))
        length += len(lines[-1])
    return b"".join(lines)[:size]


def huge_size(drawn):
    return drawn.choice((LONGEST, LONGEST, LONGEST + 1, LONGEST - 1, drawn.up_to(LONGEST)))


def huge_text(drawn):
    """Bytes of a size up to one more than the limit: one part again and again, behind a head, or many keys, or any bytes."""
    size, which = huge_size(drawn), drawn.below(10)
    if which == 0:
        return drawn.stream.randbytes(size)
    if which == 1:
        form = drawn.choice((b"k%d=1\n", b"[t%d]\n", b"a.k%d=[]\n", b"a.b.c.k%d=0\n", b"[[a.k%d]]\n", b"'%d'={}\n", b"[a.b.c.%d]\n"))
        return numbered_lines(form, size)
    if which == 2:
        return (CHAIR + drawn.choice(REPEATED) * size)[:size]
    head, part = drawn.choice(HEADS), drawn.choice(REPEATED)
    return (head + part * (size // len(part) + 1))[:size]


def huge_file(drawn):
    return over_file(drawn, "huge file", huge_text(drawn))


def huge_right_file(drawn):
    """A right rule file filled up to a size with comments, blanks or empty lines."""
    source = drawn.choice(drawn.library.sources)
    room = huge_size(drawn) - len(source.text) - 1
    part = drawn.choice((b"#", b"\n", b" ", b"\t\n", b"# x.y.z\n", b"# \xc3\xa9\n"))
    filling = part * (max(0, room) // len(part))
    text = source.text + filling + b"\n" if drawn.once_in(2) else filling + b"\n" + source.text
    return over_file(drawn, "huge right file", text, source.shape)


def nested_file(drawn):
    """A deep nest of arrays, tables or keys, closed or open, or many dots."""
    deep = drawn.choice((10, 79, 80, 81, 127, 128, 129, 255, 256, 1000, 20000, 99999, 199999, 200000, 200001, 500000))
    opened, inside, closed = drawn.choice(
        ((b"a=" + b"[" * deep, b"1", b"]" * deep), (b"a=" + b"{a=" * min(deep, 250000), b"1", b"}" * min(deep, 250000)),
         (b"a." * min(deep, 500000), b"a=1", b""), (b"[" + b"a." * deep, b"a]", b"\nx=1"), (b"[[" + b"a." * deep, b"a]]", b""),
         (b"kind=" + b"[" * deep, b"", b"]" * deep), (b"[[kind]]\nvertices=" + b"[" * deep, b"0", b"]" * deep),
         (b"a={" + b"a." * deep, b"a=1", b"}"), (b".", b"." * deep, b""), (b"a=1", b"." * deep, b"1"), (b"a=" + b"[{a=" * min(deep, 120000), b"1", b"}]" * min(deep, 120000)))
    )  # fmt: skip
    text = opened + inside + (b"" if drawn.once_in(4) else closed)
    return over_file(drawn, "nested file", (CHAIR if drawn.once_in(2) else b"") + text)


# Scripts


def script_lines(drawn, shape, many):
    """Right lines, by names that are bound; edges that most kinds have."""
    lines, names = [], []
    for _ in range(many):
        which, name = drawn.below(7), bytes([97 + drawn.below(drawn.choice((3, 26)))])
        if which == 0 or not names:
            lines.append(b"let %b %b" % (name, some_address(drawn, shape)))
            names.append(name)
        elif which == 1:
            lines.append(b"show " + drawn.choice(names))
        elif which == 2:
            lines.append(b"common %b %b" % (drawn.choice(names), drawn.choice(names)))
        elif which == 3:
            lines.append(b"pair %b %b" % (drawn.choice(names), drawn.choice(names)))
        elif which == 4:
            lines.append(drawn.choice((b"", b"# x", b"#", b"#show z", b"place " + drawn.choice(names))))
        else:
            lines.append(b"across %b %b %b" % (drawn.choice(names), some_edge(drawn, shape), name))
            names.append(name)
    return lines


def calc(drawn, maker, script_of):
    """A call of `calc` with the script that a function makes of the rule's shape."""
    call = right_call(drawn, b"calc")
    return call._replace(maker=maker, text=script_of(call.shape))


def right_script(drawn):
    def script(shape):
        lines = script_lines(drawn, shape, drawn.up_to(30))
        return b"\n".join(lines) + b"\n" * drawn.below(3)

    return calc(drawn, "script", script)


def changed_script(drawn):
    """A right script with some of its bytes or lines changed."""

    def script(shape):
        lines = script_lines(drawn, shape, drawn.between(1, 12))
        place, which = drawn.below(len(lines)), drawn.below(5)
        if which == 0:
            lines[place] = changed_address(drawn, shape).join((b"let a ", b""))
        if which == 1:
            lines[place] = b" ".join(drawn.shuffled(lines[place].split(b" ")))
        if which == 2:
            lines[place] = b" ".join(drawn.choice(SCRIPT_WORDS) for _ in range(drawn.between(1, 6)))
        if which == 3:
            lines[place] += drawn.choice((b" ", b"\r", b"\t", b" x", b"\0", b"\xff", b"  "))
        text = b"\n".join(lines)
        return changed_bytes(drawn, text) if which == 4 else text

    return calc(drawn, "script with a change", script)


SCRIPT_WORDS = [b"let", b"show", b"place", b"across", b"common", b"pair", b"a", b"b", b"z", b"A", b"aa", b"", b"0", b"3", b"255", b"256", b"-1", b"00",
                b"0:", b"0:0/0", b"1:", b"#", b"\xc3\xa9", b"\xff", b"none", b"LET", b"0:0/0,", b"{", b"`", b"star", b"pair"]  # fmt: skip


def any_script(drawn):
    def script(_):
        if drawn.once_in(3):
            return drawn.stream.randbytes(drawn.up_to(2000))
        return b"\n".join(b" ".join(drawn.choice(SCRIPT_WORDS) for _ in range(drawn.up_to(6) - 1)) for _ in range(drawn.up_to(30)))

    return calc(drawn, "random script", script)


def huge_script(drawn):
    """A script of about a mebibyte, or one byte more: one line again and again behind two that bind names."""

    def script(shape):
        if drawn.once_in(3):
            return huge_text(drawn)
        size, deep = huge_size(drawn), some_address(drawn, shape)
        line = drawn.choice((b"show a\n", b"common a b\n", b"pair a b\n", b"place b\n", b"across a 0 c\n", b"across a 1 a\n", b"\n", b"#\n", b"let c %b\n" % deep))
        head = b"let a %b\nlet b %b\n" % (deep, some_address(drawn, shape, 9))
        text = (head + line * (size // len(line)))[:size]
        return text if drawn.once_in(2) else text[: -min(9, len(text))] + b"\nshow #\n#"

    return calc(drawn, "huge script", script)


# Listings


def right_listing(drawn):
    return right_call(drawn, b"verify")._replace(maker="listing")


def changed_listing(drawn):
    """A listing with a thing changed, or some: in its text, or in its tiles."""
    call = right_call(drawn, b"verify")
    text = call.text
    if drawn.once_in(3):
        return call._replace(maker="listing of another window", words=[near_word(drawn, word) for word in call.words])
    for _ in range(drawn.choice((1, 1, 1, 2, 4))):
        text = changed_lines_of_listing(drawn, call.shape, text)
    return call._replace(maker="listing with a change", text=text)


def near_word(drawn, word):
    """The word, or where it gives the window one that gives another which is near."""
    key, _, value = word.partition(b"=")
    if key == b"seed" and drawn.once_in(3):
        return b"seed=" + some_seed(drawn)
    if key not in (b"at", b"half"):
        return word
    least = 1 if key == b"half" else -(2**20)
    return key + b"=" + points(max(int(a) + drawn.choice((-1, 0, 0, 1)), least) for a in value.split(b","))


def changed_lines_of_listing(drawn, shape, text):
    lines, which = text.split(b"\n"), drawn.below(10)
    place, other = drawn.below(len(lines)), drawn.below(len(lines))
    words = lines[place].split(b" ")
    if which < 2:
        return b"\n".join(lines[:place] + lines[place + 1 :] if which else lines[: other + 1] + lines[place:])
    if which == 2:
        lines.insert(other, lines[place])
    if which == 3:
        words[drawn.below(len(words))] = drawn.choice(LISTING_WORDS)
    if which == 4:
        words[-1] = changed_address(drawn, shape) if drawn.below(2) else some_address(drawn, shape, 4)
    if which == 5:
        words = drawn.shuffled(words + words[: drawn.below(2)])[drawn.below(2) :]
    lines[place] = b" ".join(words)
    if which == 6:
        lines[place] = other_number(drawn, lines[place]) if drawn.below(2) else one_more(drawn, lines[place])
    if which == 7:
        lines[place] += drawn.choice((b" ", b"\r", b"\t", b" x", b"\0", b"\xff", b"  ", b" + " + lines[other]))
    text = b"\n".join(lines)
    return changed_bytes(drawn, text) if which == 8 else text[: drawn.below(len(text) + 1)] if which == 9 else text


def one_more(drawn, line):
    """A line with one of its numbers changed by one."""
    places = list(re.finditer(rb"-?[0-9]+", line)) or [re.match(b"", line)]
    place = drawn.choice(places)
    return b"%b%d%b" % (line[: place.start()], int(place.group() or b"0") + drawn.choice((-1, 1)), line[place.end() :])


LISTING_WORDS = [
    b"", b"0", b"1", b"3", b"9", b"10", b"255", b"256", b"-1", b"00", b"+0", b"0.5", b"x", b"\xff", b"\xc3\xa9", b"0,0,0,0", b"0,0,0",
    b"0,0,0,0,0", b"0,0,1,0", b"-0,0,0,0", b"1,-1,0,0", b"16777216,0,0,0", b"16777217,0,0,0", b"-16777216,0,0,0", b"0,0,0,16777216",
    b"0:", b"0:0/0", b"1:", b"0:0/0,0/0",
]  # fmt: skip


def any_listing(drawn):
    """Any words in lines, or any bytes."""
    text, many = drawn.stream.randbytes(drawn.up_to(2000)), drawn.up_to(30) * (drawn.below(3) > 0)
    if many:
        lengths = [drawn.choice((4, 4, 4, drawn.up_to(6) - 1)) for _ in range(many)]
        text = b"\n".join(b" ".join(drawn.choice(LISTING_WORDS) for _ in range(length)) for length in lengths)
    return right_call(drawn, b"verify")._replace(maker="random listing", text=text)


def huge_listing(drawn):
    """A listing of about as many lines or bytes as it may have: a right one, and behind or before it one line again and
    again."""
    call = right_call(drawn, b"verify")
    named = b"0 0 0,0,0,0 %b\n" % some_address(drawn, call.shape)
    line = drawn.choice((b"0 0 0,0,0,0 0:\n", b"\n", b"x", named, b"0 0 0,0,0,0 0:", b"\xff\n"))
    most = LONGEST_LISTING // len(line) + drawn.below(2)
    if line.endswith(b"\n"):
        most = MOST_LISTED - call.text.count(b"\n") + drawn.between(-1, 2)
    many = line * most
    return call._replace(maker="huge listing", text=drawn.choice((many, call.text + many, many + call.text)))


LONGEST_WORD, MOST_WORDS = 131000, 14  # what the system takes

# of so many inputs each maker makes this part; those that take long make few
WEIGHTS = [
    (place_or_check, 80), (neighbour, 80), (walk, 50), (star, 60), (small_window, 60), (middle_window, 20), (full_window, 6), (corner, 20),
    (far_window, 30), (wide_window, 8), (drill, 12), (unread, 4), (one_wrong, 110), (more_wrong, 60), (any_words, 40),
    (border_words, 60), (wrong_address, 90), (refused_file, 20), (changed_file, 120), (any_document, 40), (written_otherwise, 20),
    (moved_rule, 30), (grid_rule, 20), (huge_file, 5), (huge_right_file, 3), (nested_file, 8), (right_script, 40), (changed_script, 50),
    (any_script, 25), (huge_script, 3), (right_listing, 30), (changed_listing, 60), (any_listing, 20), (huge_listing, 2),
]  # fmt: skip


def made(library, stream):
    """The input that a stream of drawn numbers gives."""
    makers, weights = zip(*WEIGHTS)
    call = stream.choices(makers, weights)[0](Drawn(stream, library))
    return call._replace(words=[word[:LONGEST_WORD] for word in call.words[:MOST_WORDS]])


if __name__ == "__main__":
    run(is_module, __doc__)
