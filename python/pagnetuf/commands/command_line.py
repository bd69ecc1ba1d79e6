"""What the commands have in common: their arguments, rules by name or file, and how they end."""
from __future__ import annotations

import argparse
import importlib
import os
import re
import sys
from typing import Any, BinaryIO, Callable, Iterable, List, Optional, Sequence

from .. import __version__, places
from ..colour_names import is_colour
from ..engine import BUILT_IN, Frame
from ..picture import PALETTES
from ..refusals import NoEngine, Refusal
from ..tiling import Tiling, call

ENGINE_COMMANDS = ("place", "neighbour", "walk", "draw", "check", "calc", "drill", "star", "verify")
COMMANDS = {
    "board": "a patch as data: corners, neighbours, vertex numbers",
    "poster": "a page in millimetres, in colours or as lines for a cutter",
    "explore": "a page to pan and zoom in the browser",
    "atlas": "a page about a rule: prototiles, inflation, vertex stars, a patch",
    "rules": "the names of all rules that there are, and what each is",
}


class Trouble(Exception):
    """Why a command cannot do what was asked, in a sentence."""

    status = 1


class WrongWords(Trouble):
    """Which options don't go together, in a sentence."""

    status = 2


def refuse_unused(options: argparse.Namespace, names: Sequence[str], why: str) -> None:
    """WrongWords if one of some options is given that would change nothing."""
    given = [f"--{name}" for name in names if getattr(options, name)]
    if given:
        raise WrongWords(f"{' and '.join(given)} would change nothing: {why}")


def integers_type(count: int, least: int = -(1 << 20), most: int = 1 << 20) -> Callable[[str], List[int]]:
    """A type of argparse: `count` integers with commas between."""

    def parsed(text: str) -> List[int]:
        parts = text.split(",")
        if len(parts) != count or not all(re.fullmatch(r"-?[0-9]{1,9}", part) for part in parts):
            raise argparse.ArgumentTypeError(f"{text!r} is not {count} integers with commas between")
        numbers = [int(part) for part in parts]
        if not all(least <= number <= most for number in numbers):
            raise argparse.ArgumentTypeError(f"{text!r} has a number that is not from {least} to {most}")
        return numbers

    return parsed


def whole_number(least: int, most: int) -> Callable[[str], int]:
    """A type of argparse: an integer from `least` to `most`."""

    def parsed(text: str) -> int:
        if not re.fullmatch(r"-?[0-9]{1,20}", text) or not least <= int(text) <= most:
            raise argparse.ArgumentTypeError(f"{text!r} is not an integer from {least} to {most}")
        return int(text)

    return parsed


def millimetres(count: int, least: float, most: float) -> Callable[[str], List[float]]:
    """A type of argparse: `count` lengths with commas between."""

    def parsed(text: str) -> List[float]:
        parts = text.split(",")
        if len(parts) != count or not all(
            re.fullmatch(r"[0-9]{1,6}(\.[0-9]{1,6})?", part) and least <= float(part) <= most
            for part in parts
        ):
            raise argparse.ArgumentTypeError(f"{text!r} isn't {count} lengths from {least:g} to {most:g} mm")
        return [float(part) for part in parts]

    return parsed


def colours(text: str) -> List[str]:
    """A type of argparse: the name of a palette, or colours with commas between, as #rrggbb, #rgb or a name
    of CSS."""
    if text in PALETTES:
        return list(PALETTES[text])
    parts = text.split(",")
    wrong = [part for part in parts if not is_colour(part)]
    if wrong:
        raise argparse.ArgumentTypeError(
            f"{wrong[0]!r} is no colour such as #0b3954 or navy, and no palette: {', '.join(PALETTES)}"
        )
    return parts


def add_rule(parser: argparse.ArgumentParser) -> None:
    parser.add_argument(
        "rule", help="p2, p3, ab, chair, halfhex, a rule file, or a name that the command `rules` lists"
    )


def add_frame(parser: argparse.ArgumentParser) -> None:
    """The options that name a plane and a point of it."""
    parser.add_argument(
        "--at",
        metavar="A,A,A,A",
        type=integers_type(4),
        default=[0, 0, 0, 0],
        help="the centre, as four coefficients; default 0,0,0,0",
    )
    parser.add_argument(
        "--seed",
        metavar="N",
        type=whole_number(0, (1 << 64) - 1),
        default=0,
        help="how the tiling goes on around the base tile, which stays; default 0",
    )
    parser.add_argument("--addr", metavar="ADDRESS", default="0:", help="the base tile; default 0:")


def tiling_of(name: str) -> Tiling:
    """The tiling of a name or a rule file."""
    if is_known(name):
        return Tiling(name)
    try:
        return Tiling.from_file(name)
    except OSError as trouble:
        raise Trouble(
            f"there is no tiling {name}, and no file {name} can be read ({trouble.strerror}); "
            f"rule files are in {places.rules_path()}, and {called()} rules lists the names"
        ) from trouble


def source_of(tiling: Tiling) -> str:
    """What is typed behind the words of `draw` for a rule file."""
    path = tiling.name if os.path.exists(tiling.name) else places.rule_path(tiling.name) or tiling.name
    return f" < {places.shown_path(path)}" if tiling.machine.name == "-" else ""


def is_known(name: str) -> bool:
    """Whether a name is that of a tiling of the package, and of no file here."""
    return name in BUILT_IN or bool(places.rule_path(name) and not os.path.exists(name))


def frame_asked(options: argparse.Namespace) -> Frame:
    return Frame(options.addr, options.seed)


def write_pieces(pieces: Iterable[str], path: Optional[str]) -> None:
    """Writes a text as it is made, to a file or to standard output. A file is there only when all of it
    is."""
    if path:
        write_bytes(lambda file: [file.write(piece.encode()) for piece in pieces], path)
    elif sys.stdout:
        for piece in pieces:
            sys.stdout.write(piece)
    else:
        raise Trouble("standard output is closed")


def write_bytes(write: Callable[[BinaryIO], Any], path: str) -> None:
    """Writes a file under another name, which it changes when all of it is there. What is no plain file, such
    as a device, is written as it is."""
    if os.path.exists(path) and not os.path.isfile(path):
        with open(path, "wb") as file:
            write(file)
        return
    part = f"{path}.part"
    try:
        with open(part, "wb") as file:
            write(file)
        os.replace(part, path)
    except BaseException as fault:
        if os.path.exists(part):
            os.remove(part)
        if isinstance(fault, OSError) and fault.filename == part:
            fault.filename = path
        raise


def tell(text: str) -> None:
    """A line on standard error."""
    print(text, file=sys.stderr, flush=True)


def with_values(words: List[str]) -> List[str]:
    """The arguments with `--at VALUE` as one, since the value may begin with a minus."""
    out: List[str] = []
    for word in words:
        if out and out[-1] == "--at":
            out[-1] += "=" + word
        else:
            out.append(word)
    return out


def called() -> str:
    """What a user types before a command's name: `tiling` if it is installed, as its launcher reports, or
    `pagnetuf` from a wheel."""
    script = os.path.basename(sys.argv[0]) if sys.argv else ""
    return os.environ.get("TILING_COMMAND") or ("pagnetuf" if script == "pagnetuf" else "python3 -m pagnetuf")


def parser() -> argparse.ArgumentParser:
    about = f"The engine's own commands are taken too: {', '.join(ENGINE_COMMANDS)}; docs/FORMATS.md."
    top = argparse.ArgumentParser(
        prog=called(), description=__import__("pagnetuf").__doc__, epilog=about, allow_abbrev=False
    )
    top.add_argument("--version", action="version", version=f"pagnetuf {__version__}")
    commands = top.add_subparsers(dest="command", metavar="COMMAND", required=True)
    for name, line in COMMANDS.items():
        module = importlib.import_module(f".{name}", __package__)
        one = commands.add_parser(
            name,
            help=line,
            description=(module.__doc__ or "").replace("\n  pagnetuf ", f"\n  {called()} "),
            allow_abbrev=False,
            formatter_class=argparse.RawDescriptionHelpFormatter,
        )
        module.add_words(one)
        one.set_defaults(run=module.run)
    return top


def status_of(words: List[str]) -> int:
    """Runs the command that the arguments name, and returns the exit status: for a refusal its number."""
    if not words:
        parser().print_help(sys.stderr)
        return 2
    if words[0] in ENGINE_COMMANDS:
        return engine_status(words)
    options = parser().parse_args(with_values(words))
    try:
        options.run(options)
        flush()
        return 0
    except Refusal as refused:
        tell(refused.line)
        tell(f"{called()} {options.command}: {refused.sentence}")
        return refused.status
    except (Trouble, NoEngine) as trouble:
        tell(f"{called()} {options.command}: {trouble}")
        return trouble.status if isinstance(trouble, Trouble) else 1


def engine_status(words: List[str]) -> int:
    """Runs a command of the engine itself, as the program `tiling` does, and says in words why it is
    refused."""
    try:
        needs = "rule=-" in words or words[0] in ("calc", "verify")
        sys.stdout.buffer.write(call(words, sys.stdin.buffer.read() if needs else b""))
        flush()
        return 0
    except Refusal as refused:
        tell(refused.line)
        if sys.stderr.isatty():
            tell(f"{called()} {words[0]}: {refused.sentence}")
        return refused.status
    except NoEngine as trouble:
        tell(f"{called()} {words[0]}: {trouble}")
        return 1


def flush() -> None:
    """Writes what standard output still holds, if it is open."""
    if sys.stdout:
        sys.stdout.flush()


def main(words: Optional[List[str]] = None) -> None:
    """Ends with the status, and silently if standard output is a closed pipe."""
    try:
        status = status_of(sys.argv[1:] if words is None else words)
        flush()
    except OSError as trouble:
        status = 1
        if not isinstance(trouble, BrokenPipeError):
            tell(f"{called()}: {trouble.filename or 'standard output'} can't be written: {trouble.strerror}")
        if sys.stdout:  # (what it still holds is let go)
            os.dup2(os.open(os.devnull, os.O_WRONLY), sys.stdout.fileno())
    except KeyboardInterrupt:
        status = 130
    sys.exit(status)
