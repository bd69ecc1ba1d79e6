"""Rule files as the program reads them: TOML 1.1 in UTF-8, with a byte order mark or without.

Python's own reader has TOML 1.0, so the text is first written as 1.0 has it. Like the program, this takes brackets and
braces nested up to 80 deep, keys of up to 80 parts, integers of 64 bits, and floats that 64 bits hold."""
import math
import sys

sys.dont_write_bytecode = True
from command_line import Trouble, is_module, run  # noqa: E402
from older_toml import NotToml, Older  # noqa: E402


def inner(value):
    """The values in an array or a table."""
    return value.values() if isinstance(value, dict) else value if isinstance(value, list) else ()


def look(value, key):
    """Tells a whole number that the program doesn't take."""
    if type(value) is int and not -(2**63) <= value < 2**63:
        raise NotToml(f"{key}: the number {value} needs more than 64 bits")
    for own in inner(value):
        look(own, key)


def as_float(text):
    """A float, by its text."""
    value = float(text)
    if math.isinf(value) and "inf" not in text:
        raise NotToml(f"64 bits don't hold {text}")
    return value


def document_of(data):
    """The document that bytes stand for."""
    try:
        import tomllib
    except ModuleNotFoundError as fault:  # before Python 3.11
        raise Trouble("rule files are read with Python 3.11 or later") from fault
    try:
        text = data.decode()
    except UnicodeDecodeError as fault:
        raise NotToml(f"byte {fault.start} isn't text in UTF-8") from fault
    older = Older(text.removeprefix("\ufeff"))
    try:
        document = tomllib.loads("".join(older.pieces), parse_float=as_float)
    except tomllib.TOMLDecodeError as fault:
        raise NotToml(older.told(str(fault))) from fault
    for key, value in document.items():
        look(value, key)
    return document


if __name__ == "__main__":
    run(is_module, __doc__)
