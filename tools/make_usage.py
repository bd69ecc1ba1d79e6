#!/usr/bin/env python3
"""Prints the screen of help or the man page, made from the table docs/usage.toml:
    make_usage.py help TABLE > docs/HELP.txt
    make_usage.py man TABLE > docs/tiling.1
It needs Python 3.11 or later. checks/usage.sh compares the two files with what it prints.
"""
import re
import sys
import textwrap

sys.dont_write_bytecode = True
from command_line import Arguments, Trouble, run  # noqa: E402

WIDTH, SHORT, INDENT = 110, 53, 9  # the screen of help: its columns, where descriptions and meanings begin
SIGNS = {"\\": r"\e", "°": r"\(de", "ζ": r"\(*z", "²": r"\(S2", "³": r"\(S3"}


def shown(words):
    """The words of a call that fit beside a description, and whether they do."""
    return f"  ./tiling {words}", len(f"  ./tiling {words}") < SHORT - 2


def filled(text, first, rest):
    return textwrap.fill(text, WIDTH, initial_indent=first, subsequent_indent=rest, break_long_words=False, break_on_hyphens=False)


def usage_lines(words, short):
    """A call with its description: on its line, or below it if it is long."""
    line, fits = shown(words)
    if fits:
        return [f"{line:{SHORT}}{short}"]
    return [line, " " * SHORT + short]


def calls_shown(table):
    """The calls of the screen of help: each command, and what the script handles itself."""
    lines = []
    for command in table["command"]:
        source = ["<", command["reads"]] if "reads" in command else []
        lines += usage_lines(" ".join([command["name"], *command["keys"], *source]), command["short"])
    for word in table["word"]:
        lines += usage_lines(word["name"], word["short"]) if "short" in word else []
    return lines + [f"  ./tiling {', '.join(word['name'].split(',')[0] for word in table['word'] if 'short' not in word)}"]


def meanings_shown(table):
    """What the placeholders stand for, each by the name that the calls have."""
    for argument in table["argument"]:
        if "short" in argument:
            name = re.sub(r",\.\.$", "", argument["key"].partition("=")[2] or argument["key"])
            yield filled(argument["short"], f"{name:{INDENT}}", " " * INDENT)


def examples_shown(table):
    for example in table["example"]:
        if example.get("short"):
            yield "  $ " + re.sub(r"(^|\| )tiling", r"\1./tiling", example["call"])
            yield from (f"  {line}" for line in example["prints"].strip().split("\n"))


def codes_shown(table):
    """The exit codes, three blanks apart; a code and its meaning are on one line."""
    codes = [f"{status['code']} {status['short']}".replace(" ", "\0") for status in table["status"] if "short" in status]
    return filled(" ".join(f"{code}\1\1" for code in codes), "  ", "  ").replace("\0", " ").replace("\1", " ")


def help_text(table):
    """One screen: the calls, the placeholders, examples, and the exit codes."""
    lines = [filled(f"tiling: {table['does']}", "", ""), "", *calls_shown(table), "", *meanings_shown(table), "", *examples_shown(table), ""]
    lines += ["A refusal is one line on standard error, CODE NAME FIELDS, and CODE is the exit status:"]
    lines += [re.sub(r" +$", "", codes_shown(table), flags=re.M), "  (125: the script could not run the program)", ""]
    lines += [filled("docs/FORMATS.md has each refusal with its fix, docs/TUTORIAL.md a rule file step by step, docs/LISTINGS.md a list "
                     "from another program; docs/tiling.1 is a man page.", "", "")]
    return "\n".join(lines) + "\n"


def roff(text):
    """A piece of text as roff has it: signs by their names, `*x*` bold, `_x_` a placeholder."""
    pieces = re.split(r"(\*[^*]+\*|\b_[^_]+_)", text)
    marked = lambda piece, font: f"\\f{font}{signs(piece[1:-1])}\\fP"  # noqa: E731
    return "".join(marked(p, "B") if p[:1] == "*" and p[1:] else marked(p, "I") if p[:1] == "_" and p[1:] else signs(p) for p in pieces)


def signs(text, hyphen=r"(?<!\w)-|-(?!\w)"):
    """A text with its signs by their names; a hyphen within a word stays one."""
    return "".join(SIGNS.get(sign, sign) for sign in re.sub(hyphen, "\0", text)).replace("\0", r"\-")


def broken(sentence):
    """A sentence on lines of at most the width; no line begins with a request."""
    lines = textwrap.wrap(roff(sentence), WIDTH, break_long_words=False, break_on_hyphens=False)
    return [f"\\&{line}" if line[:1] in ".'" else line for line in lines]


def paragraphs(text, between):
    """The sentences of a text, each on lines of its own, and its list of entries."""
    lines, in_list = [], False
    for line in text.strip().split("\n"):
        term, is_entry, meaning = line.partition(" :: ")
        if is_entry:
            lines += ([] if in_list else [".RS"]) + [".TP", f"\\fB{roff(term)}\\fP".replace("\\fP\\fP", "\\fP")]
            lines += [it for sentence in re.split(r"(?<=[.;]) (?=[A-Z])", meaning) for it in broken(sentence)]
        elif line:
            lines += ([".RE", between] if in_list else []) + broken(line)
        else:
            lines.append(".PP")
        in_list = bool(is_entry)
    return lines + ([".RE"] if in_list else [])


def synopsis(table):
    lines = []
    for command in table["command"]:
        words = " ".join([command["name"], *command["keys"]])
        words = re.sub(r"(?<==)[A-Z][A-Z,.]*", lambda found: italic(found[0]), words)
        lines += ([".br"] if lines else []) + [f".B tiling {words}"]
    return lines


def italic(value):
    """The placeholders of a value, in italics."""
    return re.sub(r"[A-Z]+", lambda name: f"\\fI{name[0]}\\fP", value)


def arguments(table):
    for argument in table["argument"]:
        key, _, value = argument["key"].partition("=")
        if "text" in argument:
            yield from [".TP", f"\\fB{key}=\\fP{italic(value)}", *paragraphs(argument["text"], ".IP")]


def script(table):
    yield from [".SH THE SCRIPT", "In the repository", ".B ./tiling", "is a script around the program."]
    yield "It handles these arguments itself, if there is no other:"
    for word in table["word"]:
        yield from [".TP", ", ".join(f"\\fB{signs(name)}\\fP" for name in word["name"].split(", ")), *paragraphs(word["text"], ".IP")]
    yield from [".PP", "If the program has not been built from the present sources, the script runs them unproved and says so."]
    yield "If standard error is a terminal, it writes a line with a fix below a refusal."


def statuses(table):
    yield from [".SH EXIT STATUS", "A refusal writes one line to standard error: the status, a name, and its fields."]
    yield "Only calls that end with 0 or 10 write to standard output."
    for status in table["status"]:
        yield from [".TP", f".B {status['code']} {roff(status.get('name', ''))}".rstrip(), *paragraphs(status["text"], ".IP")]


def examples(table):
    yield from [".SH EXAMPLES", ".nf"]
    for example in table["example"]:
        yield from [f"$ {signs(example['call'], '-')}", *(signs(line, "-") for line in example["prints"].strip().split("\n"))]
    yield ".fi"


def manual(table):
    """The man page, with the requests of man(7)."""
    lines = [f'.TH TILING 1 "{table["date"]}" "Pagnetuf" "User Commands"', ".SH NAME", *broken(f"tiling - {table['does']}"), ".SH SYNOPSIS"]
    lines += [*synopsis(table), ".SH DESCRIPTION", *paragraphs(table["description"], ".PP")]
    for command in table["command"]:
        lines += [".TP", f".B {command['name']}", *paragraphs(command["text"], ".IP")]
    lines += [".SH ARGUMENTS", *arguments(table), *script(table), *statuses(table), *examples(table), ".SH SEE ALSO"]
    lines += ["docs/FORMATS.md (every text and refusal), docs/TUTORIAL.md (a rule file step by step),"]
    lines += ["docs/LISTINGS.md (a list from another program),", "docs/COORDINATES.md (x and y), docs/PROMISES.md (what is proved)."]
    return "\n".join(lines) + "\n"


def main(words):
    makers = {"help": help_text, "man": manual}
    arguments = Arguments()
    arguments.add_argument("what", choices=makers)
    arguments.add_argument("table")
    options = arguments.parse_args(words)
    try:
        import tomllib

        with open(options.table, "rb") as file:
            table = tomllib.load(file)
    except ImportError as missing:
        raise Trouble("this needs Python 3.11 or later") from missing
    except (OSError, ValueError) as fault:
        raise Trouble(f"{options.table}: {fault}") from fault
    sys.stdout.write(makers[options.what](table))


if __name__ == "__main__":
    run(main, __doc__)
