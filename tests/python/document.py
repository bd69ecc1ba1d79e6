"""Runs the examples of a document, and finds its commands: python3 document.py FILE."""
import doctest
import re
import sys

COMMAND = (
    r"^(?:    \$ |    |\| (?:.*\| )?`)"
    r"((?:python3 -m )?pagnetuf (?:board|poster|explore|atlas|rules)\b[^`\n]*)"
)


def text_of(path):
    with open(path, encoding="utf-8") as file:
        return file.read()


def tried(path):
    """How many examples of a document's Python blocks were run; each gave what is written there."""
    names, runner, told, text = {}, doctest.DocTestRunner(verbose=False), [], text_of(path)
    for found in re.finditer(r"```python\n(.*?)```", text, re.S):
        line = text[: found.start(1)].count("\n")
        example = doctest.DocTestParser().get_doctest(found[1], names, f"line {line}", path, line)
        example.globs = names
        runner.run(example, out=told.append, clear_globs=False)
    assert not runner.failures, "".join(told)
    return runner.tries


def commands_of(path):
    """The commands of the package that a document shows, without those that open a browser."""
    found = re.findall(COMMAND, text_of(path), re.M)
    return [line.strip() for line in found if "explore" not in line]


if __name__ == "__main__":
    print(tried(sys.argv[1]))
