"""What all scripts of this folder do when they are called. They answer --help, print their usage without arguments, say
which argument is wrong, report a trouble in a sentence, and end without a message if the pipe that they write to is
closed."""
import argparse
import os
import sys

# svg.py, which needs no numpy, is the package's; an installed script has it beside it
sys.path.append(os.path.join(os.path.dirname(os.path.abspath(__file__)), "..", "python", "pagnetuf"))


class Trouble(Exception):
    """Why a script can't do what it was told to, in a sentence."""


class WrongWords(Exception):
    """The words of a call aren't those of the usage. The message says which, if there is one."""


class Arguments(argparse.ArgumentParser):
    """The arguments of a script. Its usage is its first text, which `run` prints."""

    def __init__(self):
        super().__init__(add_help=False, allow_abbrev=False)

    def parse_args(self, words):
        """The options, with a sentence for one that isn't there. A value may begin with a minus."""
        joined = []
        for word in words:
            option = word.partition("=")[0]
            if option.startswith("--") and option not in self._option_string_actions:
                self.error(f"there is no option {option}")
            if word[:1] == "-" and word[1:2].isdigit() and joined and joined[-1].startswith("--"):
                joined[-1] += f"={word}"
            else:
                joined.append(word)
        return super().parse_args(joined)

    def error(self, message):
        raise WrongWords(message)


def numbers(count, form):
    """A type of argparse: so many numbers with commas between, as a list; one of them alone."""

    def parsed(word):
        try:
            found = [form(part) for part in word.split(",")]
        except ValueError:
            found = []
        if len(found) != count:
            raise argparse.ArgumentTypeError(f"'{word}' isn't {count} number{'s' * (count > 1)}")
        return found if count > 1 else found[0]

    return parsed


def count(word):
    """A type of argparse: a number without a sign, of up to five figures."""
    if not word.isdecimal() or len(word) > 5:
        raise argparse.ArgumentTypeError(f"'{word}' is no number")
    return int(word)


def digits(word):
    """A type of argparse: the digits of an address, such as 3/0,1/0, as pairs."""
    try:
        found = [tuple(int(number) for number in digit.split("/")) for digit in word.split(",") if digit]
    except ValueError:
        found = [()]
    if any(len(digit) != 2 for digit in found):
        raise argparse.ArgumentTypeError(f"'{word}' isn't digits such as 3/0,1/0")
    return found


def asks_help(words):
    return "-h" in words or "--help" in words


def status_of(main, usage, words):
    """Calls `main` with the words, and gives the exit status."""
    name = os.path.basename(sys.argv[0])
    try:
        if asks_help(words):
            print(usage.strip())
            return 0
        return main(words) or 0
    except WrongWords as wrong:
        print(f"{name}: {wrong}; --help names them all" if words and wrong.args else usage.strip(), file=sys.stderr)
        return 2
    except Trouble as trouble:
        print(f"{name}: {trouble}", file=sys.stderr)
        return 1


def run(main, usage):
    """Calls `main` with the words of this call, and ends with its status, 0 where it gives none."""
    try:
        status = status_of(main, usage, sys.argv[1:])
        sys.stdout.flush()
    except BrokenPipeError:
        # what is still held back goes nowhere, so that Python doesn't complain at its end
        os.dup2(os.open(os.devnull, os.O_WRONLY), sys.stdout.fileno())
        status = 1
    except KeyboardInterrupt:
        status = 130
    sys.exit(status)


def is_module(_words):
    """The `main` of a file that other scripts use, and that does nothing by itself."""
    raise WrongWords


if __name__ == "__main__":
    run(is_module, __doc__)
