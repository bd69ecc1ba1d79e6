"""What the documents say beside what the program does: see documents.sh. Called with the top and the
program."""
import cmath
import glob
import os
import re
import shutil
import subprocess
import sys
import tempfile

try:
    import tomllib
except ModuleNotFoundError:  # before Python 3.11
    tomllib = None

sys.dont_write_bytecode = True
if tomllib:
    import places  # noqa: E402
TOP, PROGRAM = os.path.abspath(sys.argv[1]), os.path.abspath(sys.argv[2])
BY_SCRIPT = ("--help", "-h", "help", "--version", "--build")
# commands that can be run here, by how they begin; the files that they read are there, or made by commands
# above them
RUNNABLE = re.compile(
    r"(\./tiling|python3 (tools|docs/foreign)/\w+\.py|python3 -m pagnetuf (board|poster|atlas)|printf '[^']*' \| \./tiling"
    r"|sed '[^']*' (rules/\w+\.toml|\w+\.list) \| \./tiling)\b"
)


class Tally:
    """How many were run, by what they are, and what differs."""

    def __init__(self):
        self.run, self.differ, self.skipped = {}, [], []

    def compare(self, what, where, got, wanted):
        self.run[what] = self.run.get(what, 0) + 1
        if got != wanted:
            self.differ.append(f"{where}\n  says: {wanted!r}\n  is:   {got!r}")

    def fault(self, where, why):
        self.differ.append(f"{where}: {why}")

    def end(self):
        for line in self.differ:
            print(f"documents: {line}", file=sys.stderr)
        for line in self.skipped:
            print(f"documents: not run: {line}")
        parts = ", ".join(f"{count} {what}" for what, count in self.run.items())
        print(f"documents: {sum(self.run.values())} run ({parts}), {len(self.differ)} differ")
        return 1 if self.differ else 0


tally = Tally()


def read(name):
    with open(os.path.join(TOP, name), encoding="utf-8") as file:
        return file.read()


def documents():
    """The names of all documents."""
    pages = sorted(f"{folder}/{name}" for folder in ("docs", "docs/made") for name in os.listdir(f"{TOP}/{folder}") if name.endswith(".md"))
    return ["README.md", "CONTRIBUTING.md", "CHANGELOG.md", "SECURITY.md", "crates/README.md", "rules/README.md", *pages]


def stand_in(folder):
    """A folder to run commands in: copies of what they name, and a `tiling` that calls the program."""
    for name in ("docs", "rules", "tools"):
        shutil.copytree(os.path.join(TOP, name), os.path.join(folder, name))
    os.symlink(os.path.join(TOP, "python"), os.path.join(folder, "python"))
    with open(os.path.join(folder, "tiling"), "w", encoding="utf-8") as file:
        words = "|".join(BY_SCRIPT)
        file.write(f'#!/bin/sh\ncase "$#:$1" in\n1:{words.replace("|", "|1:")}) exec "{TOP}/tiling" "$@" ;;\nesac\n')
        file.write(f'exec "{PROGRAM}" "$@"\n')
    os.chmod(os.path.join(folder, "tiling"), 0o755)


def python_of_package():
    """A Python with which the package answers, with this program; None if there is none."""
    os.environ.update(TILING_PROGRAM=PROGRAM, PYTHONPATH=os.path.join(TOP, "python"))
    for python in (sys.executable, "/usr/bin/python3"):
        words = [python, "-B", "-c", "import pagnetuf; pagnetuf.Tiling('p3').place('0:')"]
        if os.path.exists(python) and subprocess.run(words, stderr=subprocess.DEVNULL).returncode == 0:
            return python
    return None


PACKAGE = python_of_package()


def shell(command, folder):
    """What a command prints, both streams together, as lines, and its status. The package tells on standard error what
    it made, which is left out."""
    error = subprocess.DEVNULL if "-m pagnetuf" in command else subprocess.STDOUT
    command = command.replace("python3 -m pagnetuf", f"{PACKAGE} -B -m pagnetuf")
    ran = subprocess.run(["sh", "-c", command], cwd=folder, stdin=subprocess.DEVNULL, stdout=subprocess.PIPE, stderr=error)
    printed = ran.stdout.decode("utf-8", "replace").rstrip("\n").split("\n")
    return ([f"status {ran.returncode}"] if error == subprocess.DEVNULL and ran.returncode else printed), ran.returncode


def call(words, given=b""):
    """The one line that a call of the program prints, whichever stream it is on, and its status."""
    ran = subprocess.run([PROGRAM, *words], input=given, stdout=subprocess.PIPE, stderr=subprocess.PIPE)
    return (ran.stdout + ran.stderr).decode().rstrip("\n"), ran.returncode


def is_runnable(name, command):
    """Whether a command is one of the program or of a script of the repository, and can be run here."""
    if not RUNNABLE.match(command):
        tally.skipped.append(f"{name}: $ {command}")
        return False
    if "-m pagnetuf" in command and not PACKAGE:
        tally.skipped.append(f"{name}: $ {command} (the package has no numpy, or no engine)")
        return False
    if "python3 tools" in command and tomllib is None:
        tally.skipped.append(f"{name}: $ {command} (Python 3.11 or later)")
        return False
    return True


def commands(name, text, indent, folder):
    """Runs each line that is indented so and begins with `$ `, and compares with the indented lines below
    it."""
    lines, i = text.split("\n"), 0
    while i < len(lines):
        if not lines[i].startswith(f"{indent}$ "):
            i += 1
            continue
        command, wanted, at = lines[i][len(indent) + 2 :], [], i + 1
        i += 1
        while i < len(lines) and lines[i].startswith(indent) and lines[i].strip() and not lines[i].startswith(f"{indent}$ "):
            wanted.append(lines[i][len(indent) :])
            i += 1
        if is_runnable(name, command):
            tally.compare("commands", f"{name}:{at}: $ {command}", shell(command, folder)[0], wanted or [""])


def rows(text):
    """The rows of the tables of a text, as lists of cells."""
    for line in text.split("\n"):
        if line.startswith("|") and not re.match(r"\|[-| ]+\|$", line):
            cells = re.split(r"(?<!\\)\|", line.strip()[1:-1])
            yield [cell.strip().replace("\\|", "|") for cell in cells]


def quoted(cell):
    return re.findall(r"`([^`]*)`", cell)


def section(text, title):
    """The text below a title, up to the next title of its level."""
    found = re.search(rf"^## {re.escape(title)}\n(.*?)(?=^## |\Z)", text, re.M | re.S)
    if not found:
        tally.fault(title, "there is no such section")
    return found[1] if found else ""


def answers(folder):
    """The commands of tests/commands.txt: each prints what is written below it, and ends with its status."""
    name = "tests/commands.txt"
    for found in re.finditer(r"^\$ (.*)\n((?:(?!\$ |#).+\n)+)", read(name), re.M):
        command, wanted = found[1], found[2].rstrip("\n")
        refused = re.match(r"(\d+) [A-Z]|status (\d+)", wanted)
        status = int(refused[1] or refused[2]) if refused else 0
        printed, ended = shell(command, folder)
        got = "\n".join(printed) or f"status {ended}"
        shape = ".*".join(re.escape(part) for part in wanted.split(".."))
        told = wanted if re.fullmatch(shape, got) else got
        tally.compare("commands of tests", f"{name}: {command}", (told, ended), (wanted, status))


def typed_in_order():
    """The tutorial's pieces, typed in its own order, are accepted, and have the numbers of the files that it
    names."""
    text = read("docs/TUTORIAL.md")
    for title, name in (
        ("First example: a triangle cut in two", "rules/half_square_two.toml"),
        ("Second example: directed edges, mates and glue", "rules/half_chair.toml"),
        ("Third example: a factor that turns", "rules/half_square_turned.toml"),
    ):
        fences = re.findall(r"^```toml( whole)?\n(.*?)^```", section(text, title), re.M | re.S)
        pieces = [(title, "".join(piece for whole, piece in fences if not whole))]
        pieces += [(f"{title}, whole", piece) for whole, piece in fences if whole]
        for where, piece in pieces:
            accepted = call(["check", "rule=-"], read(name).encode())
            tally.compare("rules typed in order", f"docs/TUTORIAL.md: {where}", call(["check", "rule=-"], piece.encode()), accepted)
            if tomllib and tomllib.loads(piece) != tomllib.loads(read(name)):
                tally.fault(f"docs/TUTORIAL.md: {where}", f"has other numbers than {name}")
    for piece in re.findall(r"^```toml\n(.*?)^```", read("docs/FORMATS.md"), re.M | re.S):
        tally.compare("rules typed in order", "docs/FORMATS.md", call(["check", "rule=-"], piece.encode())[1], 0)


def rule_files():
    """Each refused file is refused as its first line says, each other one is accepted, as docs/TILINGS.md and
    tests/rules.txt say."""
    for name in sorted(os.listdir(f"{TOP}/docs/refused")):
        text = read(f"docs/refused/{name}")
        wanted = re.match(r"# Refused: (.*)", text)[1].strip()
        tally.compare("refused files", f"docs/refused/{name}", call(["check", "rule=-"], text.encode()), (wanted, 3))
    told = dict(re.findall(r"^(\w+): (.*)$", read("tests/rules.txt"), re.M))
    listed = rows_of_rules()
    for name in sorted(os.listdir(f"{TOP}/rules")):
        if not name.endswith(".toml"):
            continue
        text, stem = read(f"rules/{name}"), name[:-5]
        cells, wanted = listed.pop(stem, None), told.pop(stem, None)
        if cells is None or wanted is None:
            tally.fault("docs/TILINGS.md, tests/rules.txt", f"one has no row for {name}")
            continue
        wanted, glue = wanted.split("; glue ")
        tally.compare("rule files", f"rules/{name}", call(["check", "rule=-"], text.encode()), (wanted, 0))
        tally.compare("rows of rule files", f"docs/TILINGS.md: {stem}, kinds", cells[3], re.search(r"kinds (\d+)", wanted)[1])
        if tomllib:
            rule = tomllib.loads(text)
            tally.compare("rows of rule files", f"tests/rules.txt: {stem}, glue", glue, ", ".join(map(str, rule["glue"])) or "-")
            zeta = cmath.exp(2j * cmath.pi / rule["order"])
            factor = sum(a * zeta**i for i, a in enumerate(rule["lambda"]))
            tally.compare("rows of rule files", f"docs/TILINGS.md: {stem}, factor", abs(factor - value(cells[2], zeta)) < 1e-9, True)
        has_comments = f"rules/{'commented/' * os.path.exists(f'{TOP}/rules/commented/{name}')}{name}"
        tally.compare("rule files", f"{has_comments} names its source", "\n# Source: " in read(has_comments), True)
        if os.path.exists(f"{TOP}/rules/commented/{name}"):
            commented = read(f"rules/commented/{name}")
            tally.compare("rule files", f"rules/commented/{name}", call(["check", "rule=-"], commented.encode()), (wanted, 0))
            if tomllib and tomllib.loads(commented) != tomllib.loads(text):
                tally.fault(f"rules/commented/{name}", f"has other numbers than rules/{name}")
    for stem in {**listed, **told}:
        tally.fault("docs/TILINGS.md, tests/rules.txt", f"one has a row for {stem}, which isn't there")


def rows_of_rules():
    """The rows of docs/TILINGS.md about rule files, by their names: pictures, file, factor, kinds, periodic, N, what."""
    found = {}
    for cells in rows(read("docs/TILINGS.md")):
        link = re.match(r"\[(\w+)\]\(\.\./rules/(?:commented/)?\1\.toml\)$", cells[1]) if len(cells) == 7 else None
        if link:
            found[link[1]] = cells
    return found


def times_zeta(order, point):
    """The coefficients of a point times ζ, as docs/COORDINATES.md has them."""
    a0, a1, a2, a3 = point
    return {4: [-a1, a0, 0, 0], 6: [-a1, a0 + a1, 0, 0], 8: [-a3, a0, a1, a2], 10: [-a3, a0 + a3, a1 - a3, a2 + a3]}[order]


def rule_text(rule):
    """The file of a rule."""
    lines = [f"{key} = {rule[key]}" for key in ("format", "order", "lambda", "glue")]
    for name in ("type", "kind"):
        for entry in rule[name]:
            lines += [f"[[{name}]]", *(f"{key} = {numbers}" for key, numbers in entry.items())]
    return "\n".join(lines).encode()


def turned_rules():
    """Each rule of the library with its factor times each power of ζ, and its children turned alike: it is
    accepted in format 2; in format 1 where the factor is real and positive and the order isn't 6."""
    for name in sorted(os.listdir(f"{TOP}/rules")) if tomllib else []:
        if not name.endswith(".toml"):
            continue
        rule = tomllib.loads(read(f"rules/{name}"))
        order, zeta = rule["order"], cmath.exp(2j * cmath.pi / rule["order"])
        accepted = f"accepted order {order} kinds {len(rule['kind'])} types {len(rule['type'])}", 0
        for k in range(order):
            factor = sum(a * zeta**i for i, a in enumerate(rule["lambda"]))
            is_real = abs(factor.imag) < 1e-9 and factor.real > 0
            refused = f"3 RuleRefused {'OutOfRange order' if order == 6 else 'WrongFactor'}", 3
            for number, wanted in ((2, accepted), (1, accepted if is_real and order != 6 else refused)):
                rule["format"] = number
                where = f"rules/{name}, turned {k} times, format {number}"
                tally.compare("rules turned", where, call(["check", "rule=-"], rule_text(rule)), wanted)
            rule["lambda"] = times_zeta(order, rule["lambda"])
            for kind in rule["kind"]:
                kind["children"] = [[of, (turn + 1) % order, *times_zeta(order, shift)] for of, turn, *shift in kind["children"]]


def value(text, zeta=1):
    """The number that a short formula stands for, which may have ζ in it."""
    root = re.compile(r"√(\d+)")
    names = {"φ": "((1 + 5**0.5) / 2)", "δ": "(1 + 2**0.5)", "ζ": "z"}
    plain = root.sub(r"(\1**0.5)", text.replace(" ", ""))
    plain = re.sub(r"⁻?[¹²³⁴⁵⁶⁷]", lambda power: f"**{power[0].translate(str.maketrans('⁻¹²³⁴⁵⁶⁷', '-1234567'))}", plain)
    plain = re.sub(r"(?<=\d)(?=[φδζ(])", "*", plain)
    for name, meaning in names.items():
        plain = plain.replace(name, meaning)
    if not re.fullmatch(r"[-+*/().z\d\s]+", plain):
        raise ValueError(text)
    return eval(plain, {"z": zeta})


def coefficients():
    """Each entry of the tables of powers and lengths."""
    text = section(read("docs/COORDINATES.md"), "The powers of ζ, and the usual lengths")
    order, lengths = 0, []
    for line in text.split("\n"):
        title = re.match(r"\*\*Order (\d+)\*\*", line)
        if title:
            order = int(title[1])
        for cells in rows(line):
            if cells[0] == "k":
                lengths = [value(re.sub(r"^$|^\($", "1", cell.replace("ζ^k/φ", "(1/φ)").replace("ζ^k", "").strip() or "1")) for cell in cells[2:]]
            elif re.fullmatch(r"\d+", cells[0]):
                zeta, k = cmath.exp(2j * cmath.pi / order), int(cells[0])
                for length, cell in zip(lengths, cells[2:]):
                    numbers = [int(a) for a in quoted(cell)[0].strip("[]").split(",")]
                    found = sum(a * zeta**i for i, a in enumerate(numbers))
                    tally.compare("coefficients", f"docs/COORDINATES.md: order {order}, {cell}", abs(found - length * zeta**k) < 1e-9, True)


def anchor(title):
    """The anchor that a title gets."""
    return re.sub(r"[^\w\- ]", "", title.lower()).replace(" ", "-")


def links():
    """Each link of a document leads to a file, and each anchor to a title."""
    for name in documents():
        text = re.sub(r"^```.*?^```", "", read(name), flags=re.M | re.S)
        for target in re.findall(r"\]\(([^)\s]+)\)", text) + re.findall(r"^\[\w+\]: (\S+)", text, re.M):
            if re.match(r"[a-z]+:", target):
                continue
            path, _, title = target.partition("#")
            full = os.path.normpath(os.path.join(TOP, os.path.dirname(name), path)) if path else os.path.join(TOP, name)
            is_there = os.path.exists(full)
            if is_there and title:
                with open(full, encoding="utf-8") as file:
                    is_there = title in [anchor(it) for it in re.findall(r"^#+ (.*)$", file.read(), re.M)]
            tally.compare("links", f"{name}: {target}", is_there, True)


def named_paths():
    """Each file or folder of the repository that a document names between backquotes is there; `*` stands for
    any name."""
    path = re.compile(r"`((?:crates|docs|rules|tools|checks|python|include|tests|figures|packaging)/[\w./*-]*\w[\w./*-]*)`")
    made = re.compile(r"/out\b|/NAME\b")
    for name in documents():
        for target in sorted(set(path.findall(re.sub(r"^```.*?^```", "", read(name), flags=re.M | re.S)))):
            if not made.search(target):
                tally.compare("paths", f"{name}: {target}", bool(glob.glob(os.path.join(TOP, target))), True)


def table(text, first):
    """The rows of the tables whose first cells are these, each as its cells."""
    for piece in re.split(r"\n\n+", text):
        head, *below = list(rows(piece)) or [[]]
        yield from below if head[: len(first)] == first else []


def stars_shown():
    """Each star of docs/TILINGS.md is round the vertex that its row names, and its window is drawn."""
    shares = {}
    for name, star, _, share, words, vertex in table(section(read("docs/TILINGS.md"), "Where to look"), ["rule", "star"]):
        shares[name] = shares.get(name, 0) + value(share)
        rule, words = places.Rule(TOP, PROGRAM, quoted(name)[0]), quoted(words)[0].split(" ")
        where = f"docs/TILINGS.md: {rule.name} {star}"
        tally.compare("stars shown", where, places.star_of(rule, words, vertex), (star, words[1]))
        tally.compare("stars shown", f"{where}, drawn", len(rule.listed(words, 5, 4, "yes")) > 5, True)
    for name, total in shares.items():
        tally.compare("stars shown", f"docs/TILINGS.md: {name}, the shares", round(total, 9), 1)


def symmetric_places():
    """Each place of high symmetry of docs/TILINGS.md is so to the radius that is told, and with its digits
    once more further."""
    head = ["rule", "what is there"]
    for name, _, turn, radius, words, vertex, more in table(section(read("docs/TILINGS.md"), "Where to look"), head):
        rule, words, fold = places.Rule(TOP, PROGRAM, quoted(name)[0]), quoted(words)[0].split(" "), int(turn.partition("/")[2])
        where = f"docs/TILINGS.md: {rule.name} {' '.join(words)}"
        tally.compare("places of symmetry", where, int(places.symmetric_radius(rule, words, fold, int(radius) + 5)), int(radius))
        tally.compare("places of symmetry", f"{where}, vertex", places.vertex_of(rule, words, vertex), words[1])
        front, _, digits = words[0].partition(":")
        longer = [f"{front}:{quoted(more)[0]},{digits}", words[1]]
        further = 19 * int(radius) // 10
        tally.compare("places of symmetry", f"{where}, further", places.symmetric_radius(rule, longer, fold, further), further)


def windows_told():
    """What docs/COORDINATES.md says of how many tiles a window has, and of windows side by side."""
    text = section(read("docs/COORDINATES.md"), "Windows")
    steps = {int(order): (quoted(right)[0], quoted(up)[0]) for order, right, up in table(text, ["order", "to the right", "up"])}
    files = {"chair": "chair", "p2": "penrose_p2", "p3": "penrose_p3", "ab": "ammann_beenker", "halfhex": "half_hex"}
    for name, tiles, whole in table(text, ["rule", "tiles", "whole tiles"]):
        rule = places.Rule(TOP, PROGRAM, quoted(name)[0])
        half = int(rows_of_rules()[files[rule.name]][5])
        for what, glue, told in (("tiles", "no", tiles), ("whole tiles", "yes", whole)):
            if told:
                got = int(rule.call("draw", "addr=0:", "at=0,0,0,0", f"half={half},{half}", "layers=census", f"glue={glue}")[-1].split()[1])
                tally.compare("windows told", f"docs/COORDINATES.md: {rule.name}, {what}", abs(got / half**2 - float(told)) < 0.015, True)
        right, up = steps[rule.order]
        put = lambda step: lambda w, h: [int({"w": w, "h": h, "-h": -h, "2h": 2 * h}.get(a, a)) for a in step.split(",")]  # noqa: E731
        tally.compare("windows side by side", f"docs/COORDINATES.md: {rule.name}", places.side_by_side(rule, put(right), put(up)), True)


def largest_of_files():
    """The largest square window of each rule file is as docs/TILINGS.md says: it is drawn, and one wider isn't."""
    for name, cells in rows_of_rules().items():
        text, half = read(f"rules/{name}.toml").encode(), int(cells[5])
        words = lambda n: ["draw", "rule=-", "addr=0:", "at=0,0,0,0", f"half={n},{n}", "layers=census"]  # noqa: E731
        got = call(words(half), text)[1], call(words(half + 1), text)[1]
        tally.compare("largest windows", f"docs/TILINGS.md: {name}", got, (0, 7))


def pentagons():
    """Beside the three pentagons of P1 lie five, three and two pentagons, as docs/TILINGS.md says."""
    found = places.pentagons_beside(places.Rule(TOP, PROGRAM, "penrose_p1"))
    tally.compare("pentagons of P1", "docs/TILINGS.md", found, {0: {5}, 1: {3}, 2: {2}})


def perpendicular():
    """The vertices of Ammann-Beenker, of Penrose's rhombs, and of kites and darts fill what
    docs/COORDINATES.md tells."""
    root, golden = 2**0.5, (1 + 5**0.5) / 2
    least, most = places.octagon_width(places.Rule(TOP, PROGRAM, "ab"))
    tally.compare("perpendicular space", f"the octagon: {least}, {most}", 2.37 < least <= most < 1 + root, True)
    for name, stars in (("p3", [False] * 4), ("p2", [False, False, True, True])):
        figures = places.five_fold_figures(places.Rule(TOP, PROGRAM, name))
        near = [0.96 * r < radius < r + 0.02 for (radius, _), r in zip(figures, (1, 1, golden, golden))]
        tally.compare("perpendicular space", f"{name}: {figures}", (near, [star for _, star in figures]), ([True] * 4, stars))


def main():
    with tempfile.TemporaryDirectory() as folder:
        stand_in(folder)
        for name in documents():
            commands(name, read(name), "    ", folder)
        commands("docs/HELP.txt", read("docs/HELP.txt"), "  ", folder)
        manual = read("docs/tiling.1").replace("\\-", "-")
        manual = manual.replace("\n$ tiling", "\n    $ ./tiling").replace("| tiling", "| ./tiling")
        commands("docs/tiling.1", re.sub(r"^(?![ .])", "    ", manual, flags=re.M), "    ", folder)
        answers(folder)
    typed_in_order()
    rule_files()
    turned_rules()
    coefficients()
    if tomllib:
        for told in (stars_shown, symmetric_places, windows_told, largest_of_files, pentagons, perpendicular):
            told()
    links()
    named_paths()
    return tally.end()


sys.exit(main())
