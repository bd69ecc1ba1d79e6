"""Tries wrong bodies in batches: checks/wrong.sh --help says what it is for."""

import collections
import concurrent.futures
import dataclasses
import importlib.machinery
import importlib.util
import os
import pathlib
import re
import resource
import shutil
import subprocess
import sys
import tempfile

sys.dont_write_bytecode = True
KIT = pathlib.Path(os.path.realpath(shutil.which("rt") or "")).parent.parent
MOST_COPIES = 40  # in one check: each keeps its proof in memory until the check ends
BYTES_EACH = 5_000_000_000  # what a check of the largest crates takes


def of_kit(name):
    """A module of the kit's own, so that an edit and a crate are read here as the kit reads them."""
    loader = importlib.machinery.SourceFileLoader(name.replace(".", "_"), f"{KIT}/bin/{name}")
    module = importlib.util.module_from_spec(importlib.util.spec_from_loader(loader.name, loader))
    sys.modules[loader.name] = module
    loader.exec_module(module)
    return module


@dataclasses.dataclass(frozen=True)
class Function:
    """A function of a source file: its lines, with its attributes, and where its proof files stand."""

    path: str  # of the file, as src/x.rt
    name: str
    owner: str  # the type of the impl block that it is in, or ''
    start: int
    end: int
    indent: str


@dataclasses.dataclass
class Edit:
    name: str
    function: Function
    body: str  # the function's text with the edit


class Alone(Exception):
    """Why an edit can't stand beside the function that it changes."""


class Fault(Exception):
    """Why an edit counts for nothing."""


HEAD = r"(pub(?:\([^)]*\))? )?(const )?fn (\w+)\b"


def above(lines, at):
    """The first line of the attributes above a function's first line."""
    while at > 0:
        line = lines[at - 1].strip()
        if line.startswith("#["):
            at -= 1
        elif line.endswith(")]") and not line.startswith("//"):
            at -= 1
            while at > 0 and not lines[at].strip().startswith("#["):
                at -= 1
        else:
            break
    return at


def owner_of(lines, at, indent):
    """The type in whose own impl block a line is."""
    if not indent:
        return ""
    heads = [line for line in lines[:at] if re.match(r"(impl|trait|pub trait)\b", line)]
    if not heads or not heads[-1].startswith("impl"):
        raise Alone("a trait's own method")
    if " for " in heads[-1]:
        raise Alone("a method of a trait")
    found = re.match(r"impl(?:<[^>]*>)?\s+(\w+)", heads[-1])
    return found[1]


def function_at(path, text, place):
    """The function that holds a place of a file laid out by rt fmt."""
    lines = text.splitlines(keepends=True)
    line = text.count("\n", 0, place)
    for first in range(line, -1, -1):
        head = re.match(r"( *)" + HEAD, lines[first])
        if head:
            break
    else:
        raise Alone("not in a function")
    ends = [it for it in range(first, len(lines)) if lines[it] == head[1] + "}\n"]
    if not ends or ends[0] < line:
        raise Alone("not in a function")
    return Function(path, head[4], owner_of(lines, first, head[1]), above(lines, first), ends[0] + 1, head[1])


def text_of(function, text):
    return "".join(text.splitlines(keepends=True)[function.start : function.end])


def calls_itself(function, body):
    """Whether the code below the contract has a call of the function."""
    lines = body.split("\n")
    opens = [at for at, it in enumerate(lines) if it == function.indent + "{" or it.endswith(" {")]
    code = "\n".join(lines[opens[0] + 1 :])
    call = rf"(?:self\.|Self::|\b{function.owner}::)" if function.owner else r"(?<![.:\w])"
    return re.search(rf"{call}{function.name}\s*(?:::<[^>]*>)?\(", code) is not None


def pairs_of(edit):
    """The replacements of an edit file: file, old text, new text."""
    path, old = "", None
    for line in edit.read_text().split("\n"):
        if line.startswith("file: "):
            path = line[6:].strip()
        elif line.startswith("old: "):
            old = line[5:]
        elif line.startswith("new:"):
            yield path, old, line[4:].removeprefix(" ")
        elif line.startswith("# alone: "):
            raise Alone(line[9:])


def read_edit(kit, edit, crate):
    """The edit as a changed function."""
    _, why = kit.read_edit(str(edit), crate.folder)
    if why:
        raise Fault(f"BAD EDIT: {why}")
    pairs = list(pairs_of(edit))
    if len({path for path, _, _ in pairs}) > 1:
        raise Alone("in two files")
    path = pairs[0][0]
    if not path.startswith("src/"):
        raise Alone("not in src/")
    text = pathlib.Path(crate.folder, path).read_text()
    function = function_at(path, text, text.find(pairs[0][1]))
    body = text_of(function, text)
    if calls_itself(function, body):
        raise Alone("it calls itself")
    if "#[cycle" in body:
        raise Alone("in a cycle of calls")
    for _, old, new in pairs:
        if body.count(old) != 1:
            raise Alone("not in one function")
        body = body.replace(old, new)
    return Edit(edit.stem, function, body)


class Batch:
    """Copies of functions, each under a name of its own, put into a copy of their crate."""

    def __init__(self, crate, folder):
        self.crate, self.folder = crate, pathlib.Path(folder)
        self.copies = {}  # name: (function, first line, last line)
        self.texts = collections.defaultdict(list)
        for part in ("src", "specs", "proofs"):
            if os.path.isdir(f"{crate.folder}/{part}"):
                shutil.copytree(f"{crate.folder}/{part}", self.folder / part)

    def add(self, function, body, name):
        renamed, count = re.subn(HEAD, lambda it: (it[2] or "") + f"fn {name}", body, count=1)
        assert count == 1
        self.texts[function.path].append((function, name, renamed))
        self.copy_proofs(function, name)

    def copy_proofs(self, function, name):
        """Copies the function's proof files, and has them name themselves."""
        home = self.proofs_of(function)
        if not home:
            return
        shutil.copytree(home, home.with_name(name))
        dots = ".".join(["Rattle", self.crate.name, *home.relative_to(self.folder).parts])
        renamed = dots.removesuffix(function.name) + name
        for file in home.with_name(name).rglob("*.antt"):
            file.write_text(file.read_text().replace(f"{dots}.", f"{renamed}."))

    def proofs_of(self, function):
        """The folder of a function's proof files; a method's stands with its type, in the module of that."""
        if function.owner:
            found = sorted(self.folder.glob(f"proofs/**/{function.owner}/{function.name}"))
        else:
            module = function.path.removeprefix("src/").removesuffix(".rt")
            found = [self.folder.joinpath("proofs", "" if module in ("lib", "main") else module, function.name)]
        return next((it for it in found if it.is_dir()), None)

    def write(self):
        """Puts the copies into their files, each behind the function that it copies."""
        for path, copies in self.texts.items():
            file = self.folder / path
            lines, made = file.read_text().splitlines(keepends=True), []
            for at, line in enumerate(lines, 1):
                made.append(line)
                for function, name, body in (it for it in copies if it[0].end == at):
                    added = ["\n", *body.splitlines(keepends=True)]
                    self.copies[name] = (function, len(made) + 1, len(made) + len(added))
                    made += added
            file.write_text("".join(made))

    def copy_at(self, path, line):
        """The copy that a line of a source file, or of a proof file, belongs to."""
        for name, (function, first, last) in self.copies.items():
            if f"/{name}/" in path or function.path == path and first <= line <= last:
                return name
        return None

    def check(self, kit):
        """Checks the copies alone, over what the crate's own check kept, and returns what it says."""
        kit.linked(f"{self.crate.folder}/out/incremental", str(self.folder / "kept"))
        words = self.crate.words(["--jobs", "1"], keeps=False)
        words += [word for name in self.copies for word in ("--only", name)]
        ran = subprocess.run(
            [kit.rtlib.RATTLE, "check", *words, "--incremental", str(self.folder / "kept")],
            cwd=self.folder, stdin=subprocess.DEVNULL, stdout=subprocess.PIPE,
            stderr=subprocess.STDOUT, errors="replace", text=True,
        )
        return ran.stdout



@dataclasses.dataclass
class Result:
    edit: str
    is_refused: bool | None  # None: a check of copies can't say, so the kit tries this edit by itself
    said: str


# what the kit says of a proof file that names something which an edit took away
LOST_NAME = re.compile(r"proofs/.*(has no field|is not in scope|has no `|was not admitted)")


class Said:
    """What a check of a batch said, by copy."""

    def __init__(self, kit, batch, text):
        self.crate, self.text, self.unread, self.told = batch.crate, text, {}, collections.defaultdict(list)
        for line in text.split("\n"):
            at = re.match(r"(?:note: )?(?:\./)?(\S+?):(\d+):\d+: ", line)
            name = at and batch.copy_at(at[1], int(at[2]))
            if name and at[1].startswith("src/") and kit.unread(line, [at[1]]):
                self.unread.setdefault(name, line)
            if name and (": error" in line or line.startswith("note: ")):
                self.told[name].append(line)

    def verdict(self, name):
        line = rf"(?m)^fn {self.crate.name}::(?:\S+::)?{re.escape(name)}: (.*)"
        found = re.search(line, self.text)
        return found[1] if found else "not in the check's list"

    def reason(self, name):
        """The first thing that was not proved of a copy."""
        told = self.told[name]
        first = next((it for it in told if not LOST_NAME.search(it)), "")
        if told and not first:
            return f"(only because a proof file names what the edit took away) {told[0][:160]}"
        return first[:200]


def judged(said, edit, right, wrong):
    """What a check says of one edit."""
    control, verdict = said.verdict(right), said.verdict(wrong)
    if wrong in said.unread:
        return Result(edit, False, f"BAD EDIT: the prover cannot read it: {said.unread[wrong][:160]}")
    if control != "proved":
        return Result(edit, False, f"NOT TRIED: without the edit its function is: {control[:160]}")
    if verdict == "proved":
        return Result(edit, False, "NOT REFUSED: the function is still proved with this edit")
    # (the kit says 'no proof' of a function that has no proof file and that its tactics don't prove)
    if verdict.startswith(("not proved", "no proof")):
        return Result(edit, True, f"refused: {said.reason(wrong) or verdict}")
    if verdict.startswith("could not tell"):
        return Result(edit, None, verdict)
    return Result(edit, False, f"NOT TRIED: with the edit its function is {verdict}")


def unused_stem(crate, word):
    """A stem for names of copies that no name of the crate contains."""
    texts = "".join(it.read_text() for it in pathlib.Path(crate.folder, "src").rglob("*.rt"))
    while word in texts:
        word += "_"
    return word


def try_batch(kit, crate, edits):
    """Tries some edits of a crate in one check, each beside a control: the function without the edit."""
    with tempfile.TemporaryDirectory(prefix="wrong-") as folder:
        batch, controls, tried = Batch(crate, folder), {}, []
        right, wrong = unused_stem(crate, "_right"), unused_stem(crate, "_wrong")
        for number, edit in enumerate(edits):
            function = edit.function
            if function not in controls:
                controls[function] = f"{function.name}{right}{number}"
                text = pathlib.Path(crate.folder, function.path).read_text()
                batch.add(function, text_of(function, text), controls[function])
            name = f"{function.name}{wrong}{number}"
            batch.add(function, edit.body, name)
            tried.append((edit.name, controls[function], name))
        batch.write()
        text = batch.check(kit)
        said = Said(kit, batch, text)
        results = [judged(said, *it) for it in tried]
    if not any(line.startswith("only=") for line in text.split("\n")):
        print(f"{crate.name}: the check did not end with a verdict:", *text.split("\n")[:6], sep="\n", flush=True)
    return results


def tree_with(kit, crate, edits, room):
    """Makes a copy of a crate and of those below it, in which these edits are the crate's must-fail edits."""
    top, below = os.path.dirname(os.path.dirname(crate.folder)), [crate, *crate.below()]
    shutil.copy(f"{top}/HANDLES", room)
    rows = pathlib.Path(top, "crates.txt").read_text().split("\n")
    names = {it.name for it in below}
    kept = [it for it in rows if it.replace(":", " ").split(" ")[0] in names]
    pathlib.Path(room, "crates.txt").write_text("\n".join([*kept, ""]))
    for it in below:
        for part in ("src", "specs", "proofs"):
            if os.path.isdir(f"{it.folder}/{part}"):
                shutil.copytree(f"{it.folder}/{part}", f"{room}/crates/{it.name}/{part}")
        for part in ("out/rlib", *["out/incremental"] * (it is crate)):
            if os.path.isdir(f"{it.folder}/{part}"):
                kit.linked(f"{it.folder}/{part}", f"{room}/crates/{it.name}/{part}")
    os.mkdir(f"{room}/crates/{crate.name}/must-fail")
    for edit in edits:
        shutil.copy(edit, f"{room}/crates/{crate.name}/must-fail")


def try_alone(kit, crate, edits):
    """Has the kit try edits, one by one, in a copy of their crate."""
    with tempfile.TemporaryDirectory(prefix="wrong-") as room:
        tree_with(kit, crate, edits, room)
        ran = subprocess.run(
            ["rt", "must-fail", crate.name], cwd=room, stdin=subprocess.DEVNULL,
            stdout=subprocess.PIPE, stderr=subprocess.STDOUT, text=True, errors="replace",
        )
    for edit in edits:
        found = re.search(rf"must-fail {crate.name}/{re.escape(edit.name)}: (.*)", ran.stdout)
        is_refused = bool(found and found[1].startswith("refused"))
        yield Result(edit.stem, is_refused, f"(by itself) {found[1][:200] if found else ran.stdout[-400:]}")


def batches(crate, edits):
    """The edits in groups of a size that one check can hold; those of one function stay together."""
    edits = sorted(edits, key=lambda it: (it.function.path, it.function.start))
    count = -(-len(edits) * 2 // MOST_COPIES)
    size = -(-len(edits) // max(count, 1))
    return [edits[at : at + size] for at in range(0, len(edits), max(size, 1))]


def try_crate(kit, crate, files):
    """Tries all the edits of a crate, and returns what came of each."""
    stale = [it.name for it in crate.below() if not it.is_built()]
    if stale or not crate.has_kept():
        why = f"NOT TRIED: run rt check in crates/{crate.name} first, since {stale[0] if stale else 'it'} is not proved"
        return [Result(it.stem, False, why) for it in files]
    edits, alone, results = [], [], []
    for file in files:
        try:
            edits.append(read_edit(kit, file, crate))
        except Alone:
            alone.append(file)
        except Fault as fault:
            results.append(Result(file.stem, False, str(fault)))
    for group in batches(crate, edits):
        tried = try_batch(kit, crate, group)
        results += [it for it in tried if it.is_refused is not None]
        alone += [it for it in files if it.stem in {it.edit for it in tried if it.is_refused is None}]
    return results + (list(try_alone(kit, crate, alone)) if alone else [])


def lanes():
    """As many crates at a time as there are processors, each with memory for its check."""
    with open("/proc/meminfo") as it:
        free = next(int(line.split()[1]) * 1024 for line in it if line.startswith("MemAvailable"))
    return max(1, min(len(os.sched_getaffinity(0)), free // BYTES_EACH))


def edits_by_crate(kit, top, home, names):
    """The crates asked for, those with the most edits first, each with its edit files."""
    crates = {it.name: it for it in kit.rtlib.crates_below(str(top))}
    has_edits = sorted(it.name for it in home.iterdir() if it.is_dir())
    unknown = [it for it in names or has_edits if it not in crates or it not in has_edits]
    if unknown:
        sys.exit(f"wrong: {unknown[0]} is no crate with edits in {home}")
    chosen = [(crates[it], sorted((home / it).glob("*.edit"))) for it in names or has_edits]
    return sorted(chosen, key=lambda it: -len(it[1]))


def main(top, home, *names):
    kit = of_kit("rt")
    chosen = edits_by_crate(kit, pathlib.Path(top).resolve(), pathlib.Path(home), names)
    tried = refused = 0
    with concurrent.futures.ThreadPoolExecutor(lanes()) as pool:
        started = [(crate, pool.submit(try_crate, kit, crate, files)) for crate, files in chosen]
        for crate, found in started:
            for result in sorted(found.result(), key=lambda it: it.edit):
                print(f"wrong {crate.name}/{result.edit}: {result.said}", flush=True)
                tried, refused = tried + 1, refused + result.is_refused
    used = resource.getrusage(resource.RUSAGE_CHILDREN)
    minutes = (used.ru_utime + used.ru_stime) / 60
    print(f"wrong: {tried} tried, {refused} refused, {tried - refused} faults; {minutes:.1f} minutes of processor")
    return 0 if tried and tried == refused else 1


if __name__ == "__main__":
    sys.exit(main(*sys.argv[1:]))
