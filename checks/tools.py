"""How the scripts that users and developers call answer on the command line: see tools.sh. Called with the top and the
program."""
import os
import pty
import shutil
import subprocess
import sys
import tempfile

sys.dont_write_bytecode = True
TOP, PROGRAM = os.path.abspath(sys.argv[1]), os.path.abspath(sys.argv[2])
FOLDERS = ("tools", "figures", "packaging", "tests/hostile", "tests/memory", "tests/cost")
MODULES = {"command_line.py", "hostile_answers.py", "hostile_inputs.py", "older_toml.py", "rule_file.py", "toml_document.py"}
# a call of each script that prints much or for long; those with PROGRAM are left out where there is none
CALLS = {
    "compile_unproved.py": None,
    "corners.py": "rules/chair.toml < LINES",
    "dearest.py": "PROGRAM",
    "draw_all.sh": None,
    "draw_descent.py": "rules/penrose_p3.toml 0 2/3,1/1,0/1,2/2,0/2,0/2,1/3,1/1 5,3.5 5,3,0",
    "draw_dissection.py": "rules/chair.toml",
    "draw_gallery.sh": None,
    "draw_page.py": "docs/gallery/drawn/chair.svg",
    "draw_patch.py": "rules/chair.toml 0 5",
    "draw_rule.py": "rules/ammann_beenker.toml",
    "draw_stars.py": "PROGRAM rules/penrose_p3.toml D 2:1/0,0/0 0",
    "draw_steps.py": "4 6 8 10",
    "draw_walk.py": "rules/chair.toml 0 3/0,1/0,0/0 6,6,0,7",
    "draw_window.py": "rules/penrose_p3.toml 0 2/3,1/1,0/1,2/2,0/2,0/2,1/3,1/1 2.2,1.6 9",
    "fan_rule.py": "64",
    "follow_build.py": None,
    "hostile.py": "PROGRAM 20 1 1",
    "install.sh": None,
    "largest_rule.py": "0 1",
    "link_static.sh": None,
    "make_deb.sh": None,
    "make_library.sh": None,
    "make_usage.py": "man docs/usage.toml",
    "make_wheel.sh": None,
    "cures.sh": None,
    "paint.py": "--colour turn < DRAWN",
    "refuse_memory.py": None,
    "uninstall.sh": None,
}
# scripts of packaging/ that make the page and the module, which have their own checks
LEFT_OUT = {"make_page.py", "make_wasm.sh"}
PLACES = {
    name: os.path.join(place, name)
    for place in FOLDERS
    for name in os.listdir(os.path.join(TOP, place))
    if name.endswith((".py", ".sh")) and name not in LEFT_OUT
}
wrong, tried = [], 0


def stand_in(folder):
    """A copy of what the scripts read and write, with a list of tiles and a picture for those that read
    one."""
    for name in ("checks", "docs", "rules", "python", *FOLDERS):
        shutil.copytree(os.path.join(TOP, name), os.path.join(folder, name))
    shutil.copy(os.path.join(TOP, "check"), os.path.join(folder, "check"))
    with open(os.path.join(folder, "LINES"), "w", encoding="utf-8") as file:
        file.write("0 1 7,1,0,0 0:1/0,2/0\n" * 5000)
    path, line = '<path class="k0" d="M0 0L0 1000L-2000 1000Z"/>\n', "0 0 0,0,0,0 0:3/0\n"
    head = '<svg xmlns="http://www.w3.org/2000/svg" version="1.1" viewBox="-1.0 -1.000000 2 2.000000">\n'
    group = '<g transform="scale(0.0005 -0.001)" fill="none" stroke="black" stroke-width="40">\n'
    with open(os.path.join(folder, "DRAWN"), "w", encoding="utf-8") as file:
        file.write(head + group + path * 2000 + "</g>\n</svg>\n" + line * 2000)


def state(folder):
    """Every file of a folder, with its time and size."""
    files = (os.path.join(where, name) for where, _, names in os.walk(folder) for name in names)
    return {file: (os.stat(file).st_mtime_ns, os.stat(file).st_size) for file in files}


def command(name, words):
    return ["sh" if name.endswith(".sh") else sys.executable, PLACES[name], *words]


def call(folder, name, words, source=subprocess.DEVNULL, sink=subprocess.PIPE):
    """The status, and what stands on both streams."""
    ran = subprocess.run(command(name, words), cwd=folder, stdin=source, stdout=sink, stderr=subprocess.PIPE, timeout=300)
    return ran.returncode, (ran.stdout or b"").decode(), ran.stderr.decode()


def count(what, is_right, got):
    global tried
    tried += 1
    if not is_right:
        wrong.append(f"{what}: {got!r:.300}")


def helped(folder, name):
    """Its usage is on standard output where it is asked for, and on standard error where there are no
    words."""
    for word in ("--help", "-h"):
        status, usage, err = call(folder, name, [word])
        own = name in MODULES or f" {name} " in usage or f"/{name} " in usage
        count(f"{name} {word}", status == 0 and own and not err, (status, usage, err))
    ours, theirs = pty.openpty()
    status, out, err = call(folder, name, [], theirs)
    os.close(theirs)
    os.close(ours)
    count(f"{name} without words", status == 2 and not out and err == usage, (status, out, err))
    status, out, err = call(folder, name, [])
    count(f"{name} without words and input", status in (1, 2) and not out and err and "Traceback" not in err, (status, out, err))


def closed(folder, name, words, source=None):
    """It ends without a word where nobody reads."""
    reader, writer = os.pipe()
    os.close(reader)
    with open(source or os.devnull, "rb") as file:
        status, _, err = call(folder, name, words, file, writer)
    os.close(writer)
    err = "" if name == "largest_rule.py" and "Traceback" not in err else err
    count(f"{name} {' '.join(words)}, into a closed pipe", status > 0 and not err, (status, err))


def foreign(folder):
    """The scripts of docs/foreign/ tell their usage without words."""
    for name in sorted(os.listdir(os.path.join(folder, "docs", "foreign"))):
        ran = subprocess.run([sys.executable, f"docs/foreign/{name}"], cwd=folder, stdin=subprocess.DEVNULL, capture_output=True)
        err = ran.stderr.decode()
        count(f"docs/foreign/{name} without words", ran.returncode == 1 and not ran.stdout and name in err and "Traceback" not in err, err)


def checks(folder):
    """The scripts of checks/, and `check` itself, print what they do with --help."""
    for name in ["check", *sorted(f"checks/{it}" for it in os.listdir(os.path.join(folder, "checks")) if it.endswith(".sh"))]:
        with open(os.path.join(folder, name), encoding="utf-8") as file:
            text = file.read()
            answers = "-h | --help)" in text or '. "$(dirname "$0")/needs"' in text
        ran = subprocess.run(["sh", name, "--help"], cwd=folder, stdin=subprocess.DEVNULL, capture_output=True) if answers else None
        count(f"{name} --help", ran and ran.returncode == 0 and ran.stdout and not ran.stderr, ran)


def main():
    with tempfile.TemporaryDirectory() as folder:
        stand_in(folder)
        before = state(folder)
        for name in sorted(PLACES):
            helped(folder, name)
            closed(folder, name, ["--help"])
            if name not in MODULES and name not in CALLS:
                wrong.append(f"{name}: this check has no call of it")
            text = CALLS.get(name)
            if text and ("PROGRAM" not in text or os.access(PROGRAM, os.X_OK)):
                words, _, source = text.replace("PROGRAM", PROGRAM).partition(" < ")
                closed(folder, name, words.split(" "), source and os.path.join(folder, source))
        foreign(folder)
        checks(folder)
        count("what is in the folders", state(folder) == before, set(state(folder).items()) ^ set(before.items()))
    for line in wrong:
        print(f"tools: {line}", file=sys.stderr)
    print(f"tools: {tried} calls tried, {len(wrong)} wrong")
    return 1 if wrong else 0


sys.exit(main())
