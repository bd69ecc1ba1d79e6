#!/usr/bin/env python3
"""Makes docs/explore.html, the page that needs nothing else: from js/explore.html with its scripts and
styles, the rule files of rules/, and the engine.

    make_page.py [--wasm FILE] [--sources HEX] [--to PAGE]
        the engine is FILE, .tiling/tiling.wasm, or that of the page there; HEX is what
        packaging/make_wasm.sh --sources prints
    make_page.py --check
        ends with 1 if docs/explore.html isn't what this makes of js/, rules/ and the engine inside of it

Each module becomes a function that returns what it exports, so that names of two modules never meet. The
worker is no module, since browsers start none from a page that was opened from a folder."""
import argparse
import base64
import gzip
import json
import os
import re
import subprocess
import sys

TOP = os.path.dirname(os.path.dirname(os.path.abspath(__file__)))
PAGE = os.path.join(TOP, "docs", "explore.html")
IMPORT = re.compile(r'^import\s*\{([^}]*)\}\s*from\s*"(\.[^"]+)";\n', re.M)
EXPORT = re.compile(r"^export (?:default )?((?:async )?(?:const|let|class|function\*?)) (\w+)", re.M)
EXPORTS = re.compile(r"^export \{([^}]*)\};\n", re.M)
ENGINE = re.compile(r'<script id="tiling-wasm" type="text/plain" data-form="gzip">([^<]*)</script>')
SOURCES = re.compile(r'<meta name="tiling-sources" content="(\w*)">')


class Trouble(Exception):
    """What keeps the page from being made."""


def read(*names):
    with open(os.path.join(TOP, *names), encoding="utf-8") as file:
        return file.read()


class Bundle:
    """The modules that an entry needs, each after those that it imports."""

    def __init__(self, entry):
        self.names, self.parts = {}, []
        self.add(entry)

    def add(self, path):
        """Adds a module, and returns the name of what it exports."""
        if path in self.names:
            return self.names[path]
        self.names[path] = "module_" + re.sub(r"\W", "_", os.path.splitext(os.path.relpath(path, "js"))[0])
        text = read(path)
        folder = os.path.dirname(path)

        def imported(match):
            other = self.add(os.path.normpath(os.path.join(folder, match[2])))
            return f"const {{{match[1].replace(' as ', ': ')}}} = {other};\n"

        text = IMPORT.sub(imported, text)
        exported = [name for _, name in EXPORT.findall(text)]
        for names in EXPORTS.findall(text):
            exported += [name.strip() for name in names.split(",") if name.strip()]
        text = EXPORTS.sub("", EXPORT.sub(r"\1 \2", text)).replace("import.meta.url", "self.location.href")
        if re.search(r"^(?:import|export)\b(?!\()", text, re.M):
            raise Trouble(f"{path} has an import or an export of a form that isn't known here")
        answer = f"return {{ {', '.join(exported)} }};\n" if exported else ""
        self.parts.append(f"const {self.names[path]} = (() => {{\n{text}{answer}}})();\n")
        return self.names[path]

    def text(self):
        text = "".join(self.parts)
        if "</script" in text:
            raise Trouble("a script ends the page's own script")
        return text


def rule_files():
    """The text of each file of rules/, by name."""
    folder = os.path.join(TOP, "rules")
    return {name[:-5]: read("rules", name) for name in sorted(os.listdir(folder)) if name.endswith(".toml")}


def page(engine, sources):
    """The page, with an engine that is packed already."""
    rules = json.dumps(rule_files()).replace("<", "\\u003c")
    entries = ("worker/worker", "boot", "engine", "main")
    worker, boot, compiler, main = (Bundle(f"js/explore/{name}.js").text() for name in entries)
    parts = {
        "<!-- sources -->": f'<meta name="tiling-sources" content="{sources}">',
        "<!-- style -->": f"<style>\n{read('js', 'explore', 'style.css')}</style>",
        "<!-- rules -->": f'<script type="application/json" id="rules">{rules}</script>',
        "<!-- engine -->": f'<script id="tiling-wasm" type="text/plain" data-form="gzip">{engine}</script>',
        "<!-- worker -->": f'<script id="worker-code" type="text/plain">\n{worker}</script>',
        "<!-- boot -->": f"<script>\n{boot}</script>",
        "<!-- compile -->": f"<script>\n{compiler}</script>",
        "<!-- main -->": f'<script type="module">\n{main}</script>',
    }
    text = read("js", "explore.html")
    for mark, part in parts.items():
        if text.count(mark) != 1:
            raise Trouble(f"js/explore.html has not exactly one {mark}")
        text = text.replace(mark, part)
    return text


def inside(pattern):
    """What the committed page has, or None."""
    found = pattern.search(read("docs", "explore.html")) if os.path.exists(PAGE) else None
    return found[1] if found else None


def engine_of(path):
    """The engine of a file, packed, or that of the page where there is no file."""
    path = path or os.path.join(TOP, ".tiling", "tiling.wasm")
    if not os.path.exists(path):
        engine = inside(ENGINE)
        if engine is None:
            raise Trouble(f"there is no engine {path}: ./tiling --build makes it")
        return engine
    with open(path, "rb") as file:
        return base64.b64encode(gzip.compress(file.read(), 9, mtime=0)).decode()


def sources_of(given, path):
    """The checksum of the sources that the engine is made from: of the page's own engine that of the page."""
    script = os.path.join(TOP, "packaging", "make_wasm.sh")
    if given:
        return given
    if not path and not os.path.exists(os.path.join(TOP, ".tiling", "tiling.wasm")):
        return inside(SOURCES) or ""
    if not os.path.exists(script):
        return ""
    return subprocess.run([script, "--sources"], stdout=subprocess.PIPE, text=True, check=True).stdout.strip()


def options():
    parser = argparse.ArgumentParser(
        description=__doc__, formatter_class=argparse.RawDescriptionHelpFormatter
    )
    parser.add_argument("--wasm", metavar="FILE")
    parser.add_argument("--sources", metavar="HEX")
    parser.add_argument("--to", metavar="PAGE", default=PAGE)
    parser.add_argument("--check", action="store_true")
    return parser.parse_args()


def run():
    asked = options()
    if asked.check:
        if page(inside(ENGINE), inside(SOURCES)) == read("docs", "explore.html"):
            return 0
        print("docs/explore.html isn't what packaging/make_page.py makes of js/ and rules/", file=sys.stderr)
        return 1
    text = page(engine_of(asked.wasm), sources_of(asked.sources, asked.wasm))
    with open(asked.to, "w", encoding="utf-8") as file:
        file.write(text)
    print(f"{asked.to}: {len(text.encode()):,} bytes")
    return 0


if __name__ == "__main__":
    try:
        sys.exit(run())
    except (Trouble, OSError, subprocess.CalledProcessError) as trouble:
        sys.exit(f"make_page: {trouble}")
