#!/usr/bin/env python3
"""Turns the LLVM module of the proved library, which is for x86-64, into one for wasm32, as text.

  wasm/to_wasm32.py MODULE.ll OUT.ll

No line of code is changed, except as follows.

- The layout, the target and the attributes that name x86-64 are those of wasm32.
- A pointer keeps its place of 8 bytes in memory, and uses the low 4, since the library's layout is in bytes. So a
  constant with pointers gets 4 bytes of zeros after each, and a load of a pair with a pointer is written as two loads.
- `ptrtoaddr` becomes `ptrtoint`, its name on this target.
- The functions of include/tiling.h are internal, since wasm/make_shim.py exports others, which call them. And a function
  that is called at just one place is always inlined there, which makes the module smaller and its calls faster.

It ends with 1 at any form that says how wide a pointer is and isn't known here. Nothing proves it: checks/wasm.sh
compares what the module and the native library answer, byte for byte."""
import re
import sys
from collections import Counter

LAYOUT = "e-m:e-p:32:32-p10:8:8-p20:8:8-i64:64-i128:128-n32:64-S128-ni:1:10:20"
OF_X86 = re.compile(
    r' (?:"(?:frame-pointer|probe-stack|stack-probe-size|target-cpu|tune-cpu|target-features)"="[^"]*"|sanitize_address\b)'
)
PACKED = re.compile(r"^(@\S+ = (?:private |internal )?(?:unnamed_addr )?(?:constant|global) )<\{ (.*?) \}> <\{ (.*) \}>(, align \d+)?$")
PLAIN_CONSTANT = re.compile(r"(?:constant|global) (?:\[\d+ x i8\]|i\d+) ")
PAIR = re.compile(r"^(\s+)(%\S+) = load \{ (i8|i16|i32|ptr), ptr \}, ptr (\S+), align \d+(.*)$")
NAME = re.compile(r'@("[^"]+"|[\w.]+)')
ATTRIBUTES = re.compile(r"^attributes #(\d+) = \{ (.*?) \}$")
# pairs with a pointer whose second part stands at 8 on both targets
ALIKE = re.compile(r"(?:load|store) \{ (?:ptr, i64|i64, ptr) \}")
OF_POINTERS = re.compile(r"(?:load|store|alloca) (?:\{[^}]*\bptr\b|\[\d+ x ptr\])")
STEP = re.compile(r"getelementptr (?:inbounds |nuw |nusw )*i8,|getelementptr \(i8,|getelementptr (?:inbounds |nuw |nusw )*\(i8,")


def parts(text: str):
    """The parts of a list, at its commas outside brackets and quotes."""
    found, depth, begin, quoted = [], 0, 0, False
    for at, letter in enumerate(text):
        if letter == '"':
            quoted = not quoted
        elif quoted:
            continue
        elif letter in "([{<":
            depth += 1
        elif letter in ")]}>":
            depth -= 1
        elif letter == "," and not depth:
            found.append(text[begin:at].strip())
            begin = at + 1
    return [*found, text[begin:].strip()]


class Narrower:
    """Reads a module line by line, and counts what it writes out."""

    def __init__(self, lines: list):
        self.constants = self.pairs = self.inlined = 0
        self.called = Counter(name for line in lines if not line.startswith("define") for name in NAME.findall(line))
        self.groups = {text: group for line in lines for group, text in ATTRIBUTES.findall(OF_X86.sub("", line))}

    def line(self, line: str) -> str:
        if line.startswith("define "):
            return self.definition(line)
        if line.startswith("target datalayout = "):
            return f'target datalayout = "{LAYOUT}"'
        if line.startswith("target triple = "):
            return 'target triple = "wasm32-unknown-unknown"'
        if line.startswith("attributes #"):
            return OF_X86.sub("", line).replace("{ }", '{ "no-attributes" }')
        return self.constant(line) if line.startswith("@") else self.code(line)

    def definition(self, line: str) -> str:
        """The first line of a function: internal, and to be inlined if it has one caller and may be."""
        line = re.sub(r"^define (?=(?:noundef )?\w+ @tiling_\w+\()", "define internal ", line)
        name, always = NAME.search(line)[1], self.groups.get("alwaysinline nounwind")
        free = [self.groups.get(it) for it in ("nounwind", "inlinehint nounwind")]
        found = re.search(r" #(\d+) \{$", line)
        if always and found and found[1] in free and self.called[name] == 1 and line.startswith("define internal "):
            self.inlined += 1
            return f"{line[: found.start()]} #{always} {{"
        return line

    def constant(self, line: str) -> str:
        """A constant, with 4 bytes of zeros after each pointer."""
        if "<{" not in line:
            if re.search(r"\bptr\b", line) and not PLAIN_CONSTANT.search(line):
                stop("a constant with a pointer", line)
            return line
        found = PACKED.match(line)
        if not found:
            stop("a constant", line)
        begin, types, values, align = found.groups()
        kinds, members = [], []
        for kind, member in zip(parts(types), parts(values), strict=True):
            if not member.startswith(kind):
                stop("a constant", line)
            kinds.append(kind)
            members.append(member)
            if kind == "ptr":
                kinds.append("i32")
                members.append("i32 0")
                self.constants += 1
        return f"{begin}<{{ {', '.join(kinds)} }}> <{{ {', '.join(members)} }}>{align or ''}"

    def code(self, line: str) -> str:
        line = line.replace("= ptrtoaddr ptr", "= ptrtoint ptr")
        found = PAIR.match(line)
        if found:
            self.pairs += 1
            return pair(*found.groups())
        if OF_POINTERS.search(line) and not ALIKE.search(line):
            stop("pointers side by side", line)
        if "getelementptr" in line and not STEP.search(line):
            stop("a step over another type than bytes", line)
        if re.search(r"\binttoptr\b", line):
            stop("a number made a pointer", line)
        return line


def pair(indent: str, name: str, first: str, place: str, rest: str) -> str:
    """A load of a pair whose second part is a pointer: the two parts at 0 and 8."""
    align = 8 if first == "ptr" else 1
    return "\n".join(
        indent + line
        for line in (
            f"{name}.a = load {first}, ptr {place}, align {align}",
            f"{name}.at = getelementptr i8, ptr {place}, i64 8",
            f"{name}.b = load ptr, ptr {name}.at, align 8",
            f"{name}.half = insertvalue {{ {first}, ptr }} poison, {first} {name}.a, 0",
            f"{name} = insertvalue {{ {first}, ptr }} {name}.half, ptr {name}.b, 1{rest}",
        )
    )


def stop(what: str, line: str):
    sys.exit(f"to_wasm32: {what} of a form that isn't known: {line.strip()[:300]}")


def main():
    source, target = sys.argv[1:3]
    with open(source, encoding="utf-8") as file:
        lines = file.read().splitlines()
    narrower = Narrower(lines)
    with open(target, "w", encoding="utf-8") as out:
        out.writelines(narrower.line(line) + "\n" for line in lines)
    print(
        f"to_wasm32: {narrower.constants} pointers in constants and {narrower.pairs} pairs are written out, and"
        f" {narrower.inlined} functions are inlined at their one place"
    )


main()
