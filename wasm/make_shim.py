#!/usr/bin/env python3
"""Makes the exports of tiling.wasm: for each function of include/tiling.h one that takes numbers of 32 bits, so that
JavaScript needs no BigInt, and calls the engine's own, whose sizes and machines are 64 bits wide.

  wasm/make_shim.py HEADER MODULE.ll > SHIM.ll

SHIM.ll goes behind MODULE.ll, which wasm/to_wasm32.py made. It ends with 1 at a type that isn't known here, and if a
function of the header is missing in the module or has other parameters there."""
import re
import sys

PROTOTYPE = re.compile(r"^(\w+) (tiling_\w+)\(([^;]*)\);", re.M | re.S)
COMMENT = re.compile(r"/\*.*?\*/", re.S)
DEFINED = re.compile(r"^define internal (?:noundef )?(\w+) @(tiling_\w+)\((.*?)\) #\d+ \{", re.M)
# the engine's types, and how a number of 32 bits becomes one
POINTER = ("ptr", "inttoptr")
# (in the proved library a machine that is passed by value is a number of 64 bits, and no pointer)
NUMBERS = {
    "tiling_machine": ("i64", "zext"),
    "size_t": ("i64", "zext"),
    "uint8_t": ("i8", "trunc"),
    "uint16_t": ("i16", "trunc"),
}
RESULTS = {"void": "void", "tiling_status": "i8", "uint8_t": "i8", "uint32_t": "i32"}


def parameter(text: str):
    """The engine's type of a parameter, and how it is made."""
    words = [word for word in text.replace("*", " * ").split()[:-1] if word != "const"]
    if "*" in words:
        return POINTER
    if len(words) == 1 and words[0] in NUMBERS:
        return NUMBERS[words[0]]
    raise SystemExit(f"make_shim: what is {text.strip()!r}?")


def functions(header: str):
    """The name, the result and the parameters of each function of a header."""
    for result, name, text in PROTOTYPE.findall(COMMENT.sub("", header)):
        if result not in RESULTS:
            raise SystemExit(f"make_shim: {name} has a result {result}")
        yield name, RESULTS[result], [parameter(it) for it in text.split(",") if it.strip() not in ("", "void")]


def definitions(module: str):
    """The types of the module's own functions, by name: the result, and then the parameters."""
    return {
        name: [result, *(it.split()[0] for it in text.split(",") if it.strip())]
        for result, name, text in DEFINED.findall(module)
    }


def shim(name: str, result: str, parameters: list) -> str:
    """The export of one function."""
    made = "".join(f"  %q{i} = {how} i32 %p{i} to {kind}\n" for i, (kind, how) in enumerate(parameters))
    passed = ", ".join(f"{kind} %q{i}" for i, (kind, _) in enumerate(parameters))
    call = f"call {result} @{name}({passed})"
    end = {
        "void": f"  {call}\n  ret void\n",
        "i8": f"  %r = {call}\n  %all = zext i8 %r to i32\n  ret i32 %all\n",
        "i32": f"  %r = {call}\n  ret i32 %r\n",
    }[result]
    taken = ", ".join(f"i32 %p{i}" for i in range(len(parameters)))
    kind = "void" if result == "void" else "i32"
    return f'define {kind} @js_{name}({taken}) nounwind "wasm-export-name"="{name}" {{\n{made}{end}}}\n'


def main():
    with open(sys.argv[1], encoding="utf-8") as header, open(sys.argv[2], encoding="utf-8") as module:
        found, defined = list(functions(header.read())), definitions(module.read())
    if not found:
        raise SystemExit("make_shim: the header has no function")
    for name, result, parameters in found:
        wanted = [result, *(kind for kind, _ in parameters)]
        if defined.get(name) != wanted:
            raise SystemExit(f"make_shim: by the header {name} has {wanted}, and in the module {defined.get(name)}")
    used = ", ".join(f"ptr @js_{name}" for name, _, _ in found)
    print("\n".join(shim(*it) for it in found))
    print(f'@llvm.used = appending global [{len(found)} x ptr] [{used}], section "llvm.metadata"')


main()
