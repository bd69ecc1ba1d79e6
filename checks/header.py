"""Compares include/tiling.h with its source: each function with its parameters as C sees them, each status with
its number, the number of the interface, and each plain value with its fields. A parameter has the same name in both;
the length of an array is the header's NAME_bytes, NAME_room, NAME_count, NAME_edges, bytes, room or count. Called by
checks/header.sh with the repository's folder."""

import re
import sys
from pathlib import Path

NUMBERS = {
    "u8": "uint8_t",
    "u16": "uint16_t",
    "u32": "uint32_t",
    "u64": "uint64_t",
    "i64": "int64_t",
    "usize": "size_t",
}


def c_name(rust_name: str) -> str:
    """The C name of a plain type: PlainAddress is tiling_address, and Step, the engine's own, tiling_digit."""
    if rust_name in NUMBERS:
        return NUMBERS[rust_name]
    if rust_name in ("SharedMachine", "MachineSlot"):
        return "tiling_machine"
    if rust_name == "Step":
        return "tiling_digit"
    words = re.findall("[A-Z][a-z]*", rust_name.removeprefix("Plain"))
    return "tiling_" + "_".join(words).lower()


def c_parameters(name: str, rust_type: str) -> list[str]:
    """What C passes for a parameter: nothing for the allocator, a pointer and a length for a slice."""
    if rust_type == "Global":
        return []
    if by_value := re.fullmatch(r"\w+", rust_type):
        return [f"{c_name(by_value[0])} {name}"]
    is_mutable, is_slice, of = re.fullmatch(r"&(mut )?(\[)?(\w+)\]?", rust_type).groups()
    pointer = f"{'' if is_mutable else 'const '}{c_name(of)} *{name}"
    return [pointer, f"size_t of {name}"] if is_slice else [pointer]


def exports(source: str) -> dict[str, list[str]]:
    """Each exported function of a source with its result and its parameters."""
    found = {}
    form = r'#\[unsafe\(no_mangle\)\]\s*pub extern "C" fn (\w+)\(([^)]*)\)(?: -> (\w+))?'
    for name, parameters, result in re.findall(form, source):
        found[name] = [NUMBERS[result] if result else "void"]
        for text in filter(str.strip, parameters.split(",")):
            found[name] += c_parameters(*(word.strip() for word in text.split(":", 1)))
    return found


def plain(c_type: str) -> str:
    """A C type in one form: bytes are bytes, whether of text, of a status or of numbers."""
    c_type = re.sub(r"\b(tiling_status|char)\b", "uint8_t", c_type)
    return re.sub(r"\s*\*", " *", c_type).strip()


def declared(header: str) -> dict[str, list[str]]:
    """Each function of a header with its result and its parameters."""
    found = {}
    for result, name, parameters in re.findall(r"^(\w+) (tiling_\w+)\(([^)]*)\);", header, re.M):
        found[name] = [plain(result)]
        before = ""
        for parameter in (text.strip() for text in parameters.split(",")):
            if parameter != "void":
                c_type, own = re.fullmatch(r"(.*?)(\w+)", parameter).groups()
                is_length = plain(c_type) == "size_t" and re.fullmatch(rf"({before}_)?(bytes|room|count|edges)", own)
                found[name].append(f"size_t of {before}" if is_length else plain(c_type) + " " * (c_type[-1] != "*") + own)
                before = own
    return found


def statuses(text: str, form: str) -> dict[str, int]:
    return {name: int(number) for name, number in re.findall(form, text)}


def structs_of_source(source: str) -> dict[str, list[tuple[str, str, str]]]:
    """Each plain struct with its fields, in order: name, type and length of an array."""
    found = {}
    form = r"#\[repr\(C\)\]\s*(?:#\[[^\]]*\]\s*)*pub struct (Plain\w+|Step) \{([^}]*)\}"
    for name, body in re.findall(form, source):
        fields = re.findall(r"pub (\w+): (?:(\w+)|\[(\w+); (\d+)\])", body)
        found[c_name(name)] = [(field, c_name(one or each), length) for field, one, each, length in fields]
    return found


def structs_of_header(header: str) -> dict[str, list[tuple[str, str, str]]]:
    found = {}
    for body, name in re.findall(r"typedef struct \{([^}]*)\} (tiling_\w+);", header):
        fields = []
        for c_type, names in re.findall(r"(\w+) ([^;]*);", body):
            for field, length in re.findall(r"(\w+)(?:\[(\d+)\])?", names):
                fields.append((field, c_type, length))
        found[name] = fields
    return found


def read(folder: Path) -> str:
    return "\n".join(path.read_text() for path in sorted(folder.glob("*.rt")))


def main(top: Path) -> int:
    header = re.sub(r"/\*.*?\*/", "", (top / "include/tiling.h").read_text(), flags=re.S)
    header = re.sub(r"\n {4,}(?=[\w*].*\);)", " ", header)
    calls, values = read(top / "crates/tiling_c/src"), read(top / "crates/c_values/src")
    values += (top / "crates/tile_shape/src/step.rt").read_text()
    of_source = statuses(values + calls, r"pub const ([A-Z_]+): u8 = (\d+);")
    pairs = [
        ("interface", statuses(calls, r"const (ABI): u32 = (\d+);"), statuses(header, r"#define TILING_(ABI) (\d+)")),
        ("functions", exports(calls), declared(header)),
        ("statuses", of_source, statuses(header, r"TILING_([A-Z_]+) = (\d+)")),
        ("plain values", structs_of_source(values), structs_of_header(header)),
    ]
    faults = 0
    for what, ours, theirs in pairs:
        if not ours:
            print(f"header: the source has no {what}", file=sys.stderr)
            faults += 1
        for name in sorted(ours.keys() | theirs.keys()):
            source, told = ours.get(name), theirs.get(name)
            if source != told:
                faults += 1
                print(f"header: {what}: {name}: source {source}, header {told}", file=sys.stderr)
    return int(faults > 0)


if __name__ == "__main__":
    sys.exit(main(Path(sys.argv[1])))
