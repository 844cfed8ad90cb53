#!/usr/bin/env python3
"""Compares include/reserve.h with the Rattle source that it is the C side of.

Each function and each struct has to be on both sides, with the same parameters or fields: their names, their types and
their order. A slice `table: &mut [u8]` is `uint8_t *table, size_t table_length` in C. Each constant has to have the number
that crates/refusal or a definition in specs/ has, and the header has to say what each major version changed. The version is
that of the manual, and as one number 1000 times the major one plus the minor one. Prints what differs; the last line is
'N passed, M failed'.
"""
import glob
import re
import sys

HEADER = "include/reserve.h"
MANUAL = "docs/MANUAL.md"
WIDTHS = {"uint8_t": "u8", "uint16_t": "u16", "uint32_t": "u32", "uint64_t": "u64", "size_t": "usize"}

# What the header alone says.
OWN = {"RESERVE_H", "RESERVE_VERSION", "RESERVE_VERSION_MAJOR", "RESERVE_VERSION_MINOR"}


def text_of(path):
    with open(path, encoding="utf-8") as file:
        return file.read()


# ---- the header


def c_type(words):
    """The Rattle name of a C type that is no pointer; a struct by its name."""
    return WIDTHS.get(words[-1]) or "struct " + words[-1].removeprefix("reserve_")


def c_named(text):
    """A parameter or a field as 'name: type'; a pointer is 'const *' or 'mut *'."""
    name = re.search(r"\w+$", text.strip())[0]
    words = text.replace("*", " ").split()[:-1]
    if "*" not in text:
        return f"{name}: {c_type(words)}"
    return f"{name}: {'const' if 'const' in words else 'mut'} *{WIDTHS[words[-1]]}"


def header_declarations(text):
    text = re.sub(r"^\s*#.*?$", "", text, flags=re.M)
    structs = {
        "struct " + name.removeprefix("reserve_"): [c_named(field) for field in body.split(";") if field.strip()]
        for name, body in re.findall(r"struct\s+(\w+)\s*\{(.*?)\}", text, flags=re.S)
    }
    outside = re.sub(r"\{[^{}]*\}", "", text)
    functions = {
        name: [c_type(result.split())] + [c_named(one) for one in parameters.split(",")]
        for result, name, parameters in re.findall(r"([\w ]+?)\s+(\w+)\(([^)]*)\)\s*;", outside)
    }
    return {**structs, **functions}


def header_constants(text):
    """Each macro and each constant of an enum, with its number, or its text if it is no number."""
    macros = re.findall(r"^\s*#define[ \t]+(\w+)(?:[ \t]+(.*?))?[ \t]*$", text, flags=re.M)
    listed = [one.strip() for body in re.findall(r"enum\s+\w+\s*\{(.*?)\}", text, flags=re.S) for one in body.split(",")]
    pairs = macros + [tuple(re.split(r"\s*=\s*", one)) if "=" in one else (one, "") for one in listed if one]
    return {name: int(value) if value.isdecimal() else value for name, value in pairs if name not in OWN}


# ---- the exported functions


def rattle_type(name):
    return name if name in WIDTHS.values() else "struct " + name.lower()


def rattle_named(text):
    """A slice is passed as a pointer and a length."""
    name, kind = re.split(r"\s*:\s*", text.strip(), maxsplit=1)
    slice_of = re.fullmatch(r"&(mut )?\[(\w+)\]", kind)
    if slice_of:
        return [f"{name}: {'mut' if slice_of[1] else 'const'} *{slice_of[2]}", f"{name}_length: usize"]
    return [f"{name}: {rattle_type(kind)}"]


def split_list(text):
    return [one for one in re.split(r",\s*", text.strip()) if one]


def source_declarations(text):
    text = re.sub(r"//.*", "", text)
    structs = {
        "struct " + name.lower(): [part for one in split_list(body) for part in rattle_named(one.removeprefix("pub "))]
        for name, body in re.findall(r"#\[repr\(C\)\]\s*(?:#\[derive\([\w, ]+\)\]\s*)?pub struct (\w+) \{(.*?)\}", text, flags=re.S)
    }
    exported = re.findall(r'#\[unsafe\(no_mangle\)\]\s*pub extern "C" fn (\w+)\((.*?)\) -> (\w+)', text, flags=re.S)
    functions = {
        name: [rattle_type(result)] + [part for one in split_list(parameters) for part in rattle_named(one)]
        for name, parameters, result in exported
    }
    return {**structs, **functions}


# ---- the numbers


def numbers(path, pattern):
    found = [int(number) for number in re.findall(pattern, text_of(path), flags=re.M)]
    if not found:
        sys.exit(f"{path}: nothing like {pattern}")
    return found


def number(path, pattern):
    """The number that a definition has; the same if it has it more than once."""
    found = set(numbers(path, pattern))
    if len(found) > 1:
        sys.exit(f"{path}: {pattern} is {sorted(found)}")
    return found.pop()


def capitals(name):
    return re.sub(r"(?<=[a-z])(?=[A-Z])", "_", name).upper()


def refusals():
    named = re.findall(r"^    (\w+) = (\d+),$", text_of("crates/refusal/src/lib.rt"), flags=re.M)
    return {"RESERVE_REFUSED_" + capitals(name): int(value) for name, value in named}


def kinds():
    named = re.findall(r"^kind_byte Kind\.(\w+) = (\d+)$", text_of("crates/journal/specs/Format.antt"), flags=re.M)
    return {"RESERVE_KIND_" + capitals(name): int(value) for name, value in named}


def sizes():
    """The other constants, each from the definition that fixes it."""
    step = "crates/rules/specs/Step.antt"
    with_line = "crates/admission/specs/Step.antt"
    door = "crates/reserve/specs/Door.antt"
    move = number(door, r"^entries_in \w+ = length \w+ / (\d+)$")
    entries = lambda kinds: number("crates/rules/specs/Call.antt", rf"^least_entries \((?:{kinds}) .*\) = (\d+)$")
    direct, admit = entries("grant_level|grant_pages|release"), number(with_line, r"check 3 \(ltb m (\d+)\)")
    if direct != admit:
        sys.exit(f"a grant or a release needs {direct} entries, and an admit {admit}")
    return {
        "RESERVE_DONE": number(step, r"^first \[\] = (\d+)$"),
        "RESERVE_KIND_NONE": number("crates/reserve/specs/Records.antt", r"^reading_of at \(Ok None\) = .*kind = (\d+);"),
        "RESERVE_MAX_HEIGHT": number(step, r"check 1 \(ltb (\d+) h\)"),
        "RESERVE_TENANTS": number(step, r"check 4 \(ltb (\d+) t\)") + 1,
        "RESERVE_LINE_PLACES": number(with_line, r"check 17 \(leb (\d+) "),
        "RESERVE_MOST_PASSES": number("crates/line/specs/Order.antt", r"leb w\.passed (\d+)"),
        "RESERVE_NOBODY": number(door, r"^\S+ none = (\d+)$"),
        "RESERVE_TABLE_BYTES": 2 * number("crates/image/specs/Image.antt", r"table_of image = lent_as (\d+) image"),
        "RESERVE_LINE_BYTES": 2 * number(with_line, r"check 2 \(not \(eqb k (\d+)\)\)"),
        "RESERVE_MOVE_BYTES": move,
        "RESERVE_MOVES_BYTES": direct * move,
        "RESERVE_GROW_MOVES_BYTES": entries("grow") * move,
        "RESERVE_MAP_BYTES": number("crates/pagemap/specs/Draw.antt", r"check 15 \(ltb \(length m\) (\d+)\)"),
        "RESERVE_RECORD_BYTES": 1 + max(numbers("crates/journal/specs/Format.antt", r"^body_length Kind\.\w+ = (\d+)$")),
        "RESERVE_JOURNAL_BYTES": number("crates/journal/specs/Reader.antt", r"ltb (\d+) \(length journal\)"),
    }


def version_of_header():
    """Major and minor number, and both as one number, as a compiler makes it of the macros."""
    macros = {name: text_of_macro(name) for name in ("RESERVE_VERSION_MAJOR", "RESERVE_VERSION_MINOR", "RESERVE_VERSION")}
    together = re.sub(r"RESERVE_VERSION_\w+", lambda name: macros[name[0]], macros["RESERVE_VERSION"])
    if not re.fullmatch(r"[\d\s()+*]+", together):
        sys.exit(f"{HEADER}: RESERVE_VERSION is {together}")
    return int(macros["RESERVE_VERSION_MAJOR"]), int(macros["RESERVE_VERSION_MINOR"]), eval(together)


def text_of_macro(name):
    return re.search(rf"^#define {name} (.+)$", text_of(HEADER), flags=re.M)[1]


def version_of_manual():
    """The same by what the manual says."""
    major, minor = map(int, re.search(r"\*\*Version\*\*: (\d+)\.(\d+)\b", text_of(MANUAL)).groups())
    return major, minor, 1000 * major + minor


def versions_told():
    """The major versions of which a comment says what they changed, as in '2.0: …'."""
    return [int(major) for major in re.findall(r"\b(\d+)\.0: ", text_of(HEADER))]


def versions():
    """Those that changed something: all from the second to that of the header."""
    return list(range(2, number(HEADER, r"^#define RESERVE_VERSION_MAJOR (\d+)$") + 1))


def main():
    header = re.sub(r"/\*.*?\*/", "", text_of(HEADER), flags=re.S)
    exported = {}
    for path in sorted(glob.glob("crates/reserve/src/*.rt") + glob.glob("crates/reserve_c/src/*.rt")):
        exported.update(source_declarations(text_of(path)))
    declared = {**header_declarations(header), **header_constants(header), "versions": versions_told(), "version": version_of_header()}
    written = {**exported, **refusals(), **kinds(), **sizes(), "versions": versions(), "version": version_of_manual()}
    differing = 0
    names = sorted(declared.keys() | written.keys())
    for name in names:
        if declared.get(name) != written.get(name):
            differing += 1
            print(f"{name}: {declared.get(name)} in the header, {written.get(name)} in the source")
    print(f"{len(names) - differing} passed, {differing} failed")
    return 1 if differing or not exported else 0


if __name__ == "__main__":
    sys.exit(main())
