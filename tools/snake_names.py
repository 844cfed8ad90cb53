#!/usr/bin/env python3
"""Brings this repository's own definitions and lemmas to snake case: `a-name` and `aName` become `a_name`.

usage: python3 tools/snake_names.py [--dry] [ROOT]

It was run once, right after port.py, at the commit that docs/PORT.md names. Types and modules keep their spelling, and so do Rust's names, names of the
library, and what a check generates for a function's proof. It prints each place where two names would fall together, and then writes nothing.
"""
import collections
import os
import re
import sys

IDENT = re.compile(r"[^\s(){}\[\];,.:\"`⌜⌝=→←λ⟨⟩∷∙×≡≤¬⊎↔&|+*^]+")
# what a tactic or the language means by itself
WORDS = {"pub", "abbrev", "unfoldable", "record", "data", "use", "mod", "module", "where", "let", "in", "rw", "at", "as", "elim", "omega", "search"}
# what would fall together with another name, or has a sign in it
BY_HAND = {
    "first<past": "first_lt_past",
    "of-upFrom": "of_up_from",
    "getD-inside": "get_or_inside",
    "entries-of": "entries_of_call",
    "body-length": "length_of_body",
    "image-of": "image_is",
    "state-in": "state_is",
    "open-again": "second_open",
    "no-open": "without_open",
    "index-at": "index_at_level",
    "record-read": "record_is_read",
    "row-filled": "row_filled_flags",
    "new-row": "new_row_holds",
    "level-shifts": "level_shifts_are",
    "least-from": "least_from_is_least",
    "row-owned": "row_is_owned",
    "level-owned": "level_is_owned",
    "set-bits": "set_bits_counted",
    "in-table": "inside_table",
    "inOrder": "moves_in_order",
    "oneMore": "one_block_more",
    "oneFewer": "one_block_fewer",
    "notTaken": "not_taken_text",
}
# the same within one file, for a name that means something else in others
IN_FILE = {
    "boxes/proofs/Waiting.antt": {"pages-held": "pages_are_held"},
    "pagemap/proofs/Theorems.antt": {"pages-held": "pages_are_held"},
    "conversion/proofs/Contents.antt": {"too-high": "is_too_high"},
    "journal/proofs/Held.antt": {"type-at": "declared_at"},
    "pagemap/proofs/Flags.antt": {"in-row": "inside_row"},
    "plans/proofs/Planning.antt": {"old_row": "old_row_holds"},
    "plans/proofs/RowNodes.antt": {"old_row": "old_row_holds"},
    "plans/proofs/Written.antt": {"old_row": "old_row_holds"},
    "survey/proofs/Owned.antt": {"in_row": "row_has"},
    "survey/proofs/Surveyed.antt": {"in-order": "order_tested"},
}


def files(root):
    for folder, dirs, names in os.walk(os.path.join(root, "crates")):
        dirs[:] = sorted(d for d in dirs if d not in ("out", "target"))
        for name in sorted(names):
            if name.endswith((".antt", ".rt", ".edit")):
                yield os.path.join(folder, name)


def snake(name):
    if name in BY_HAND:
        return BY_HAND[name]
    new = re.sub(r"(?<=[A-Za-z0-9'₀-₉])-(?=[A-Za-z0-9])", "_", name)
    if re.match(r"[a-z]", new):
        new = re.sub(r"(?<=[a-z0-9])([A-Z])(?=[a-z])", lambda m: "_" + m.group(1).lower(), new)
    return new


def is_walk(path):
    """A file that belongs to one function: what a check generated for it has names of its own there."""
    return path.endswith("/Proof.antt")


def of_file(path):
    return next((names for end, names in IN_FILE.items() if path.endswith("/" + end)), {})


def without_comments(text):
    return re.sub(r"(?m)--.*$", "", text)


def declared(path, text):
    """The names that a file of definitions or lemmas declares: its signatures, fields, bound variables, and its aliases of imports."""
    text = without_comments(text)
    out = set(re.findall(r"\bas (\S+?)[,}\s]", text))
    for token in IDENT.findall(text):
        out.add(token)
    return out


def imported(text, own):
    """What a file brings in from elsewhere than the repository, by its name in the file."""
    out = set()
    for match in re.finditer(r"\buse ([^\s;{]+?)\.\{([^}]*)\}", text, re.S):
        parts = match.group(1).split(".")
        if parts[0] == "Rattle" and len(parts) > 1 and parts[1] in own:
            continue
        for item in match.group(2).split(","):
            out.add(item.split(" as ")[0].strip())
    return out


def main(argv):
    dry = "--dry" in argv
    roots = [a for a in argv if not a.startswith("--")]
    root = roots[0] if roots else "."
    own = set(os.listdir(os.path.join(root, "crates")))
    texts = {p: open(p, encoding="utf-8").read() for p in files(root)}
    names, outside, local = set(), set(), collections.defaultdict(set)
    for path, text in texts.items():
        if not path.endswith(".antt"):
            continue
        outside |= imported(text, own)
        if is_walk(path):
            local[path] = set(re.findall(r"(?m)^(?:abbrev |pub )*([^\s:({]+) :", text))
        else:
            names |= declared(path, text)
    mapping = {}
    for name in names:
        if name in WORDS or name in outside:
            continue
        new = snake(name)
        if new != name:
            mapping[name] = new
    everything = names | outside
    fallen = collections.defaultdict(set)
    for old, new in mapping.items():
        fallen[new].add(old)
        if new in everything:
            fallen[new].add(new)
    bad = False
    for path, text in texts.items():
        if path.endswith(".antt") and not is_walk(path):
            here = declared(path, text)
            mine = of_file(path)
            for new, olds in fallen.items():
                olds = {o for o in olds if mine.get(o, new) == new}
                if len(olds & here) > 1:
                    print(f"{path}: {sorted(olds & here)} would all be {new}")
                    bad = True
    if bad or dry:
        print(len(mapping), "names")
        return 1 if bad else 0
    for path, text in texts.items():
        skip = imported(text, own) | local[path]
        mine = of_file(path)

        def turn(match):
            token = match.group(0)
            return mine.get(token) or (token if token in skip else mapping.get(token, token))

        if path.endswith(".rt"):
            new = turn_source(text, mapping)
        elif path.endswith(".edit"):
            new = text
        else:
            new = IDENT.sub(turn, text)
        if new != text:
            with open(path, "w", encoding="utf-8") as f:
                f.write(new)
    return 0


def turn_source(text, mapping):
    """Renames in clauses and in `ghost use` lines alone: the Rust of a source file keeps its names."""
    out, at = [], 0
    for match in re.finditer(r"ghost use [^;]*;|(?:requires|ensures|invariant|decreases|ghost)[^{;\n]*\{", text):
        start, end = match.start(), match.end()
        if start < at:
            continue
        if text[end - 1] == "{":
            depth = 1
            while depth and end < len(text):
                depth += {"{": 1, "}": -1}.get(text[end], 0)
                end += 1
        out.append(text[at:start])
        out.append(IDENT.sub(lambda m: mapping.get(m.group(0), m.group(0)), text[start:end]))
        at = end
    out.append(text[at:])
    return "".join(out)


if __name__ == "__main__":
    raise SystemExit(main(sys.argv[1:]))
