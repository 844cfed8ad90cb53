#!/usr/bin/env python3
"""Holds the documents against the tree.

- docs/PROOFS.md lists every public function that has a `requires`, and no other function there.
- Every mistake of the must-fail edits is named in docs/PROOFS.md, and every one named there exists.
- Every link in docs/PROOFS.md is defined once under "Links", in alphabetical order, and every link defined there is used.
- Every link in docs/PROOFS.md leads to a file that declares the name: as a theorem, a definition, a field or a constructor, as a function, a type or
  a constant, or as a mistake. The parts in front of a name (crate::module::name) are the file's own. A link with a path leads there.
- Every name in docs/PROOFS.md is a link: what stands in backticks, is one word and is declared in crates/ or is a path; and every source file.
- No cell of a table in docs/PROOFS.md has more than 300 characters.
- Every relative link in a document leads to a file.
- Every listing that stands in a document is one that the program writes in a test: that of an example, or of its own sample.
- Every line of the program `layouts` that stands in the manual is one that it prints.
- The summary at the front of Demand.antt names what is declared there, and every promise of one box and of two.

Prints what differs; the last line is 'N passed, M failed'.
"""
import functools
import glob
import os
import re
import sys

DEMAND = "crates/boxes/specs/Demand.antt"
REQUIRES_HEADING = "## Inner functions that ask something of their caller"
LINK = re.compile(r"\[([^][]+)\](?:\[([^][]+)\])?")
LINK_DEFINITION = re.compile(r"^\[([^][]+)\]: (\S+)$", flags=re.M)
LONGEST_CELL = 300


@functools.cache
def text_of(path):
    with open(path, encoding="utf-8") as file:
        return file.read()


def functions_with_requires():
    """Each public function with a `requires`, as crate::module::Type::name."""
    found = set()
    for path in glob.glob("crates/*/src/*.rt"):
        crate, module = path.split("/")[1], os.path.basename(path)[:-3]
        within = [] if module in ("lib", "main") else [module]
        type_name = []
        signature = None
        for line in text_of(path).splitlines():
            if re.match(r"impl\b", line):
                type_name = [re.match(r"impl(?:<[^>]*>)? (\w+)", line)[1]]
            elif line == "}":
                type_name = []
            name = re.match(r'\s*pub (?:extern "C" )?fn (\w+)', line)
            if name:
                signature = "::".join([crate, *within, *type_name, name[1]])
            elif re.match(r"\s*fn \w+|\s*\{$", line):
                signature = None
            if signature and re.match(r"\s*requires\b", line):
                found.add(signature)
    return found


def same_requires(proofs):
    listed = set(re.findall(r"`(\w+(?:::\w+)+)`", "".join(
        row.split("|")[1] for row in proofs.split(REQUIRES_HEADING)[1].splitlines() if row.startswith("| [`"))))
    there = functions_with_requires()
    return [f"{name} has a requires and is not listed" for name in sorted(there - listed)] + [
        f"{name} is listed and has no requires" for name in sorted(listed - there)]


def same_mistakes(proofs):
    there = {f"{path.split('/')[1]}/{os.path.basename(path)[:-5]}/{name}" for path in glob.glob("crates/*/must-fail/*.edit")
             for name in declared(path)}
    crates = {path.split("/")[1] for path in glob.glob("crates/*/")}
    named = {name for name in re.findall(r"`(\w+/\w+(?:/\w+)?)`", proofs) if name.split("/")[0] in crates}
    return [f"mistake {name} is not named" for name in sorted(there - named)] + [
        f"there is no mistake {name}" for name in sorted(named - there)]


def declared_in_proofs(text):
    """The names that specs/ or proofs/ declare, of records, data types and modules what stands in them too; not what is local to a definition."""
    names = set()
    indents = [0]
    for line in text.splitlines():
        declaration = line.lstrip()
        indent = len(line) - len(declaration)
        while declaration and indent < indents[-1]:
            indents.pop()
        if not declaration or indent > indents[-1]:
            continue
        name = re.match(r"(?:(?:abbrev|unfoldable|pub|record|data) )*([^\s(){}]+) [:({]", declaration)
        if name:
            names.add(name[1])
        if re.match(r"(?:pub )?(?:record|data|module) ", declaration):
            indents.append(indent + 2)
    return names


@functools.cache
def declared(path):
    """The names that a source file declares; one of a module also the module's."""
    text = text_of(path)
    if path.endswith(".antt"):
        return declared_in_proofs(text)
    if path.endswith(".rt"):
        module = {os.path.basename(path)[:-3]} - {"lib", "main"}
        return module | set(re.findall(r'^\s*(?:pub )?(?:extern "C" )?(?:fn|struct|enum|const) (\w+)', text, flags=re.M))
    return set(re.findall(r"^mistake: (\w+)$", text, flags=re.M))


def links_in(proofs):
    """Each link's text and label, and each label's target. Markdown takes labels that differ in capitals alone for the same."""
    uses = [(text, (label or text).casefold()) for text, label in LINK.findall(LINK_DEFINITION.sub("", proofs))]
    return uses, [(label.casefold(), target) for label, target in LINK_DEFINITION.findall(proofs)]


def differing_links(proofs):
    uses, definitions = links_in(proofs)
    used, labels = {label for _, label in uses}, [label for label, _ in definitions]
    in_order = sorted(labels, key=lambda label: label.replace("`", ""))
    return [f"no link is defined for {label}" for label in sorted(used - set(labels))] + [
        f"the link of {label} is not used" for label in sorted(set(labels) - used)] + [
        f"the link of {label} is defined twice" for label in sorted({label for label in labels if labels.count(label) > 1})] + [
        f"the link of {label} stands in the place of that of {other}" for label, other in zip(labels, in_order) if label != other][:1]


def leads_to(name, path):
    """Whether a name or a path stands where its link leads."""
    if not os.path.exists(path):
        return False
    if f"/{path}".endswith(f"/{name}"):
        return True
    *within, last = re.split(r"::|/", name)
    return os.path.isfile(path) and last in declared(path) and set(within) <= declared(path) | set(re.split(r"[/.]", path))


def wrong_targets(proofs):
    uses, definitions = links_in(proofs)
    target = {label: os.path.normpath(os.path.join("docs", path)) for label, path in definitions}
    names = {(re.split(r"[ (]", text.strip("`"))[0], target[label]) for text, label in uses if label in target}
    return [f"{path} does not declare {name}" for name, path in sorted(names) if not leads_to(name, path)]


def unlinked_names(proofs):
    names = set().union(*(declared(path) for path in glob.glob("crates/*/specs/*.antt") + glob.glob("crates/*/proofs/*.antt")
                          + glob.glob("crates/*/src/*.rt")))
    rest = LINK.sub("", LINK_DEFINITION.sub("", proofs))
    words = {word for word in re.findall(r"`([^`\s]+)`", rest) if word.split("::")[-1] in names or os.path.exists(word)}
    return [f"{name} is not a link" for name in sorted(words | set(re.findall(r"[\w/-]+\.(?:antt|rt|edit)\b", rest)))]


def long_cells(proofs):
    cells = [cell for row in proofs.splitlines() if row.startswith("|") for cell in row.split("|")]
    return [f"a cell of {len(cell)} characters: {cell[:60]}…" for cell in cells if len(cell) > LONGEST_CELL]


def dead_links():
    wrong = []
    for path in glob.glob("*.md") + glob.glob("docs/**/*.md", recursive=True) + glob.glob("tests/**/*.md", recursive=True):
        for target in re.findall(r"\]\(([^)#:]+)(?:#[^)]*)?\)", text_of(path)):
            if not os.path.exists(os.path.join(os.path.dirname(path), target)):
                wrong.append(f"{path}: no {target}")
    return wrong


def other_listings():
    tested = {text_of(path) for path in [*glob.glob("examples/*.listing"), "crates/listing/stdout"]}
    wrong = []
    for path in glob.glob("*.md") + glob.glob("docs/*.md"):
        for block in re.findall(r"(?:^    .*\n)+", text_of(path), flags=re.M):
            listing = re.sub(r"^    ", "", block, flags=re.M)
            if listing.startswith("1 O ") and listing not in tested:
                wrong.append(f"{path}: no test has the listing {listing!r}")
    return wrong


def other_layouts():
    printed = text_of("crates/layouts/stdout").splitlines()
    quoted = re.findall(r"`(\d+: [^`]*)`", text_of("docs/MANUAL.md"))
    wrong = [f"docs/MANUAL.md: layouts does not print {line}" for line in quoted if line not in printed]
    return wrong if quoted else ["docs/MANUAL.md: no line of layouts"]


def other_promises():
    """What the summary of demand 3 names and is not there, or is there and not named. Fields of `Line` are named by the first and the last."""
    text = text_of(DEMAND)
    named = set(re.findall(r"`([\w-]+)`", text[:text.index("\nuse ")]))
    fields = {name for record in ("Box", "Boxes") for name in
              re.findall(r"^  pub ([\w-]+) :", re.search(rf"^pub record {record} .*?\n\n", text, flags=re.M | re.S)[0], flags=re.M)}
    return [f"{DEMAND} does not declare {name}" for name in sorted(named - declared(DEMAND))] + [
        f"the summary of {DEMAND} does not name {name}" for name in sorted(fields - named - {"one", "two", "line"})]


def main():
    proofs = text_of("docs/PROOFS.md")
    passed = failed = 0
    for differing in (same_requires(proofs), same_mistakes(proofs), differing_links(proofs), wrong_targets(proofs), unlinked_names(proofs),
                      long_cells(proofs), dead_links(), other_listings(), other_layouts(), other_promises()):
        passed += not differing
        failed += bool(differing)
        for line in differing:
            print(line)
    print(f"{passed} passed, {failed} failed")
    return 1 if failed else 0


if __name__ == "__main__":
    sys.exit(main())
