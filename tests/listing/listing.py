"""Runs the program `listing` and compares every byte that it writes. Usage: listing.py LISTING ORACLE FAILS EXAMPLES

The second planner, ORACLE, gives the listings of the long journals, the library FAILS is tests/fails.c, and the folder EXAMPLES has journals with
their listings. The moves in these listings are carried out on pages, one after the other, to see that each goes onto free ones, beside a line that
says whom an admit grants. A check that fails prints its name and the first difference. The last line is 'N passed, M failed'.
"""

import concurrent.futures
import errno
import os
import pathlib
import random
import re
import subprocess
import sys
import tempfile

from programs import REASONS, Program, admit, check, check_streams, conclude, ends_with, equal, failing, grant, grant_pages, growth, join, release
from programs import why, withdrawal

LISTING, ORACLE, FAILS, EXAMPLES = (os.path.abspath(path) for path in sys.argv[1:])
PROGRAM = Program(LISTING, b"usage: listing [FILE]\nlisting --help says more.\n")
HELP = b"""usage: listing [FILE]
Lists the journal in FILE, or on standard input if there is no FILE or it is -.
A FILE whose name begins with - comes after --. Each record is a line:

    ordinal kind who size answer node moves move...

ordinal  the place of the record in the journal, from 1
kind     O open, G grant by level, P grant by pages, R release, Z growth,
         W join, A admit, X withdrawal
who      the tenant; for O the height; for A who was admitted, or - for nobody
size     the level, for P the pages; - for O, R, A and X
answer   0 if the call was accepted, or else the number of its refusal
node     the node of the tenant, for R the one given up; 0 if nobody was
         admitted; - for O, W, X and a refused call
moves    how many other tenants are moved
move     tenant:old>new, or tenant:old=new if the tenant is staged: its pages
         wait outside the reserve while the others move

A journal that cannot be listed to its end has a last line

    ! offset number

with the offset of the first record that is not listed and the number of the
refusal; standard error then says why. docs/MANUAL.md has all this with examples,
and what each refusal means.
"""
BLOCK = 65536  # bytes that the program writes at once, at most
PLACES = 64  # in a line
MOST_PASSES = 8  # of one that waits


# Journals


def longest_listing():
    """Grants that move three tenants and releases that move four, in turn, as far as a journal goes: those of the example most-moves, at height
    12 and with tenants of four digits."""
    first, second = 4091, 4090
    journal = bytes([1, 12])
    for tenant, level in (4095, 3), (4093, 2), (4094, 2), (first, 1), (4092, 0):
        journal += grant(tenant, level)
    while len(journal) + 7 <= 65536:
        journal += grant(second, 1) + release(first)
        first, second = second, first
    return journal


def most_moved():
    """Growths that move seven others, and back, at height 12 and with tenants of four digits: the longest lines that there are."""
    journal = bytes([1, 12])
    tenant = 4095
    for level, count in enumerate((3, 3, 3, 1, 3, 1, 1, 2)):
        for _ in range(count):
            journal += grant(tenant, level)
            tenant -= 1
    for tenant in 4090, 4091, 4092:
        journal += growth(tenant, 5) + growth(tenant, 5) + growth(tenant, 1)
    return journal


def drawn():
    """Calls of all kinds at height 12, drawn at random."""
    draw = random.Random(1)
    journal = bytes([1, 12])
    while len(journal) < 30000:
        tenant = draw.randrange(1000, 1200)
        kind = draw.randrange(10)
        if kind < 2:
            journal += release(tenant)
        elif kind < 4:
            journal += grant(tenant, draw.randrange(9))
        elif kind < 5:
            journal += grant_pages(tenant, draw.randrange(300))
        elif kind < 7:
            journal += growth(tenant, draw.randrange(9))
        elif kind < 9:
            journal += admit()
        else:
            journal += draw.choice((join(tenant, draw.randrange(13)), withdrawal(tenant)))
    return journal


def passed_over():
    """Tenants that wait on a full reserve of height 6, 65 of them so that the last finds no place, for more and less than others leave. Whoever leaves
    makes room for the first from the front that fits; the oldest that waits for the whole reserve gives up now and then, after it has barred others."""
    draw = random.Random(2)
    levels = [draw.choice((0, 0, 1, 2, 6)) for _ in range(PLACES + 1)]
    large = [100 + place for place, level in enumerate(levels) if level == 6]
    journal = bytes([1, 6]) + b"".join(grant(tenant, 0) for tenant in range(64))
    journal += b"".join(join(100 + place, level) for place, level in enumerate(levels))
    for tenant in range(64):
        journal += release(tenant) + admit() + grant(200 + tenant, 0) + grant(100 + tenant, 0) + admit()
        if tenant % 8 == 7:
            journal += withdrawal(large.pop(0)) + admit()
    return journal


def edges():
    """Journals at the edges of their length, with the lines of each listing: 65,536 bytes are an open, a grant by pages and releases of a tenant that
    holds nothing; one byte more is too long, whatever it is and whatever comes first."""
    releases = 21843
    journal = bytes([1, 0]) + grant_pages(0, 0) + release(7) * releases
    lines = ["1 O 0 - 0 - 0", "2 P 0 0 0 1 0"] + [f"{i + 3} R 7 - 9 - 0" for i in range(releases)]
    assert len(journal) == 65536
    yield "the longest journal", journal, lines
    yield "the longest journal, cut off", journal[:-3] + bytes([3, 0, 0]), lines[:-1] + ["! 65533 13"]
    yield "a byte too many", journal + b"\x00", ["! 0 16"]
    yield "a byte too many, and no open", b"\x00" + journal, ["! 0 16"]
    yield "far too many bytes", journal * 3, ["! 0 16"]
    admits = 65534
    lines = ["1 O 12 - 0 - 0"] + [f"{i + 2} A - - 0 0 0" for i in range(admits)]
    yield "as many records as there can be", bytes([1, 12]) + admit() * admits, lines


def full_line():
    """A reserve of single pages and a line with as many tenants as it has places, with the lines of the listing: one more finds no place, all are
    admitted from the oldest on, and then nobody is. Then all come again and withdraw."""
    journal, lines = bytes([1, 6]), ["1 O 6 - 0 - 0"]

    def enter(record, line):
        nonlocal journal
        journal += record
        lines.append(f"{len(lines) + 1} {line}")

    tenants = [4095 - place for place in range(PLACES)]
    for tenant in tenants:
        enter(join(tenant, 0), f"W {tenant} 0 0 - 0")
    enter(join(7, 0), "W 7 0 17 - 0")
    enter(join(4095, 1), "W 4095 1 18 - 0")
    enter(grant(4095, 1), "G 4095 1 18 - 0")
    for place, tenant in enumerate(tenants):
        enter(admit(), f"A {tenant} - 0 {64 + place} 0")
    enter(admit(), "A - - 0 0 0")
    enter(join(4095, 0), "W 4095 0 8 - 0")
    for place in range(PLACES):
        enter(join(place, 6), f"W {place} 6 0 - 0")
    for place in reversed(range(PLACES)):
        enter(withdrawal(place), f"X {place} - 0 - 0")
    enter(withdrawal(0), "X 0 - 9 - 0")
    enter(withdrawal(4096), "X 4096 - 4 - 0")
    enter(join(4096, 0), "W 4096 0 4 - 0")
    enter(join(0, 7), "W 0 7 5 - 0")
    return journal, lines


def sizes():
    """For each height a journal that asks an empty reserve for pages at and beside their bounds, with the lines of its listing: a named size gets the
    smallest block that has a page more, and 6 from 2^h on; pages 0 gets 16 pages, or the whole reserve."""
    for height in range(13):
        journal = bytes([1, height])
        lines = [f"1 O {height} - 0 - 0"]
        for pages in 0, 1, 2**height - 2, 2**height - 1, 2**height, 2**height + 1, 65535:
            if pages < 0:
                continue
            journal += grant_pages(7, pages) + release(7)
            level = next(level for level in range(17) if 2**level >= pages + 1) if pages > 0 else min(4, height)
            granted, released = ("6 - 0", "9 - 0") if pages >= 2**height else (f"0 {2 ** (height - level)} 0",) * 2
            lines += [f"{len(lines) + 1} P 7 {pages} {granted}", f"{len(lines) + 2} R 7 - {released}"]
        yield f"sizes at height {height}", journal, lines


def listed_by_oracle(*journals):
    def listed(journal):
        return subprocess.run([ORACLE, "list"], input=journal, stdout=subprocess.PIPE, check=True).stdout

    with concurrent.futures.ThreadPoolExecutor() as at_once:
        return list(at_once.map(listed, journals))


# Carrying out the moves in a listing


class Pages:
    """The pages of a reserve, each with the tenant that lies on it."""

    def __init__(self, height):
        self.height = height
        self.tenants = [None] * 2**height

    def covered_by(self, node):
        level = self.height + 1 - int(node).bit_length()
        first = (int(node) << level) - 2**self.height
        return slice(first, first + 2**level)

    def replace(self, node, old, new):
        covered = self.covered_by(node)
        lying = self.tenants[covered]
        assert set(lying) == {old}, f"on node {node} there should be {old}, and there is {lying}"
        self.tenants[covered] = [new] * len(lying)

    def leave(self, tenant, node):
        self.replace(node, tenant, None)

    def lift(self, tenant):
        assert tenant in self.tenants, f"{tenant} lies nowhere"
        self.tenants = [None if lying == tenant else lying for lying in self.tenants]

    def enter(self, tenant, node):
        self.replace(node, None, tenant)

    def keep(self, tenant, node):
        before = self.tenants
        self.lift(tenant)
        self.enter(tenant, node)
        assert self.tenants == before, f"{tenant} should lie on node {node} already"


class Line:
    """Those who wait, the oldest first: tenant, level, and how many grants have passed it."""

    def __init__(self):
        self.waiting = []

    def join(self, tenant, level):
        assert len(self.waiting) < PLACES and self.place_of(tenant) is None, f"{tenant} should not join {self.waiting}"
        self.waiting.append([tenant, level, 0])

    def place_of(self, tenant):
        return next((place for place, (waiting, _, _) in enumerate(self.waiting) if waiting == tenant), None)

    def leave(self, tenant):
        place = self.place_of(tenant)
        assert place is not None, f"{tenant} does not wait"
        del self.waiting[place]
        return place

    def first_to_admit(self, room):
        """The tenant that an admit grants, or none."""
        for tenant, level, passed in self.waiting:
            if 2**level <= room:
                return tenant
            if passed == MOST_PASSES:
                break
        return None

    def pass_first(self, number):
        """A grant passes the oldest so many."""
        for one in self.waiting[:number]:
            one[2] += 1
            assert one[2] <= MOST_PASSES, f"{one[0]} is passed too often"


def work(pages, moves):
    """Lifts the staged tenants, then sets down everybody in the order of the list, in which they come last."""
    moves = [re.fullmatch(r"(\d+):(\d+)([>=])(\d+)", move).groups() for move in moves]
    assert "=>" not in "".join(sign for _, _, sign, _ in moves), f"a staged move before a direct one: {moves}"
    for tenant, old, sign, _ in moves:
        if sign == "=":
            pages.leave(tenant, old)
    for tenant, old, sign, new in moves:
        pages.enter(tenant, new)
        if sign == ">":
            pages.leave(tenant, old)


def carry_out_grant(pages, line, who, node, moves):
    """A grant that is repeated moves nobody, and passes nobody."""
    if who in pages.tenants:
        assert not moves, f"a grant that is repeated moves {moves}"
        pages.keep(who, node)
        return
    assert line.place_of(who) is None, f"{who} waits"
    line.pass_first(len(line.waiting))
    work(pages, moves)
    pages.enter(who, node)


def carry_out_admit(pages, line, who, node, moves):
    tenant = line.first_to_admit(pages.tenants.count(None))
    assert who == (tenant or "-"), f"{who} is admitted, and should be {tenant}"
    if tenant is None:
        assert node == "0" and not moves, f"nobody gets node {node}, with {moves}"
        return
    line.pass_first(line.leave(tenant))
    work(pages, moves)
    pages.enter(tenant, node)


def carry_out_call(pages, line, kind, who, size, node, moves):
    """Carries out an accepted call."""
    if kind == "A":
        carry_out_admit(pages, line, who, node, moves)
    elif kind == "W":
        assert node == "-" and who not in pages.tenants, f"{who} joins, and gets node {node}"
        line.join(who, int(size))
    elif kind == "X":
        assert node == "-", f"{who} withdraws, and gets node {node}"
        line.leave(who)
    elif kind == "R":
        pages.leave(who, node)
        work(pages, moves)
    elif kind == "Z":
        pages.lift(who)
        work(pages, moves)
        pages.enter(who, node)
    else:
        carry_out_grant(pages, line, who, node, moves)


def carry_out(lines):
    """Carries out the accepted calls of a listing; raises where a page that is written is not free, or another should be admitted."""
    pages = line = None
    for text in lines:
        if text.startswith("!"):
            break
        _, kind, who, size, answer, node, count, *moves = text.split(" ")
        assert len(moves) == int(count), text
        if kind == "O":
            pages, line = Pages(int(who)), Line()
        elif answer == "0":
            carry_out_call(pages, line, kind, who, size, node, moves)


# Checks


explained = set()  # the refusals that were


def explanation(listing, thing):
    """What is said of a listing that ends with a refusal."""
    _, last, refusal = listing.rpartition(b"! ")
    if not last:
        return b""
    offset, number = map(int, refusal.split(b" "))
    explained.add(number)
    return f"listing: {thing}: {why(number, offset)}\n".encode()


def check_listed(name, folder, journal, listing):
    path = folder / "a journal"
    path.write_bytes(journal)
    with check(f"{name}, on standard input"), path.open("rb") as file:
        ends_with(PROGRAM.start(stdin=file), listing, explanation(listing, "standard input"))
    with check(f"{name}, in a file"):
        ends_with(PROGRAM.start(str(path)), listing, explanation(listing, path))


def text(lines):
    return "".join(line + "\n" for line in lines).encode()


def check_carried_out(name, listing):
    with check(f"{name}, its moves carried out"):
        carry_out(listing.decode().splitlines())


def check_carrying_out():
    """Of these lists for one grant, for one that is repeated, for one growth, and then for a line, only the right ones can be carried out."""
    granted = "1 O 2 - 0 - 0", "2 G 0 1 0 2 0", "3 G 1 0 0 6 0"
    single = "1 O 2 - 0 - 0", "2 G 0 0 0 4 0", "3 G 1 0 0 5 0", "4 G 2 0 0 6 0"
    waiting = "1 O 2 - 0 - 0", "2 G 0 1 0 2 0", "3 W 1 2 0 - 0", "4 W 2 0 0 - 0"
    passing = "5 G 3 1 0 3 0", "6 R 3 - 0 3 0"
    passed_7, passed_8 = (waiting + passing * times for times in (7, 8))
    for before, line, right in (
        (granted, "4 G 2 0 0 5 2 0:2>3 1:6=4", True),
        (granted, "4 G 2 0 0 5 2 0:2>3 1:6>4", False),
        (granted, "4 G 2 0 0 5 2 1:6>4 0:2>3", False),
        (granted, "4 G 2 0 0 5 2 1:6=4 0:2>3", False),
        (granted, "4 G 0 1 0 2 0", True),
        (granted, "4 G 0 1 0 3 0", False),
        (granted, "4 P 0 0 0 4 0", False),
        (granted, "4 P 0 1 0 1 0", False),
        (granted, "4 G 0 1 0 2 1 1:6>7", False),
        (single, "5 Z 0 1 0 3 1 2:6>4", True),
        (single, "5 Z 0 1 0 3 0", False),
        (single, "5 Z 0 1 0 3 2 0:4>3 2:6>4", False),
        (single, "5 Z 1 1 0 3 1 2:6>4", False),
        (single, "5 Z 3 1 0 3 1 2:6>4", False),
        (waiting, "5 A 2 - 0 6 0", True),
        (waiting, "5 A 1 - 0 1 0", False),
        (waiting, "5 A - - 0 0 0", False),
        (waiting, "5 A 2 - 0 0 0", False),
        (waiting, "5 A 2 - 0 4 0", False),
        (waiting, "5 X 2 - 0 - 0", True),
        (waiting, "5 X 0 - 0 - 0", False),
        (waiting, "5 W 0 0 0 - 0", False),
        (waiting, "5 W 2 1 0 - 0", False),
        (waiting, "5 G 2 0 0 6 0", False),
        (waiting, "5 G 3 0 0 6 0", True),
        (passed_7, "19 G 3 0 0 6 0", True),
        (passed_7, "19 A 2 - 0 6 0", True),
        (passed_8, "21 G 3 0 0 6 0", False),
        (passed_8, "21 G 0 1 0 2 0", True),
        (passed_8, "21 A 2 - 0 6 0", False),
        (passed_8, "21 A - - 0 0 0", True),
    ):
        with check(f"{line} {'carried out' if right else 'found'}"):
            try:
                carry_out([*before, line])
                carried_out = True
            except AssertionError:
                carried_out = False
            assert carried_out == right


def check_growths(folder, journal, listing):
    with check("growths that move seven others"):
        moved = [line.split(" ")[6] for line in listing.decode().splitlines() if line.split(" ")[1] == "Z"]
        assert "7" in moved, moved
    check_listed("growths that move seven others", folder, journal, listing)
    check_carried_out("growths that move seven others", listing)


def check_lines(folder, journal, listing, full_by_oracle):
    with check("tenants that are passed over, with all answers that a line gives"):
        given = {(kind, answer, node == "0") for _, kind, _, _, answer, node, *_ in (line.split(" ") for line in listing.decode().splitlines())}
        wanted = {("A", "0", False), ("A", "0", True), ("G", "10", False), ("G", "18", False), ("W", "17", False), ("X", "0", False)}
        assert wanted <= given, wanted - given
    check_listed("tenants that are passed over", folder, journal, listing)
    check_carried_out("tenants that are passed over", listing)
    full, lines = full_line()
    check_listed("a full line", folder, full, text(lines))
    check_carried_out("a full line", text(lines))
    with check("a full line, by the second planner"):
        equal("its listing", full_by_oracle, text(lines))


def check_listings(folder, long_journal, long_listing, drawn_journal, drawn_listing):
    for path in sorted(pathlib.Path(EXAMPLES).glob("*.journal")):
        listing = path.with_suffix(".listing").read_bytes()
        check_listed(path.name, folder, path.read_bytes(), listing)
        if b":" in listing:
            check_carried_out(path.name, listing)
    for name, journal, lines in edges():
        check_listed(name, folder, journal, text(lines))
    asked = list(sizes())
    for (name, journal, lines), by_oracle in zip(asked, listed_by_oracle(*(journal for _, journal, _ in asked))):
        check_listed(name, folder, journal, text(lines))
        with check(f"{name}, by the second planner"):
            equal("its listing", by_oracle, text(lines))
    check_listed("a journal drawn at random", folder, drawn_journal, drawn_listing)
    check_carried_out("a journal drawn at random", drawn_listing)
    with check("the longest listing has as many bytes as listings get"):
        assert len(long_listing) > 21 * BLOCK, len(long_listing)
    check_listed("the longest listing", folder, long_journal, long_listing)
    check_carried_out("the longest listing", long_listing)


def check_explained():
    """A refusal that ends a listing is explained once the listing is written, and not if it is not."""
    with check("every refusal that ends a listing is explained"):
        assert explained == set(REASONS), explained
    path = os.path.join(EXAMPLES, "open-again.journal")
    listing = pathlib.Path(path).with_suffix(".listing").read_bytes()
    with check("a refusal, from a device that is full"), open("/dev/full", "wb") as full:
        ends_with(PROGRAM.start(path, stdout=full), b"", PROGRAM.cannot("write", "standard output", "No space left on device"))
    with check("a refusal, and a failure that is told at last of a file"), tempfile.TemporaryFile() as out:
        running = PROGRAM.start(path, stdout=out, **failing("fsync", FAILS, errno.EDQUOT))
        ends_with(running, b"", PROGRAM.cannot("write", "standard output", "Disk quota exceeded"))
        out.seek(0)
        equal("the file", out.read(), listing)
    with check("a refusal, with a failing close"):
        ends_with(PROGRAM.start(path, **failing("close", FAILS)), listing, explanation(listing, path))


def check_arguments(folder):
    """Every file lists as another journal, so that it shows which one was taken."""
    journals = {name: bytes([1, height]) for height, name in enumerate(("a", "-x", "--", "-", "--help", "standard input"))}
    listings = {name: f"1 O {journal[1]} - 0 - 0\n".encode() for name, journal in journals.items()}
    for name, journal in journals.items():
        (folder / name).write_bytes(journal)

    def check_run(arguments, out, error=b""):
        with check(f"the arguments {arguments}"), (folder / "standard input").open("rb") as file:
            ends_with(PROGRAM.start(*arguments, cwd=folder, stdin=file), out, error)

    for arguments, name in (
        ((), "standard input"),
        (("-",), "standard input"),
        (("--",), "standard input"),
        (("--", "-"), "standard input"),
        (("-", "--"), "standard input"),
        (("./-",), "-"),
        (("--", "./-"), "-"),
        (("./-x",), "-x"),
        (("--", "-x"), "-x"),
        (("--", "--"), "--"),
        (("--", "--help"), "--help"),
        (("--", "a"), "a"),
        (("a", "--"), "a"),
    ):
        check_run(arguments, listings[name])
    for arguments in ("",), ("a",), ("a", "b", "c"), ("-",), ("-", "-x"), ("--",), ("-x",), ("--help",):
        check_run(("--help", *arguments), HELP)
    for arguments in ("a",), ("a", "b"), ("-",), ("", ""):
        check_run((*arguments, "--help"), HELP)
    for arguments, option in (
        (("-x",), "-x"),
        (("-x", "a"), "-x"),
        (("a", "-x"), "-x"),
        (("a", "b", "-x"), "-x"),
        (("-", "-x"), "-x"),
        (("-y", "-x"), "-y"),
        (("-x", "--help"), "-x"),
        (("-x", "--"), "-x"),
        (("-h",), "-h"),
        (("--hel",), "--hel"),
        (("--helps",), "--helps"),
        (("--help ",), "--help "),
        (("--help=a",), "--help=a"),
        (("---",), "---"),
        (("-- ",), "-- "),
        (("-" + "x" * 5000,), "-" + "x" * 4095),
    ):
        check_run(arguments, b"", PROGRAM.objects("unknown option", option))
    for arguments, surplus in (
        (("a", "b"), "b"),
        (("a", "b", "c"), "b"),
        (("a", "-"), "-"),
        (("-", "-"), "-"),
        (("a", ""), ""),
        (("a", "--", "b"), "b"),
        (("a", "--", "-x"), "-x"),
        (("a", "--", "--"), "--"),
        (("a", "b", "--"), "b"),
        (("--", "a", "b"), "b"),
        (("--", "a", "--"), "--"),
        (("--", "--", "a"), "a"),
        (("--", "-x", "--help"), "--help"),
        (("a", "x" * 5000), "x" * 4096),
    ):
        check_run(arguments, b"", PROGRAM.objects("unexpected argument", surplus))
    with check("standard input closed beside a file"):
        ends_with(PROGRAM.start("a", cwd=folder, preexec_fn=lambda: os.close(0)), listings["a"], b"")


def main():
    long_journal, drawn_journal, growths, over = longest_listing(), drawn(), most_moved(), passed_over()
    full, _ = full_line()
    long_listing, drawn_listing, growth_listing, *line_listings = listed_by_oracle(long_journal, drawn_journal, growths, over, full)
    with tempfile.TemporaryDirectory() as name:
        folder = pathlib.Path(name)
        check_carrying_out()
        check_listings(folder, long_journal, long_listing, drawn_journal, drawn_listing)
        check_growths(folder, growths, growth_listing)
        check_lines(folder, over, *line_listings)
        check_explained()
        check_arguments(folder)
        # Where writing fails: inside a block, at its end, and beside it.
        places = 0, 1, 1000, BLOCK - 1, BLOCK, BLOCK + 1, 6 * BLOCK + 777, 7 * BLOCK + 1, len(long_listing) - 1
        check_streams(PROGRAM, folder, long_journal, long_listing, FAILS, places, 7 * BLOCK + 1)
    conclude()


main()
