"""Runs the program `convert_pages` and compares what it says and all files that it leaves. Usage: convert.py CONVERT_PAGES ORACLE FAILS EXAMPLES

The second planner, ORACLE, gives the conversions, the library FAILS is tests/fails.c, and the folder EXAMPLES has journals. Each run has a folder of
its own, in which nothing else may be made, changed or removed. A check that fails prints its name and the first difference. The last line is
'N passed, M failed'.
"""

import enum
import errno
import os
import pathlib
import random
import re
import stat
import subprocess
import sys
import tempfile

from programs import MOST_INTERRUPTIONS, NO_TEXT, NO_TEXT_REASON, Program, admit, check, check_streams, conclude, ends_with, failing, feed, grant
from programs import grant_pages, growth, interrupted, join, limited, release, sockets, why, withdrawal

CONVERT_PAGES, ORACLE, FAILS, EXAMPLES = (os.path.abspath(path) for path in sys.argv[1:])
PROGRAM = Program(CONVERT_PAGES, b"usage: convert_pages [OLD [NEW]]\nconvert_pages --help says more.\n")
HELP = b"""usage: convert_pages [OLD [NEW]]
Converts the journal in OLD into NEW: each grant of 0 pages becomes a grant of
level 0, and every other record is copied. It is for journals from before
version 4.0 of the header, in which 0 pages meant one page; now they mean 16.
Without OLD, or if it is -, it reads standard input; without NEW, or if it is -,
it writes to standard output. A name that begins with - comes after --.
The whole journal is converted, or nothing. NEW is written as NEW.part, which
takes the name NEW when all of it is on the disk. A NEW.part that is there
before is left as it is, and nothing is converted: remove it if no conversion is
at work. "Old journals" in docs/MANUAL.md has the rest.
"""


class Special(enum.Enum):
    """What has no bytes, among files; a text stands for a link to that name."""

    FOLDER = stat.S_IFDIR
    FIFO = stat.S_IFIFO
    SOCKET = stat.S_IFSOCK
    DEVICE = stat.S_IFCHR


FOLDER = Special.FOLDER
NULL = os.makedev(1, 3)  # the device of /dev/null
NOBODY = 65534


# Journals

# Calls that stay as they are, of all kinds, between two that do not.
KEPT = grant(1, 1) + growth(1, 0) + grant_pages(2, 1) + join(3, 0) + admit() + join(4, 5) + withdrawal(4) + release(7)
OLD = bytes([1, 5]) + grant_pages(7, 0) + KEPT + grant_pages(4095, 0)
NEW = bytes([1, 5]) + grant(7, 0) + KEPT + grant(4095, 0)

# Journals that are refused, each with number and offset. Lines that only tell of a refused call are no reason.
REFUSED = (
    ("empty", b"", 11, 0),
    ("without an open", OLD[2:], 11, 0),
    ("of height 13", b"\x01\x0d" + OLD[2:], 1, 0),
    ("of height 255", b"\x01\xff" + OLD[2:], 1, 0),
    ("with an unknown kind", OLD + b"\xc8", 12, len(OLD)),
    ("cut off", OLD[:-1], 13, len(OLD) - 5),
    ("cut off in a growth", OLD + growth(1, 2)[:-1], 13, len(OLD)),
    ("cut off in a join", OLD + join(1, 2)[:-1], 13, len(OLD)),
    ("cut off in a withdrawal", OLD + withdrawal(1)[:-1], 13, len(OLD)),
    ("with a second open", OLD + b"\x01\x05", 14, len(OLD)),
    ("too long by a byte", b"\x01\x00" + release(7) * 21845, 16, 0),
    ("far too long", b"\x01\x00" + grant_pages(7, 0) * 40000, 16, 0),
)


def drawn(length):
    """Calls of all kinds at height 12 up to a length, drawn at random, with 0 pages in many of the grants."""
    draw = random.Random(length)
    journal = bytes([1, 12])
    while len(journal) + 5 <= length:
        tenant = draw.choice((draw.randrange(1000, 1200), draw.randrange(65536)))
        level = draw.randrange(14)
        pages = draw.randrange(300)
        of_holders = release(tenant), grant(tenant, level), growth(tenant, level)
        of_line = join(tenant, level), admit(), withdrawal(tenant)
        journal += draw.choice((*of_holders, *of_line, grant_pages(tenant, 0), grant_pages(tenant, pages)))
    return journal


def by_oracle(journal):
    """The conversion of a journal by the second planner, and number and offset of the refusal if there is none."""
    done = subprocess.run([ORACLE, "convert"], input=journal, stdout=subprocess.PIPE, stderr=subprocess.PIPE)
    refusal = re.fullmatch(rb"refusal (\d+) at offset (\d+)\n", done.stderr)
    return done.stdout, refusal and tuple(map(int, refusal.groups()))


def refused(thing, number, offset):
    return PROGRAM.cannot("convert", thing, why(number, offset))


# Files


def fill(folder, files):
    for name, what in files.items():
        path = folder / name
        if what is FOLDER:
            path.mkdir()
        elif isinstance(what, Special):
            os.mknod(path, what.value | 0o600, NULL)
        elif isinstance(what, str):
            path.symlink_to(what)
        else:
            path.write_bytes(what)


def contents(folder):
    """Everything below a folder, as it was given to `fill`."""

    def what_is(path):
        kind = stat.S_IFMT(path.lstat().st_mode)
        if kind == stat.S_IFLNK:
            return os.readlink(path)
        return path.read_bytes() if kind == stat.S_IFREG else Special(kind)

    return {str(path.relative_to(folder)): what_is(path) for path in sorted(folder.rglob("*"))}


def told(files):
    shorten = lambda what: what.name.lower() if isinstance(what, Special) else what if len(what) < 80 else f"{len(what)} bytes"
    return {name: shorten(what) for name, what in files.items()}


def check_files(name, arguments, before, after, error=b"", out=b"", run=ends_with, **how):
    """Runs the program in a folder with some files, and compares all that it says and all that is there after it."""
    with check(name), tempfile.TemporaryDirectory() as path:
        folder = pathlib.Path(path)
        fill(folder, before)
        run(PROGRAM.start(*arguments, cwd=folder, **how), out, error)
        found = contents(folder)
        assert found == after, f"there is {told(found)}, and there should be {told(after)}"


def check_unchanged(name, arguments, files, error, **how):
    """The same for a run after which all is as it was."""
    check_files(name, arguments, files, files, error, **how)


def cannot_write(thing, reason):
    return PROGRAM.cannot("write", thing, reason)


# Checks


def check_converted():
    """A whole new file, whatever was there under its name."""
    check_files("a new file", ("old", "new"), {"old": OLD}, {"old": OLD, "new": NEW})
    check_files("a file that was there", ("old", "new"), {"old": OLD, "new": OLD * 3}, {"old": OLD, "new": NEW})
    check_files("a file onto itself", ("journal", "journal"), {"journal": OLD}, {"journal": NEW})
    check_files("a file onto itself by another name", ("journal", "./journal"), {"journal": OLD}, {"journal": NEW})
    files = {"old": OLD, "sub": FOLDER}
    check_files("a file in a folder", ("old", "sub/new"), files, {**files, "sub/new": NEW})
    check_files("files whose names are -", ("./-", "./-"), {"-": OLD}, {"-": NEW})
    check_files("a name that may just be as long", ("old", "n" * 250), {"old": OLD}, {"old": OLD, "n" * 250: NEW})
    for mask, mode in (0, 0o666), (0o022, 0o644), (0o027, 0o640), (0o077, 0o600):
        with check(f"the mode of a new file under mask {mask:03o}"), tempfile.TemporaryDirectory() as path:
            folder = pathlib.Path(path)
            fill(folder, {"old": OLD})
            ends_with(PROGRAM.start("old", "new", cwd=folder, umask=mask), b"", b"")
            found = (folder / "new").stat().st_mode & 0o7777
            assert found == mode, f"it is {found:03o} and should be {mode:03o}"


def check_standard_streams():
    with tempfile.TemporaryFile() as file:
        file.write(OLD)

        def rewound():
            file.seek(0)
            return file

        for arguments in (), ("-",), ("-", "-"):
            check_files(f"standard input to standard output, {len(arguments)} arguments", arguments, {}, {}, out=NEW, stdin=rewound())
        check_files("standard input to a file", ("-", "new"), {}, {"new": NEW}, stdin=rewound())
    check_files("a file to standard output", ("old",), {"old": OLD}, {"old": OLD}, out=NEW)
    check_files("a file to standard output, by name", ("old", "-"), {"old": OLD}, {"old": OLD}, out=NEW)
    both = {"old": OLD, "new": NEW}
    check_files("standard input closed beside files", ("old", "new"), {"old": OLD}, both, preexec_fn=lambda: os.close(0))
    check_files("standard output closed beside files", ("old", "new"), {"old": OLD}, both, preexec_fn=lambda: os.close(1))
    with open("/dev/full", "wb") as full:
        check_files("standard output full beside files", ("old", "new"), {"old": OLD}, both, stdout=full)


def check_long_journals():
    longest = drawn(65536)
    longest += release(7) * ((65536 - len(longest)) // 3)
    for name, journal in (
        ("a journal drawn at random", drawn(20000)),
        ("a long journal drawn at random", longest),
        ("as many bytes as there may be", bytes([1, 0]) + grant_pages(0, 0) + release(7) * 21843),
        ("as many records as there can be", bytes([1, 0]) + admit() * 65534),
        ("a conversion as long as its journal", bytes([1, 0]) + grant_pages(0, 1) + release(7) * 21843),
    ):
        converted, _ = by_oracle(journal)
        with check(f"{name}, by the second planner"):
            assert len(converted) > 10000, len(converted)
        check_files(f"{name}, in files", ("old", "new"), {"old": journal}, {"old": journal, "new": converted})
        check_files(f"{name}, to standard output", ("old",), {"old": journal}, {"old": journal}, out=converted)
        check_files(f"{name}, once more", ("new", "again"), {"new": converted}, {"new": converted, "again": converted})


def check_examples():
    with check("the example in the manual"):
        old, new = (pathlib.Path(EXAMPLES, name).read_bytes() for name in ("old.journal", "old-converted.journal"))
        ends_with(PROGRAM.start(os.path.join(EXAMPLES, "old.journal")), new, b"")
        assert grant_pages(7, 0) in old and grant(7, 0) in new
    for path in sorted(pathlib.Path(EXAMPLES).glob("*.journal")):
        journal = path.read_bytes()
        converted, refusal = by_oracle(journal)
        if refusal:
            check_unchanged(path.name, ("old", "new"), {"old": journal}, refused("old", *refusal))
        else:
            check_files(path.name, ("old", "new"), {"old": journal}, {"old": journal, "new": converted})


def check_refused():
    """Not one byte is written, and no file is made or changed."""
    for name, journal, number, offset in REFUSED:
        error = refused("old", number, offset)
        with check(f"a journal {name}, by the second planner"):
            assert by_oracle(journal) == (b"", (number, offset)), by_oracle(journal)
        check_unchanged(f"a journal {name}", ("old",), {"old": journal}, error)
        check_unchanged(f"a journal {name}, with a new file", ("old", "new"), {"old": journal}, error)
        check_unchanged(f"a journal {name}, over a file", ("old", "new"), {"old": journal, "new": NEW}, error)
        check_unchanged(f"a journal {name}, over itself", ("old", "old"), {"old": journal}, error)
        with tempfile.TemporaryFile() as file:
            file.write(journal)
            file.seek(0)
            error = refused("standard input", number, offset)
            check_unchanged(f"a journal {name}, on standard input", ("-", "new"), {"new": NEW}, error, stdin=file)
    error = refused("old", 11, 0)
    check_unchanged("a refused journal beside a part", ("old", "new"), {"old": b"", "new.part": OLD}, error)
    check_unchanged("a refused journal for a missing folder", ("old", "missing/new"), {"old": b""}, error)


def check_parts():
    """A file that somebody else has made under the name of the part is left alone."""
    error = cannot_write("new.part", "File exists")
    for name, part in ("file", b"somebody else's"), ("folder", FOLDER), ("link to nothing", "nowhere"), ("link to the old file", "old"):
        check_unchanged(f"a {name} as part", ("old", "new"), {"old": OLD, "new.part": part}, error)
        check_unchanged(f"a {name} as part, with a file that was there", ("old", "new"), {"old": OLD, "new": b"", "new.part": part}, error)
    check_unchanged("a part of itself", ("journal", "journal"), {"journal": OLD, "journal.part": OLD}, cannot_write("journal.part", "File exists"))


def check_no_file():
    """New files that cannot be made, or not under their name: all is as it was, and no part stays."""
    old = {"old": OLD}
    for name, new, files, thing, reason in (
        ("a folder", "new", {"new": FOLDER}, "new", "Is a directory"),
        ("a folder with a file", "new", {"new": FOLDER, "new/file": b"x"}, "new", "Is a directory"),
        ("a folder, by its name with a slash", "new/", {"new": FOLDER}, "new/", "Not a directory"),
        ("a link to a folder, by its name with a slash", "new/", {"new": "sub", "sub": FOLDER}, "new/", "Not a directory"),
        ("a name with no bytes", "", {}, "", "No such file or directory"),
        ("a file in a missing folder", "missing/new", {}, "missing/new.part", "No such file or directory"),
        ("a file in what is no folder", "old/new", {}, "old/new.part", "Not a directory"),
        ("a name that is too long", "n" * 251, {}, "n" * 251 + ".part", "File name too long"),
        ("a name that is no text in UTF-8", NO_TEXT, {}, NO_TEXT + ".part", NO_TEXT_REASON),
        ("a name that is no text in UTF-8, of a file that is there", NO_TEXT, {NO_TEXT: NEW}, NO_TEXT + ".part", NO_TEXT_REASON),
    ):
        check_unchanged(f"{name} as new file", ("old", new), {**old, **files}, cannot_write(thing, reason))


def check_links():
    """A link in the place of the new file: it stays, and what it stands for is as it was. No part is made."""
    reason = "it is a symbolic link"
    check_unchanged("a link to the old file, onto itself", ("link", "link"), {"old": OLD, "link": "old"}, cannot_write("link", reason))
    for name, files in (
        ("a link to the old file", {"new": "old"}),
        ("a link to another file", {"new": "file", "file": NEW}),
        ("a link to a link", {"new": "link", "link": "old"}),
        ("a link to itself", {"new": "new"}),
        ("a link to nothing", {"new": "nowhere"}),
        ("a link to a folder", {"new": "sub", "sub": FOLDER}),
        ("a link to /dev/null", {"new": "/dev/null"}),
        ("a link beside a part", {"new": "old", "new.part": b"somebody else's"}),
    ):
        check_unchanged(f"{name} as new file", ("old", "new"), {"old": OLD, **files}, cannot_write("new", reason))
    files = {"old": OLD, "new": "old", "sub": FOLDER, "sub/new": "../old", "by": "sub"}
    for name, new in ("in a folder", "sub/new"), ("in a linked folder", "by/new"), ("by as long a name as there can be", "./" * 2046 + "new"):
        check_unchanged(f"a link {name} as new file", ("old", new), files, cannot_write(new, reason))
    check_unchanged("a refused journal for a link", ("old", "new"), {"old": b"", "new": "old"}, refused("old", 11, 0))
    # only the last part of the name is looked at
    files = {"old": OLD, "sub": FOLDER, "by": "sub", "link": "old"}
    check_files("a file in a linked folder", ("old", "by/new"), files, {**files, "sub/new": NEW})
    check_files("a link as old file", ("link", "new"), files, {**files, "new": NEW})


def check_special_files():
    """The same for what is no regular file."""
    reason = "it is no regular file"
    for name, what in ("a FIFO", Special.FIFO), ("a socket", Special.SOCKET):
        check_unchanged(f"{name} as new file", ("old", "new"), {"old": OLD, "new": what}, cannot_write("new", reason))
    if may_make_devices():
        check_unchanged("a device as new file", ("old", "new"), {"old": OLD, "new": Special.DEVICE}, cannot_write("new", reason))
        return
    # by somebody who could not replace it
    how = {"user": NOBODY, "group": NOBODY, "extra_groups": []} if os.geteuid() == 0 else {}
    with tempfile.TemporaryFile() as file:
        file.write(OLD)
        file.seek(0)
        check_unchanged("/dev/null as new file", ("-", "/dev/null"), {}, cannot_write("/dev/null", reason), stdin=file, **how)


def may_make_devices():
    with tempfile.TemporaryDirectory() as path:
        try:
            fill(pathlib.Path(path), {"device": Special.DEVICE})
        except PermissionError:
            return False
        return True


def check_no_old_file():
    """Old files that cannot be read, or not to their end: no new file is made or changed."""
    for files in {}, {"new": NEW}:
        beside = f"{len(files)} files beside it"
        error = PROGRAM.cannot("read", "old", "No such file or directory")
        check_unchanged(f"a missing file, {beside}", ("old", "new"), files, error)
        error = PROGRAM.cannot("read", "old", "Is a directory")
        check_unchanged(f"a folder as old file, {beside}", ("old", "new"), {**files, "old": FOLDER}, error)
        ours, its = sockets()
        its.sendall(b"not read, which makes of our end a reset")

        def reset(running, out, error, ours=ours, its=its):
            feed(running, ours, its, OLD)
            ours.close()
            ends_with(running, out, error)

        error = PROGRAM.cannot("read", "standard input", "Connection reset by peer")
        check_unchanged(f"a read that fails half way, {beside}", ("-", "new"), files, error, run=reset, stdin=its)


def check_failing_calls():
    """Calls that fail after the part was made: it is removed again, and the new file is as it was."""
    journal = drawn(20000)
    converted, _ = by_oracle(journal)
    for files in {"old": journal}, {"old": journal, "new": NEW}, {"old": journal, "new": journal}:
        beside = f"{len(files.get('new', b''))} bytes there before"
        for size in 0, 1, 4096, len(converted) - 1:
            error = cannot_write("new.part", "File too large")
            check_unchanged(f"files that end at {size} bytes, {beside}", ("old", "new"), files, error, **limited(size))
        whole = {"old": journal, "new": converted}
        check_files(f"files that end where the conversion does, {beside}", ("old", "new"), files, whole, **limited(len(converted)))
        for call, thing, reason in ("fsync", "new.part", "Input/output error"), ("rename", "new", "Read-only file system"):
            check_unchanged(f"a failing {call}, {beside}", ("old", "new"), files, cannot_write(thing, reason), **failing(call, FAILS))
        error = cannot_write("new.part", "Disk quota exceeded")
        check_unchanged(f"a quota that is used up, {beside}", ("old", "new"), files, error, **failing("fsync", FAILS, errno.EDQUOT))
        # all is on the disk by then
        check_files(f"a failing close, {beside}", ("old", "new"), files, whole, **failing("close", FAILS))
        check_files(f"an fsync that is interrupted, {beside}", ("old", "new"), files, whole, **interrupted("fsync", FAILS, 10))
        for call, thing in ("read", "old"), ("write", "new.part"):
            most, more = (interrupted(call, FAILS, times) for times in (MOST_INTERRUPTIONS, MOST_INTERRUPTIONS + 1))
            check_files(f"a {call} that is interrupted often, {beside}", ("old", "new"), files, whole, **most)
            error = PROGRAM.cannot(call, thing, "Interrupted system call")
            check_unchanged(f"a {call} that is interrupted once more, {beside}", ("old", "new"), files, error, **more)
        check_files(f"no failing call, {beside}", ("old", "new"), files, whole, env={"LD_PRELOAD": FAILS})
    error = cannot_write("old", "Read-only file system")
    check_unchanged("a failing rename onto itself", ("old", "old"), {"old": OLD}, error, **failing("rename", FAILS))


def check_arguments():
    files = {"a": OLD, "b": b"", "-x": OLD, "--": OLD}
    for arguments in ("--help",), ("--help", "a"), ("--help", "a", "b", "c"), ("--help", "-x"), ("a", "--help"), ("a", "b", "c", "--help"):
        check_files(" ".join(arguments), arguments, files, files, out=HELP)
    for arguments, option in (
        (("-x",), "-x"),
        (("-x", "b"), "-x"),
        (("a", "-x"), "-x"),
        (("a", "b", "c", "-x"), "-x"),
        (("-x", "--help"), "-x"),
        (("-h",), "-h"),
        (("--help ",), "--help "),
    ):
        check_unchanged(" ".join(arguments), arguments, files, PROGRAM.objects("unknown option", option))
    for arguments, surplus in (
        (("a", "b", "c"), "c"),
        (("a", "b", "c", "d"), "c"),
        (("--", "a", "b", "-x"), "-x"),
        (("a", "b", "--", "--"), "--"),
        (("-", "-", "-"), "-"),
    ):
        check_unchanged(" ".join(arguments), arguments, files, PROGRAM.objects("unexpected argument", surplus))
    for arguments, new in (
        (("--", "-x", "-y"), "-y"),
        (("a", "--", "-y"), "-y"),
        (("a", "--", "--"), "--"),
        (("--", "--", "--help"), "--help"),
        (("--", "a", "b"), "b"),
        (("a", "b", "--"), "b"),
    ):
        check_files(" ".join(arguments), arguments, files, {**files, new: NEW})
    for arguments in ("a", "--"), ("--", "-x"), ("--", "--"), ("--", "a", "-"):
        check_files(" ".join(arguments), arguments, files, files, out=NEW)


def check_standard_output():
    """Reading and writing that go half way, as for the other programs."""
    journal = drawn(65536)
    converted, _ = by_oracle(journal)
    with tempfile.TemporaryDirectory() as path:
        check_streams(PROGRAM, pathlib.Path(path), journal, converted, FAILS, (0, 1, 1000, len(converted) - 1), 10000)


check_converted()
check_standard_streams()
check_long_journals()
check_examples()
check_refused()
check_parts()
check_no_file()
check_links()
check_special_files()
check_no_old_file()
check_failing_calls()
check_arguments()
check_standard_output()
conclude()
