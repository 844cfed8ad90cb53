"""What the tests of the programs share: journals, how a program is run, and how checks are counted."""

import contextlib
import errno
import fcntl
import os
import pathlib
import resource
import signal
import socket
import struct
import subprocess
import sys
import termios
import time
import traceback

PATIENCE = 60  # seconds after which a program that does not end is stopped, and its check fails
MOST_INTERRUPTIONS = 1000  # of the reads of a journal, or of the writes of a block, that a program puts up with

NO_TEXT = os.fsdecode(b"a journal of \xe9t\xe9")  # a name in Latin-1
NO_TEXT_REASON = "Invalid or incomplete multibyte or wide character"

# What the refusals that end a listing mean.
REASONS = {
    1: "the height is above 12",
    11: "the journal is empty, or its first record is no open",
    12: "a record of unknown kind",
    13: "the journal ends inside a record",
    14: "an open record that is not the first",
    16: "the journal has more than 65,536 bytes",
}


def why(number, offset):
    """Why a journal is refused."""
    return f"{REASONS[number]}, refusal {number} at offset {offset}"


# Journals


def grant(tenant, level):
    return struct.pack("<BHB", 2, tenant, level)


def grant_pages(tenant, pages):
    return struct.pack("<BHH", 3, tenant, pages)


def release(tenant):
    return struct.pack("<BH", 4, tenant)


def growth(tenant, level):
    return struct.pack("<BHB", 5, tenant, level)


def join(tenant, level):
    return struct.pack("<BHB", 9, tenant, level)


def admit():
    return b"\x0a"


def withdrawal(tenant):
    return struct.pack("<BH", 11, tenant)


# Programs


class Program:
    """A program under test. Its own name is in what it says on standard error, and how it is used where its arguments are wrong."""

    def __init__(self, path, usage):
        self.path = os.path.abspath(path)
        self.name = os.path.basename(path).encode()
        self.usage = usage

    def start(self, *arguments, **how):
        how.setdefault("stdin", subprocess.DEVNULL)
        how.setdefault("stdout", subprocess.PIPE)
        return subprocess.Popen([self.path, *arguments], stderr=subprocess.PIPE, **how)

    def cannot(self, deed, thing, reason):
        """What it says if it could not read or write something."""
        return b"%s: cannot %s %s: %s\n" % (self.name, deed.encode(), os.fsencode(thing), reason.encode())

    def objects(self, fault, word):
        """What it says to an argument that it does not take."""
        return b"%s: %s %s\n" % (self.name, fault.encode(), os.fsencode(word)) + self.usage


def end(program):
    """What a running program wrote to the pipes that it was given, until it ended."""
    try:
        return program.communicate(timeout=PATIENCE)
    except subprocess.TimeoutExpired:
        program.kill()
        out, error = program.communicate()
        return out, error + b"(stopped after %d seconds)" % PATIENCE


def state(program):
    """The letter that the system has for it: S sleeps, T is stopped, Z has ended."""
    if program.poll() is not None:
        return "Z"
    return pathlib.Path(f"/proc/{program.pid}/stat").read_text().rpartition(")")[2].split()[0]


def wait_until(program, what, condition):
    """Waits until the condition holds. A program that has ended is for the comparison of what it wrote."""
    for _ in range(PATIENCE * 2000):
        if condition() or state(program) == "Z":
            return
        time.sleep(0.0005)
    program.kill()
    raise AssertionError(f"{what} not within {PATIENCE} seconds")


def interrupt(program):
    """Stops the program while it sleeps in a read or a write, and lets it go on. On a socket with a time limit the call then ends with EINTR, or
    with a short count if it had moved some bytes."""
    wait_until(program, "the program sleeps", lambda: state(program) == "S")
    program.send_signal(signal.SIGSTOP)
    wait_until(program, "the program is stopped", lambda: state(program) == "T")
    program.send_signal(signal.SIGCONT)


def sockets(limit=None):
    """A connection: our end, and the program's, whose reads or writes have a time limit that they never come to."""
    ours, its = socket.socketpair()
    ours.settimeout(PATIENCE)
    if limit:
        its.setsockopt(socket.SOL_SOCKET, limit, struct.pack("ll", 10 * PATIENCE, 0))
    return ours, its


def feed(program, ours, its, piece):
    """Sends a piece and waits until the program has read it."""
    ours.sendall(piece)
    wait_until(program, "a piece is read", lambda: fcntl.ioctl(its, termios.FIONREAD, b"\0" * 4) == b"\0" * 4)


def limited(size):
    """Files end at this size: a write past it is short, and the next fails. Python starts with SIGXFSZ ignored, and so does a program whose signals
    are not restored: then the write fails."""
    return {
        "preexec_fn": lambda: resource.setrlimit(resource.RLIMIT_FSIZE, (size, size)),
        "restore_signals": False,
    }


# Checks

passed = 0
failed = 0


def equal(name, got, wanted):
    if got != wanted:
        at = next((i for i, (a, b) in enumerate(zip(got, wanted)) if a != b), min(len(got), len(wanted)))
        raise AssertionError(
            f"{name} has {len(got)} bytes and should have {len(wanted)}; from byte {at} on: {got[at:at + 80]!r}, should be {wanted[at:at + 80]!r}"
        )


@contextlib.contextmanager
def check(name):
    global passed, failed
    try:
        yield
        passed += 1
    except Exception as error:
        failed += 1
        print(f"{name}: failed: {error}")
        if not isinstance(error, AssertionError):
            traceback.print_exc(file=sys.stdout)


def ends_with(program, out, error):
    got_out, got_error = end(program)
    equal("standard error", got_error, error)
    equal("standard output", got_out or b"", out)
    assert program.returncode == 0, f"the exit status is {program.returncode} and should be 0"


def conclude():
    """Ends a test with its last line."""
    print(f"{passed} passed, {failed} failed")
    sys.exit(0 if failed == 0 else 1)


# Checks of every program that reads a journal whole and then writes


def check_no_reading(program, folder):
    """Inputs of which not one byte can be read."""
    with check("a file that is missing"):
        ends_with(program.start("missing", cwd=folder), b"", program.cannot("read", "missing", "No such file or directory"))
    with check("a name with no bytes"):
        ends_with(program.start(""), b"", program.cannot("read", "", "No such file or directory"))
    with check("a name that is too long"):
        ends_with(program.start("x" * 5000), b"", program.cannot("read", "x" * 4096, "File name too long"))
    with check("a name that is no text in UTF-8, of a file that is there"):
        (folder / NO_TEXT).write_bytes(b"")
        ends_with(program.start(NO_TEXT, cwd=folder), b"", program.cannot("read", NO_TEXT, NO_TEXT_REASON))
    with check("a folder"):
        ends_with(program.start(str(folder)), b"", program.cannot("read", folder, "Is a directory"))
    with check("a folder on standard input"):
        descriptor = os.open(folder, os.O_RDONLY)
        ends_with(program.start(stdin=descriptor), b"", program.cannot("read", "standard input", "Is a directory"))
        os.close(descriptor)
    with check("standard input closed"):
        running = program.start(preexec_fn=lambda: os.close(0))
        ends_with(running, b"", program.cannot("read", "standard input", "Bad file descriptor"))


def check_reading(program, journal, wanted):
    """Reads that bring less than was asked, are interrupted, or fail half way."""
    with check("a journal in small pieces"):
        ours, its = sockets()
        running = program.start(stdin=its)
        size, at = 1, 0
        while at < len(journal):
            feed(running, ours, its, journal[at : at + size])
            at, size = at + size, size * 3 % 1009
        ours.close()
        ends_with(running, wanted, b"")
    with check("reads that are interrupted"):
        ours, its = sockets(limit=socket.SO_RCVTIMEO)
        running = program.start(stdin=its)
        interrupt(running)
        feed(running, ours, its, journal[:30001])
        for _ in range(5):
            interrupt(running)
        ours.sendall(journal[30001:])
        ours.close()
        ends_with(running, wanted, b"")
    with check("a read that fails half way"):
        ours, its = sockets()
        its.sendall(b"not read, which makes of our end a reset")
        running = program.start(stdin=its)
        feed(running, ours, its, journal[:30001])
        ours.close()
        ends_with(running, b"", program.cannot("read", "standard input", "Connection reset by peer"))


def check_no_writing(program, source, wanted, fails, sizes):
    """Standard outputs that take nothing of what the program writes for the journal in a file, or only its first bytes, of several sizes; `fails` is
    the library fails.c."""

    def cannot(reason):
        return program.cannot("write", "standard output", reason)

    path = source.with_name("out")
    for size in sizes:
        with check(f"a file that ends at {size} bytes"), path.open("w+b") as out:
            ends_with(program.start(str(source), stdout=out, **limited(size)), b"", cannot("File too large"))
            equal("the file", path.read_bytes(), wanted[:size])
    with check("a file that ends where the output does"), path.open("w+b") as out:
        ends_with(program.start(str(source), stdout=out, **limited(len(wanted))), b"", b"")
        equal("the file", path.read_bytes(), wanted)
    with check("a device that is full"), open("/dev/full", "wb") as full:
        ends_with(program.start(str(source), stdout=full), b"", cannot("No space left on device"))
    with check("a device that is full, for the usage"), open("/dev/full", "wb") as full:
        ends_with(program.start("--help", stdout=full), b"", cannot("No space left on device"))
    with check("standard output closed"):
        ends_with(program.start(str(source), preexec_fn=lambda: os.close(1)), b"", cannot("Bad file descriptor"))
    for name, number, error in (
        ("that it is not stored", errno.EIO, cannot("Input/output error")),
        ("that there is no space for it", errno.ENOSPC, cannot("No space left on device")),
        ("that the quota is used up", errno.EDQUOT, cannot("Disk quota exceeded")),
        ("something else", errno.EINVAL, b""),
    ):
        with check(f"a file of which is told at last {name}"), path.open("w+b") as out:
            ends_with(program.start(str(source), stdout=out, **failing("fsync", fails, number)), b"", error)
            equal("the file", path.read_bytes(), wanted)
    for call in "fsync", "close":
        with check(f"a failing {call}, which nobody calls on a pipe"):
            ends_with(program.start(str(source), **failing(call, fails)), wanted, b"")


def check_leaving_reader(program, source, wanted, amount):
    """Reads so many bytes of what the program writes, and no more. The pipe is small, so that the program waits for it."""
    broken = program.cannot("write", "standard output", "Broken pipe")
    for name, restored in ("a reader that leaves, with SIGPIPE ignored", False), ("a reader that leaves, with SIGPIPE as usual", True):
        with check(name):
            running = program.start(str(source), restore_signals=restored, pipesize=4096)
            equal("what was read", running.stdout.read(amount), wanted[:amount])
            running.stdout.close()
            running.stdout = None
            ends_with(running, b"", broken)


def check_interrupted_writing(program, source, wanted, middle):
    """Interrupts writes to a connection before and after so many bytes are read from it."""
    with check("writes that are interrupted"):
        ours, its = sockets(limit=socket.SO_SNDTIMEO)
        its.setsockopt(socket.SOL_SOCKET, socket.SO_SNDBUF, 4096)
        running = program.start(str(source), stdout=its)
        its.close()
        for _ in range(5):
            interrupt(running)
        got = ours.recv(middle, socket.MSG_WAITALL)
        for _ in range(5):
            interrupt(running)
        while piece := ours.recv(65536):
            got += piece
        equal("what was read", got, wanted)
        ends_with(running, b"", b"")


def failing(call, fails, number=None):
    """The call fails, with the error of that number; `fails` is the library fails.c."""
    return {"env": {"LD_PRELOAD": fails, "FAILS": call, **({"ERROR": str(number)} if number else {})}}


def interrupted(call, fails, times):
    """The first calls, which read, write or sync, are interrupted so many times; `fails` is the library fails.c."""
    return {"env": {"LD_PRELOAD": fails, "FAILS": call, "INTERRUPTIONS": str(times)}}


def check_most_interruptions(program, source, wanted, fails):
    """As many interruptions in a row as a program puts up with, and one more."""
    most = MOST_INTERRUPTIONS
    for call, thing in ("read", "standard input"), ("write", "standard output"):
        with check(f"a {call} that is interrupted {most} times"), source.open("rb") as file:
            ends_with(program.start(stdin=file, **interrupted(call, fails, most)), wanted, b"")
        with check(f"a {call} that is interrupted {most + 1} times"), source.open("rb") as file:
            error = program.cannot(call, thing, "Interrupted system call")
            ends_with(program.start(stdin=file, **interrupted(call, fails, most + 1)), b"", error)


def check_streams(program, folder, journal, wanted, fails, sizes, middle):
    """All of these for one journal in a folder: writing fails at each of the sizes, or is disturbed when so many bytes in the middle were read."""
    source = folder / "source"
    source.write_bytes(journal)
    check_no_reading(program, folder)
    check_reading(program, journal, wanted)
    check_no_writing(program, source, wanted, fails, sizes)
    check_leaving_reader(program, source, wanted, middle)
    check_interrupted_writing(program, source, wanted, middle)
    check_most_interruptions(program, source, wanted, fails)
