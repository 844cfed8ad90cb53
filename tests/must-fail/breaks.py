#!/usr/bin/env -S python3 -B
"""Whether each mistake of the must-fail edits breaks what it names. Usage: breaks.py [CRATE..]

What a mistake names has to fail for a fact of its own: a function in its own proof, a theorem at its own name. That something cited was refused does not
count, nor that a proof no longer has the code's form. Every crate with edits is checked in a copy of the repository, as it stands and then with each file's
mistakes, and the logs are read. All mistakes are one check, since rt counts each file that is refused. Prints the mistakes that break something else, or
nothing, and why; then how many there are. The last line is 'N passed, M failed'.
"""

import collections
import glob
import os
import pathlib
import queue
import sys
import tempfile
import threading

from copies import Copy
from mistakes import files_of, ill_formed, made, mistakes_in, objection, text_of


def judged(copy, crate, path):
    """The mistakes of a file that do not break what they name, each with the reason."""
    mistakes = mistakes_in(text_of(path))
    wrong = list(ill_formed(mistakes))
    if wrong or not mistakes:
        return wrong
    files = made(files_of(f"crates/{crate}"), mistakes)
    if not files:
        return [(mistake, "a text of the file does not stand just once where it is to be replaced") for mistake in mistakes]
    log, is_proved = copy.checked(crate, files)
    if is_proved:
        return [(mistake, "the crate is proved with all of them") for mistake in mistakes]
    reasons = [(mistake, objection(mistake.breaks[0], log)) for mistake in mistakes]
    return [(mistake, f"{mistake.breaks[0]}: {why}") for mistake, why in reasons if why]


def work(crates, edits, say):
    """Judges one crate after the other, in a copy of its own."""
    with tempfile.TemporaryDirectory() as folder:
        copy = Copy(folder)
        while True:
            try:
                crate = crates.get_nowait()
            except queue.Empty:
                return
            is_proved = copy.checked(crate)[1]
            for path in edits[crate]:
                whole = [] if is_proved else [(mistake, "the crate is not proved as it stands") for mistake in mistakes_in(text_of(path))]
                say(path, whole or judged(copy, crate, path))


def main():
    os.chdir(pathlib.Path(__file__).resolve().parents[2])
    edits = collections.defaultdict(list)
    for path in sorted(glob.glob("crates/*/must-fail/*.edit")):
        edits[path.split("/")[1]].append(path)
    lacking = [crate for crate in sys.argv[1:] if crate not in edits]
    if lacking:
        sys.exit(f"no must-fail edits: {' '.join(lacking)}")
    # those with most files first, so that none of them is left for the end
    crates = queue.Queue()
    for crate in sorted(sys.argv[1:] or edits, key=lambda it: -len(edits[it])):
        crates.put(crate)
    wrong = {}
    printing = threading.Lock()

    def say(path, reasons):
        with printing:
            wrong[path] = reasons
            for mistake, why in reasons:
                print(f"{path}: {mistake.name}: {why}", flush=True)

    workers = [threading.Thread(target=work, args=(crates, edits, say)) for _ in range(min(crates.qsize(), os.cpu_count() or 1))]
    for worker in workers:
        worker.start()
    for worker in workers:
        worker.join()
    paths = [path for crate in sys.argv[1:] or edits for path in edits[crate]]
    for path in paths:
        if path not in wrong:
            print(f"{path}: it was not judged")
    failed = any(wrong.get(path, True) for path in paths) or not paths
    print(f"{sum(len(mistakes_in(text_of(path))) for path in paths)} mistakes in {len(paths)} files")
    print(f"{1 - failed} passed, {int(failed)} failed")
    return int(failed)


if __name__ == "__main__":
    sys.exit(main())
