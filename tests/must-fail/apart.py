#!/usr/bin/env -S python3 -B
"""Whether the mistakes that stand in one must-fail edit are kept apart. Usage: apart.py CRATE...

Takes each mistake out of its file once, leaves the others in, and asks the prover: what the mistake named must no longer fail for a fact of its own, since
it would otherwise fail for one of the others; and what the others named must fail as before. A file with one mistake has nothing to be taken out. It takes
as many checks of a crate as it has mistakes, so it is not part of the gate: it is for whoever puts mistakes into one file. The last line is
'N passed, M failed'.
"""

import glob
import os
import pathlib
import sys
import tempfile

from copies import Copy
from mistakes import files_of, made, mistakes_in, objection, text_of


def tried(crate, copy):
    """Each mistake of a crate that stands beside others, with its file's mistakes and the log without it."""
    for path in sorted(glob.glob(f"crates/{crate}/must-fail/*.edit")):
        mistakes = mistakes_in(text_of(path))
        for mistake in mistakes if len(mistakes) > 1 else []:
            files = made(files_of(f"crates/{crate}"), [other for other in mistakes if other is not mistake])
            if not files:
                sys.exit(f"{path}: a text of it does not stand just once where it is to be replaced, if {mistake.name} is left out")
            yield f"{os.path.basename(path)}: {mistake.name}", mistake, mistakes, copy.checked(crate, files)[0]


def main():
    os.chdir(pathlib.Path(__file__).resolve().parents[2])
    if len(sys.argv) < 2:
        sys.exit("usage: tests/must-fail/apart.py CRATE...")
    passed = failed = 0
    with tempfile.TemporaryDirectory() as folder:
        copy = Copy(folder)
        for crate in sys.argv[1:]:
            if not copy.checked(crate)[1]:
                sys.exit(f"{crate} is not proved as it stands")
            for label, mistake, mistakes, log in tried(crate, copy):
                wrong = [] if objection(mistake.breaks[0], log) else [f"{mistake.breaks[0]} still fails for itself"]
                wrong += [f"{other.breaks[0]}: {why}" for other in mistakes if other is not mistake if (why := objection(other.breaks[0], log))]
                passed += not wrong
                failed += bool(wrong)
                for why in wrong:
                    print(f"{crate}/{label}: {why}", flush=True)
    print(f"{passed} passed, {failed} failed")
    return int(failed > 0 or passed == 0)


if __name__ == "__main__":
    sys.exit(main())
