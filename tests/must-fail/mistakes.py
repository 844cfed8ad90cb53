"""The must-fail edits: their mistakes, and what the prover's log says of each.

A file crates/CRATE/must-fail/LABEL.edit holds mistakes that do not get in each other's way, so that the prover has to go over the crate once for all of
them. A mistake is written

    mistake: NAME
    # what is right, and what is wrong here
    breaks: fn CRATE::PATH::FUNCTION    (whose contract it contradicts), with `at GOAL` where another mistake of the file is in the same function, or
    breaks: THEOREM
    file: FILE, with old: and new: for each text that is replaced, as rt reads them.
"""

import collections
import dataclasses
import glob
import os
import re

# An error that only says that something else was refused, and one by which a proof has another form than the code, so that no fact was asked for.
FALLOUT = re.compile(r"was not admitted|was rejected|were not admitted|were rejected")
MISFIT = re.compile(
    r"has no field|that can be named from here|expected type `goal\.|this is applied to an argument|is not in scope(?! here, so what is shown)")

# The files of a function's proof.
OF_FUNCTIONS = ("Answers.antt", "Invariants.antt", "Proof.antt")

ERROR = re.compile(r"(\S+?):\d+:\d+: error: (?:`([^`]*)`: )?(.*)")
# A goal for which the prover has looked and found no proof, told before the line of the function whose goal it is, and those that this line names.
OPEN = re.compile(r"note: \S+?:\d+:\d+: it is not proved that .*?\(`([^`]*)`\)(?:;|$)")
UNFOUND = re.compile(r"`search` did not prove ((?:`[^`]*`(?:, | and )?)+)")
VERDICT = re.compile(r"(?:fn|struct|enum|impl) (\S+?): (.*)")


def text_of(path):
    with open(path, encoding="utf-8") as file:
        return file.read()


# Edits


@dataclasses.dataclass
class Mistake:
    name: str
    says: list = dataclasses.field(default_factory=list)
    breaks: list = dataclasses.field(default_factory=list)
    replacements: list = dataclasses.field(default_factory=list)  # of (file, old text, new text)


def mistakes_in(text):
    """The mistakes of an edit file. A replacement that belongs to none is one of a mistake without a name."""
    mistakes = []
    file = old = ""
    for line in text.splitlines():
        key, _, value = line.partition(": ")
        if key == "mistake" or (key == "old" and not mistakes):
            mistakes.append(Mistake(value if key == "mistake" else ""))
        if line.startswith("# ") and mistakes:
            mistakes[-1].says.append(line[2:])
        elif key == "breaks" and mistakes:
            mistakes[-1].breaks.append(value)
        elif key == "file":
            file = value
        elif key == "old":
            old = value
        elif line.startswith("new:"):
            mistakes[-1].replacements.append((file, old, line.removeprefix("new:").removeprefix(" ")))
    return mistakes


def ill_formed(mistakes):
    """What is wrong with the mistakes of one file as they are written."""
    names = collections.Counter(mistake.name for mistake in mistakes)
    whole = collections.Counter(what.partition(" at ")[0] for mistake in mistakes for what in mistake.breaks)
    broken = collections.Counter(what for mistake in mistakes for what in mistake.breaks)
    for mistake in mistakes:
        if not (mistake.name and len(mistake.says) == 1 and len(mistake.breaks) == 1):
            yield mistake, "it has not just one line mistake:, one comment and one line breaks:"
        elif not mistake.replacements:
            yield mistake, "it replaces nothing"
        elif names[mistake.name] > 1:
            yield mistake, "another mistake has its name"
        elif broken[mistake.breaks[0]] > 1 or whole[mistake.breaks[0]] > 1:
            yield mistake, f"another mistake breaks {mistake.breaks[0]} too, so that one of them would be enough"


def files_of(folder):
    """The texts of a crate's files, by their paths in it."""
    paths = [path for part in ("src", "specs", "proofs") for path in glob.glob(f"{folder}/{part}/**/*", recursive=True)]
    return {os.path.relpath(path, folder): text_of(path) for path in paths if os.path.isfile(path)}


def made(files, mistakes):
    """The files that change, with the mistakes made, as rt makes them; nothing where one of them cannot be made."""
    changed = {}
    for mistake in mistakes:
        for path, old, new in mistake.replacements:
            text = changed.get(path, files.get(path, ""))
            if text.count(old) != 1:
                return {}
            changed[path] = text.replace(old, new)
    return changed


# Logs


@dataclasses.dataclass
class Log:
    errors: list  # of (file, declaration, message)
    functions: dict  # what is said of each
    open: dict  # the goals of each for which no proof was found


def log_of(text):
    """What the prover says of a crate. A message goes on over the lines below it that are set in."""
    log = Log([], {}, {})
    goals = []
    goes_on = False
    for line in text.splitlines():
        error, goal, verdict = ERROR.match(line), OPEN.match(line), VERDICT.match(line)
        if error:
            file, declaration, message = error.groups()
            log.errors.append([os.path.normpath(file), declaration or "", message])
        elif goal:
            goals.append(goal[1])
        elif verdict:
            unfound = UNFOUND.search(verdict[2])
            log.functions[verdict[1]] = verdict[2]
            log.open[verdict[1]] = goals + re.findall(r"`([^`]*)`", unfound[1] if unfound else "")
            goals = []
        elif goes_on and line.startswith("  "):
            log.errors[-1][2] += " " + line.strip()
        goes_on = bool(error) or (goes_on and line.startswith("  "))
    return log


def is_of_function(path):
    """Whether a file is one of a function's proof: a crate may have lemmas in proofs/Answers.antt too."""
    head, *folders, last = path.split("/")
    return head == "proofs" and last in OF_FUNCTIONS and bool(folders)


def is_proof_of(path, function):
    """Whether a file is one of this function's: proofs/PATH/NAME/FILE.antt, with +NAME for functions that call themselves or one another."""
    _, *modules, name = function.split("::")
    _, *folders, _ = path.split("/")
    if not is_of_function(path) or folders[:-1] != modules:
        return False
    return folders[-1] == name or (folders[-1].startswith("+") and name in folders[-1].split("+"))


def objection(what, log):
    """Why a log does not show that a function or a theorem fails for a fact of its own; nothing if it does."""
    if what.startswith("fn "):
        function, _, goal = what[len("fn ") :].partition(" at ")
        errors = [(declaration, message) for file, declaration, message in log.errors if is_proof_of(file, function)]
        # (an answer that has lost its goal leaves another one open)
        misfit = next((message for _, message in errors if MISFIT.search(message)), "")
        if misfit:
            return f"a proof has another form than the code: {misfit}"
        if any(goal in ("", one) for one in log.open.get(function, [])):
            return ""
        messages = [message for declaration, message in errors if goal in ("", declaration)]
    else:
        messages = [message for file, declaration, message in log.errors if declaration == what and not is_of_function(file)]
    own = [message for message in messages if not FALLOUT.search(message)]
    if not messages:
        said = log.functions.get(what.removeprefix("fn ").partition(" at ")[0], "")
        return f"it has no error{': it is said to be ' + said if said else ''}"
    if not own:
        return "it only fails because something else does"
    if MISFIT.search(own[0]):
        return f"a proof has another form than the code, before any fact fails: {own[0]}"
    return ""
