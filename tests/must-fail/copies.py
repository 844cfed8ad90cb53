"""Copies of the repository in which crates are checked with mistakes in them."""

import os
import shutil
import subprocess

from mistakes import files_of, log_of


class Copy:
    """A copy of the crates, and of what says how they are made, in a folder that is there and empty."""

    def __init__(self, folder):
        self.folder = folder
        subprocess.run(["git", "init", "--quiet", folder], check=True)
        shutil.copytree("crates", f"{folder}/crates", ignore=shutil.ignore_patterns("out", "must-fail"))
        for name in filter(os.path.exists, ("crates.txt", "HANDLES")):
            shutil.copy(name, folder)

    def checked(self, crate, files=None):
        """The log of a check of a crate with these texts in the place of its own, which stand there again afterwards, and whether it is proved."""
        folder = f"{self.folder}/crates/{crate}"
        was = files_of(folder)
        try:
            for path, text in (files or {}).items():
                write(f"{folder}/{path}", text)
            ran = run(folder)
            if "\nlogic=" not in ran.stdout:
                # (it may have been killed for memory)
                ran = run(folder)
        finally:
            for path in files or {}:
                write(f"{folder}/{path}", was[path])
        return log_of(ran.stdout), ran.returncode == 0


def run(folder):
    how = {"stdin": subprocess.DEVNULL, "stdout": subprocess.PIPE, "stderr": subprocess.STDOUT, "errors": "replace"}
    return subprocess.run(["rt", "check", "--jobs", "1"], cwd=folder, check=False, **how)


def write(path, text):
    with open(path, "w", encoding="utf-8") as file:
        file.write(text)
