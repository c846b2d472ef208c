# SPDX-License-Identifier: MIT OR Apache-2.0
# Which wrong programs were refused, and by which sources: tests/refused/CRATE has a line for each, its name and a sum.
#
# The sum is over all that a refusal depends on: the kit's logic, the edit, every file of the crate's src, specs and proofs, and
# the src and specs of all crates below it. So a line counts as long as none of these has changed.
import functools
import hashlib
import os
import re
from pathlib import Path

OWN = ("src", "specs", "proofs")
# What a crate shows to those above it.
FACE = ("src", "specs")
# How a kit's line ends: with the sum of the logic in which it proves.
LOGIC = re.compile(r"\blogic [0-9a-f]{16,}$")


def logic_of(kit_line):
    """In which logic a kit proves: what its line says of that, which is the same for more than one kit; else its whole line."""
    found = LOGIC.search(kit_line)
    return found[0] if found else kit_line


@functools.cache
def files_sum(folder, parts):
    """The sum of all files in these parts of a crate, each with its name."""
    taken = hashlib.sha256()
    for path in sorted(it for part in parts for it in Path(folder, part).rglob("*") if it.is_file()):
        own = hashlib.sha256(path.read_bytes()).hexdigest()
        taken.update(f"{own} {path.relative_to(folder).as_posix()}\n".encode())
    return taken.hexdigest()


def edit_path(crate, edit):
    return Path(crate.folder, "wrong", f"{edit.name}.edit")


class Record:
    def __init__(self, folder, kit_line):
        self.folder, self.logic = Path(folder), logic_of(kit_line)

    def sum_of(self, crate, edit):
        below = sorted((it.name, files_sum(it.folder, FACE)) for it in crate.below())
        parts = [self.logic, hashlib.sha256(edit_path(crate, edit).read_bytes()).hexdigest(), files_sum(crate.folder, OWN)]
        lines = [*parts, *(f"{name} {taken}" for name, taken in below)]
        return hashlib.sha256("".join(f"{line}\n" for line in lines).encode()).hexdigest()

    def line_of(self, crate, edit):
        return f"{edit.name} {self.sum_of(crate, edit)}"

    def known(self, crate, edits):
        """Those of the edits whose lines stand here."""
        path = self.folder / crate.name
        lines = set(path.read_text(encoding="utf-8").splitlines()) if path.is_file() else set()
        return [edit for edit in edits if self.line_of(crate, edit) in lines]

    def write(self, crate, edits):
        """Keeps these alone of a crate, by their names."""
        path = self.folder / crate.name
        lines = sorted(self.line_of(crate, edit) for edit in edits)
        if not lines:
            path.unlink(missing_ok=True)
            return
        self.folder.mkdir(exist_ok=True)
        written = self.folder / f".{crate.name}.{os.getpid()}"
        written.write_text("".join(f"{line}\n" for line in lines), encoding="utf-8")
        written.replace(path)
