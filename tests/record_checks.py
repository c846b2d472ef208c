# SPDX-License-Identifier: MIT OR Apache-2.0
# Checks of the record of wrong programs, without the prover: what is taken from it, what is tried, and what is written into it:
# python3 tests/record_checks.py
import contextlib
import io
import sys
import tempfile
from dataclasses import dataclass
from pathlib import Path

sys.dont_write_bytecode = True

import record
from record import Record
from wrong_programs import ONLY_NAMES, tell

KIT = "kit 13b logic 123456789abcdef0"
OF_SAME_LOGIC = "kit 13f logic 123456789abcdef0"
BY_A_GOAL = (True, "refused: `search` did not prove `returns`")
BY_NAMES = (True, f"{ONLY_NAMES}: `x` has no field `y`")
ACCEPTED = (False, "NOT REFUSED: the function is still proved with this edit")
BAD = (False, "BAD EDIT: an old text doesn't stand in its file once")


@dataclass(frozen=True)
class Crate:
    name: str
    folder: str
    libraries: tuple = ()

    def below(self):
        return list(self.libraries)


@dataclass
class Libraries:
    proved: bool = True

    def is_proved(self, _crate):
        return self.proved


class Tree:
    """A crate with two wrong programs, one below it, and what a prover would say of each edit."""

    def __init__(self, folder):
        self.top = Path(folder)
        self.answers, self.tried, self.libraries = {"one": BY_A_GOAL, "two": BY_A_GOAL}, [], Libraries()
        for name in ["low", "high"]:
            for part in ["src", "specs", "proofs", "wrong"]:
                (self.top / name / part).mkdir(parents=True)
                if part != "wrong":
                    self.write(f"{name}/{part}/text", f"{name} {part}")
        for name in self.answers:
            self.write(f"high/wrong/{name}.edit", f"function: {name}\nfile: src/text\nold: high\nnew: {name}\n")
        low = Crate("low", str(self.top / "low"))
        self.crates = [low, Crate("high", str(self.top / "high"), (low,))]

    def write(self, path, text):
        (self.top / path).write_text(text, encoding="utf-8")

    def record_path(self):
        return self.top / "refused/high"

    def run(self, kit=KIT, is_again=False):
        """The names that were tried, how many passed, were taken from the record, and failed."""
        record.files_sum.cache_clear()
        self.tried = []
        with contextlib.redirect_stdout(io.StringIO()):
            counts = tell(self.crates, self.libraries, Record(self.top / "refused", kit), self.try_edits, is_again)
        return sorted(self.tried), counts

    def try_edits(self, _crate, edits):
        self.tried += [edit.name for edit in edits]
        return [(edit, *self.answers[edit.name]) for edit in edits], 0


ALL, NONE = ["one", "two"], []


def first_run(tree):
    yield tree.run(), (ALL, (2, 0, 0))
    yield len(tree.record_path().read_text().splitlines()), 2


def second_run(tree):
    tree.run()
    before = tree.record_path().read_bytes()
    yield tree.run(), (NONE, (2, 2, 0))
    yield tree.run(is_again=True), (ALL, (2, 0, 0))
    yield tree.record_path().read_bytes(), before


def changed(path):
    """What is tried once a file has changed: all of them, or one edit alone."""

    def check(tree):
        tree.run()
        tree.write(path, "other text" if "/wrong/" not in path else "function: one\nfile: src/text\nold: high\nnew: 1\n")
        yield tree.run(), ((["one"], (2, 1, 0)) if "/wrong/" in path else (ALL, (2, 0, 0)))
        yield tree.run(), (NONE, (2, 2, 0))

    return check


def not_seen(tree):
    """The proofs of a crate below are its own affair."""
    tree.run()
    tree.write("low/proofs/text", "other text")
    yield tree.run(), (NONE, (2, 2, 0))


def added_and_gone(tree):
    tree.run()
    tree.write("low/specs/more", "more")
    yield tree.run(), (ALL, (2, 0, 0))
    (tree.top / "low/specs/more").rename(tree.top / "low/specs/named")
    yield tree.run(), (ALL, (2, 0, 0))


def same_logic(tree):
    """A kit of another name that proves in the same logic."""
    tree.run()
    before = tree.record_path().read_bytes()
    yield tree.run(OF_SAME_LOGIC), (NONE, (2, 2, 0))
    yield tree.record_path().read_bytes(), before


def other_kit(line):
    """Another logic, and a line that names none."""

    def check(tree):
        tree.run()
        yield tree.run(line), (ALL, (2, 0, 0))
        yield tree.run(line), (NONE, (2, 2, 0))
        yield tree.run(), (ALL, (2, 0, 0))

    return check


def kits_without_logic(tree):
    """Their whole lines count."""
    tree.run("kit 13b")
    yield tree.run("kit 13b"), (NONE, (2, 2, 0))
    yield tree.run("kit 13f"), (ALL, (2, 0, 0))


def accepted(tree):
    """What the prover accepts is a failure, also where a record stands with another sum, and loses its line."""
    tree.run()
    tree.write("high/src/text", "high, weaker")
    tree.answers["one"] = ACCEPTED
    yield tree.run(), (ALL, (1, 0, 1))
    yield [line.split()[0] for line in tree.record_path().read_text().splitlines()], ["two"]
    yield tree.run(), (["one"], (1, 1, 1))


def one_byte(tree):
    """A record with one byte changed isn't believed, wherever it is."""
    tree.run()
    text = tree.record_path().read_text()
    for place in range(text.index("\n")):
        tree.record_path().write_text(text[:place] + chr(ord(text[place]) ^ 1) + text[place + 1 :])
        yield tree.run(), (["one"], (2, 1, 0))


def of_another(tree):
    """Each edit's line with the sum of the other's."""
    tree.run()
    one, two = (line.split() for line in tree.record_path().read_text().splitlines())
    tree.record_path().write_text(f"{one[0]} {two[1]}\n{two[0]} {one[1]}\n")
    yield tree.run(), (ALL, (2, 0, 0))


def by_names(tree):
    """Only what is refused by a goal of its own is recorded."""
    tree.answers |= {"one": BY_NAMES, "two": BAD}
    yield tree.run(), (ALL, (1, 0, 1))
    yield tree.record_path().exists(), False


def forgotten(tree):
    """An edit that is gone has no line."""
    tree.run()
    (tree.top / "high/wrong/one.edit").unlink()
    yield tree.run(), (NONE, (1, 1, 0))
    yield [line.split()[0] for line in tree.record_path().read_text().splitlines()], ["two"]


def unproved(tree):
    """Where a crate isn't proved as it is, nothing is recorded of it."""
    tree.libraries.proved = False
    yield tree.run(), (ALL, (2, 0, 0))
    yield tree.record_path().exists(), False


CHECKS = {
    "a first run": first_run,
    "a second run": second_run,
    "the crate's sources": changed("high/src/text"),
    "its definitions": changed("high/specs/text"),
    "its proofs": changed("high/proofs/text"),
    "sources below": changed("low/src/text"),
    "definitions below": changed("low/specs/text"),
    "the edit": changed("high/wrong/one.edit"),
    "proofs below": not_seen,
    "a file more, and its name": added_and_gone,
    "another kit of the same logic": same_logic,
    "another logic": other_kit("kit 13b logic 123456789abcdef1"),
    "a longer logic": other_kit("kit 13b logic 123456789abcdef00"),
    "a logic before other words": other_kit("kit logic 123456789abcdef0 13b"),
    "a kit that names no logic": other_kit("kit 13b"),
    "kits that name no logic": kits_without_logic,
    "an accepted edit": accepted,
    "a byte of the record": one_byte,
    "the sum of another edit": of_another,
    "refused by names alone": by_names,
    "an edit that is gone": forgotten,
    "a crate that isn't proved": unproved,
}


def main():
    failed = 0
    for name, check in CHECKS.items():
        with tempfile.TemporaryDirectory() as folder:
            wrong = [pair for pair in check(Tree(folder)) if pair[0] != pair[1]]
        failed += bool(wrong)
        for got, wanted in wrong:
            print(f"FAILED: record, {name}: wanted {wanted}, got {got}")
    print(f"{len(CHECKS) - failed} passed, {failed} failed")
    return 1 if failed else 0


if __name__ == "__main__":
    sys.exit(main())
