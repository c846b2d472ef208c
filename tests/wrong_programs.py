# SPDX-License-Identifier: MIT OR Apache-2.0
# Tries the wrong programs of crates/*/wrong, each of which the prover must refuse:
#     python3 tests/wrong_programs.py [--again] [CRATE..]
#     python3 tests/wrong_programs.py [--again] --tree TREE --beside LOG, while rt ci runs in TREE and writes to LOG
#
# Those that were refused before, of the very same sources, are taken from tests/refused (record.py), unless all are tried
# again. What is refused by a goal of its own is recorded. TREE may hold some of the crates alone.
#
# An edit says which function it makes wrong, and how (`function:`, then `file:`, `old:` and `new:`). A function is proved
# against the contracts of what it calls and not against their bodies, so all edits are tried at once, in a crate in which no
# other function has a body (blanks.py), and each has to be refused at its own function, by a goal of its own. Where a function's
# goals are all met and it waits for that of another edit, it is tried again, with edits none of which is in a function that leads
# to another's; where nothing is found so, alone and in the whole crate. Where a stored answer names what isn't there, and nothing
# else is found, the function is tried as it is: if it is proved, the name went with the edit, and else that one is tried in the
# whole crate. That the same functions are proved as they are in the whole crate is for rt ci to say, beside which it stands on
# copies of the libraries that that one builds; else it is tried before the edits, over the libraries that were built last.
import argparse
import contextlib
import importlib.machinery
import importlib.util
import os
import re
import shutil
import signal
import subprocess
import sys
import tempfile
import threading
import time
from concurrent.futures import ThreadPoolExecutor, as_completed
from dataclasses import dataclass
from pathlib import Path

sys.dont_write_bytecode = True

from blanks import FUNCTION, Blanks, leave_open
from record import Record

TOP = Path(__file__).resolve().parent.parent
RECORD = TOP / "tests/refused"
# What a line of a function says where its proof waits for that of another.
WAITS = re.compile(r"it calls|it waits for|it passes the block")
# What it says where a goal of its own isn't met.
UNMET = re.compile(r"`search` did not prove|expected answers in ")
# What is said of a stored answer that names what an edit took away, which says little of the contract.
NAMES = re.compile(r"has no field|is not in scope|has no `|was not admitted")
# What it says of a function whose goals are all met, in the whole crate and beside open proofs.
MET = re.compile(r"proved$|no holes|depends on a hole")
# A check that is killed, most likely for memory, is tried again.
KILLED = (-signal.SIGKILL, 128 + signal.SIGKILL)
TRIES = 3
# What ./prove writes behind all that rt ci says.
ENDED = "rt ci has ended"
# What is said where that alone is found.
ONLY_NAMES = "refused (only since a stored answer names what the edit took away)"
# Names of functions that say nothing of whose they are.
OF_MANY_TYPES = {"clone", "copy", "drop", "eq", "fmt", "from", "new"}


def kit():
    """The kit's own command, which checks a copy of a crate with some of its texts changed."""
    loader = importlib.machinery.SourceFileLoader("rt", os.path.realpath(shutil.which("rt")))
    made = importlib.util.module_from_spec(importlib.util.spec_from_loader("rt", loader))
    loader.exec_module(made)
    return made


@dataclass(frozen=True)
class Edit:
    crate: str
    name: str
    function: str
    changes: tuple  # of file, old text and new text

    def last_name(self):
        return self.function.split("::")[-1]

    def answers(self):
        """Where its function's stored answers stand; `+` is before the name of a function that its module has too."""
        *above, last = map(re.escape, self.function.split("::"))
        return r"\./proofs/" + "/".join([*above, rf"\+?{last}"]) + "/"

    def is_of_code(self):
        return all(file.startswith("src/") for file, _, _ in self.changes)

    def applied(self, folder, texts):
        """The texts with this edit in them too; none where an old text doesn't stand in its file once."""
        texts = dict(texts)
        for file, old, new in self.changes:
            text = texts.get(file) or (folder / file).read_text(encoding="utf-8")
            if text.count(old) != 1:
                return None
            texts[file] = text.replace(old, new)
        return texts


def read_edit(path):
    function, file, old, changes = "", "", "", []
    for line in path.read_text(encoding="utf-8").splitlines():
        key, _, value = line.partition(":")
        value = value.removeprefix(" ")
        if key == "function":
            function = value
        elif key == "file":
            file = value
        elif key == "old":
            old = value
        elif key == "new":
            changes.append((file, old, value))
    if not function or not all(file and old for file, old, _ in changes or [("", "", "")]):
        sys.exit(f"{path} names no function, or changes nothing")
    return Edit(path.parent.parent.name, path.stem, function, tuple(changes))


class Calls:
    """Which functions of a crate may lead to which, by their names. It is a guess: what it gets wrong costs a round more, since
    a function that waits for another is told apart."""

    def __init__(self, folder):
        self.named = {}
        for file in sorted(folder.glob("src/**/*.rt")):
            text = file.read_text(encoding="utf-8")
            starts = list(FUNCTION.finditer(text))
            for start, end in zip(starts, [*[it.start() for it in starts[1:]], len(text)]):
                called = set(re.findall(r"(\w+)\(", text[start.end() : end]))
                self.named.setdefault(start[2], set()).update(called - OF_MANY_TYPES)

    def from_function(self, name):
        """The names of the functions to which it leads, and its own."""
        found, left = {name}, [name]
        while left:
            more = (self.named.get(left.pop(), set()) & self.named.keys()) - found
            found |= more
            left += more
        return found


class Trial:
    """The edits of one crate."""

    def __init__(self, rt, crate, edits, kept, is_told):
        self.rt, self.crate, self.edits, self.kept, self.is_told = rt, crate, edits, kept, is_told
        self.folder = Path(crate.folder)
        # the texts without the bodies of other functions, and whose proofs are open then
        self.blank, *self.opened = Blanks(self.folder).without({edit.function for edit in edits})
        calls = Calls(self.folder)
        self.leads = {edit: calls.from_function(edit.last_name()) for edit in edits}

    def run(self):
        """For each edit whether it is refused, and what to say."""
        told, left = {}, []
        proved = "" if self.is_told else self.check(self.blank, self.edits, self.opened)
        for edit in self.edits:
            if edit.applied(self.folder, {}) is None:
                told[edit] = False, "BAD EDIT: an old text doesn't stand in its file once"
            elif not self.is_told and not MET.match(line_of(proved, edit)):
                told[edit] = False, f"BAD EDIT: {edit.function} isn't proved as it is: {last_line(proved)}"
            else:
                left.append(edit)
        are_tried = False
        while left:
            decided = self.round(left, are_tried)
            are_tried = True
            told |= decided
            left = [edit for edit in left if edit not in decided]
        return [(edit, *told[edit]) for edit in self.edits]

    def check(self, texts, edits, opened=()):
        """What the prover says of the edits' functions, with these texts in place of the crate's own, and these proofs open."""
        flags = ["--jobs", "1", *[word for edit in edits for word in ("--only", edit.function)]]
        for _ in range(TRIES):
            ran = self.checked(texts, [*flags, "--allow-holes"] if opened else flags, opened)
            if ran.returncode not in KILLED:
                break
            time.sleep(60)
        return ran.stdout

    def checked(self, texts, flags, opened):
        with tempfile.TemporaryDirectory(prefix="wrong-") as room:
            for part in self.rt.rtlib.PARTS:
                if (self.folder / part).is_dir():
                    shutil.copytree(self.folder / part, f"{room}/{part}")
            for path, text in texts.items():
                Path(room, path).write_text(text, encoding="utf-8")
            if opened:
                leave_open(room, self.crate.name, *opened)
            words = ["check", *self.crate.words(flags, keeps=False), "--incremental", self.kept]
            command = [*self.rt.rtlib.guarded(), self.rt.rtlib.RATTLE, *words]
            how = {"stdout": subprocess.PIPE, "stderr": subprocess.STDOUT, "text": True, "errors": "replace"}
            return subprocess.run(command, cwd=room, stdin=subprocess.DEVNULL, check=False, **how)

    def round(self, left, are_tried):
        """What is found of some of the edits, of one at least. Once they were tried together, none leads to another."""
        chosen, texts = [], self.blank
        # those that lead to the fewest first
        for edit in sorted(left, key=lambda it: len(self.leads[it])):
            fits = self.are_apart if are_tried else self.are_of_two_functions
            with_it = edit.applied(self.folder, texts) if all(fits(edit, it) for it in chosen) else None
            if with_it is not None:
                chosen, texts = [*chosen, edit], with_it
        output = self.check(texts, chosen, self.opened)
        found = {edit: judged(output, edit) for edit in chosen}
        found = {edit: it for edit, it in found.items() if it}
        decided = {edit: it for edit, it in found.items() if not it[1].startswith(ONLY_NAMES)}
        return decided or self.by_names_of_edits(found) or {left[0]: self.judged_alone(left[0])}

    def by_names_of_edits(self, found):
        """Those whose functions are proved as they are without the bodies of others, so that the names went with the edits."""
        output = self.check(self.blank, found, self.opened) if found else ""
        return {edit: it for edit, it in found.items() if MET.match(line_of(output, edit))}

    def are_of_two_functions(self, edit, other):
        """Whether either may be refused by goals of its own beside the other, by whose names they are told apart; an edit of a
        definition may be seen in any proof."""
        return edit.is_of_code() and other.is_of_code() and edit.last_name() != other.last_name()

    def are_apart(self, edit, other):
        """Whether neither waits for the other."""
        is_led = edit.last_name() in self.leads[other] or other.last_name() in self.leads[edit]
        return self.are_of_two_functions(edit, other) and not is_led

    def judged_alone(self, edit):
        output = self.check(edit.applied(self.folder, {}), [edit])
        return judged(output, edit) or (False, f"BAD EDIT: {last_line(output)}")


def last_line(output):
    return output.rstrip().rpartition("\n")[2][:160]


def line_of(output, edit):
    """What the prover says of the edit's function."""
    start = f"fn {edit.crate}::{edit.function}: "
    return next((line.removeprefix(start) for line in output.splitlines() if line.startswith(start)), "")


def judged(output, edit):
    """Whether the edit is refused, and what to say; none where its function only waits for the proof of another, or wasn't
    reached."""
    line = line_of(output, edit)
    if MET.match(line):
        return False, "NOT REFUSED: the function is still proved with this edit"
    first = first_of(output, edit)
    is_unmet = UNMET.search(line) or (first and not NAMES.search(first))
    if not line or (WAITS.search(line) and not is_unmet):
        return None
    how = ONLY_NAMES if NAMES.search(first) else "refused"
    return True, f"{how}: {(first or line)[:160]}"


def first_of(output, edit):
    """The first thing said of the function's own proof, one that isn't only of names where there is one."""
    name = edit.last_name()
    # a goal of a cycle of several modules has its function's module before it
    goal = rf"`(?:\w+::)*{name}-"
    # an edit of a definition may be refused in any lemma
    own = re.compile(rf"{edit.answers()}\S*: error|: error: {goal}|\({goal}" if edit.is_of_code() else ": error")
    said = [line for line in output.splitlines() if own.search(line)]
    return next((line for line in said if not NAMES.search(line)), said[0] if said else "")


class Built:
    """The libraries that are there, or are built where they aren't."""

    # whether it is told elsewhere that the crate itself is proved as it is
    is_told = False

    def turn(self):
        """A time in which a crate may be tried."""
        return contextlib.nullcontext()

    def is_proved(self, _crate):
        """A crate's functions were proved as they are before its edits."""
        return True

    def prepare(self, crate):
        """Why a library of the crate can't be had; nothing where all are there."""
        for library in crate.below():
            if not os.path.isdir(library.rlib) and library.build_rlib(["--jobs", "1"], anew=False):
                return f"its library {library.name} isn't proved"
        return ""


class Followed:
    """The libraries that rt ci builds, by what it writes; each is copied, since it gives back at its end what was there before."""

    is_told = True

    def __init__(self, log, room, processors):
        self.log, self.room, self.copied, self.lock = Path(log), room, {}, threading.Lock()
        self.processors, self.tried = processors, 0

    @contextlib.contextmanager
    def turn(self):
        """One of those in which so many crates may be tried at once."""
        while not self.is_begun():
            time.sleep(1)
        try:
            yield
        finally:
            with self.lock:
                self.tried -= 1

    def is_begun(self):
        with self.lock:
            is_free = self.tried < self.most()
            self.tried += is_free
        return is_free

    def most(self):
        """While rt ci runs, which wants the other half of the memory, half of the processors are for wrong programs, and one more
        where one has been idle for a minute; then all."""
        if ENDED in self.lines():
            return self.processors
        return max(self.processors // 2, 1) + (os.getloadavg()[0] < self.processors - 0.5)

    def lines(self):
        return self.log.read_text(errors="replace").splitlines()

    def prepare(self, crate):
        for library in crate.below():
            if not self.is_proved(library):
                return f"its library {library.name} isn't proved"
            with self.lock:
                copy = f"{self.room}/{library.name}.rlib"
                if library.name not in self.copied:
                    shutil.copytree(library.rlib, copy)
                    self.copied[library.name] = copy
            library.rlib = copy
        return ""

    def is_proved(self, library):
        """Waits until rt ci has said so, or that an earlier run on this machine proved it, or has ended."""
        while True:
            lines = self.lines()
            if any(line.startswith((f"rt: {library.name} proved", f"rt: {library.name} is kept: ")) for line in lines):
                return True
            if ENDED in lines:
                return False
            time.sleep(1)


def tried(rt, libraries, crate, edits):
    """What is found of each edit, and how many seconds that took."""
    why = libraries.prepare(crate)
    if why:
        return [(edit, False, why) for edit in edits], 0
    with libraries.turn(), tempfile.TemporaryDirectory(prefix="wrong-") as kept:
        begun = time.monotonic()
        return Trial(rt, crate, edits, kept, libraries.is_told).run(), time.monotonic() - begun


def recorded(record, libraries, crate, known, told):
    """Records what was refused by a goal of its own, of a crate that is proved as it is; what is gone is forgotten."""
    by_goals = [edit for edit, is_refused, text in told if is_refused and not text.startswith(ONLY_NAMES)]
    record.write(crate, [*known, *by_goals] if not told or libraries.is_proved(crate) else known)


def tried_but(try_edits, crate, edits, known):
    """What is found of the edits of a crate but the known ones."""
    left = [edit for edit in edits if edit not in known]
    return try_edits(crate, left) if left else ([], 0)


def tell(crates, libraries, record, try_edits, is_again=False):
    """Tries the edits of the crates that the record doesn't have, those of crates that stand on fewer first, and says what is
    found. Answers how many are refused, how many of these are taken from the record, and how many aren't refused."""
    work = [(it, list(map(read_edit, sorted(Path(it.folder).glob("wrong/*.edit"))))) for it in crates]
    work = [(it, edits, [] if is_again else record.known(it, edits)) for it, edits in work if edits]
    work.sort(key=lambda it: (len(it[0].below()), -len(it[1])))
    passed = taken = failed = 0
    with ThreadPoolExecutor(len(os.sched_getaffinity(0))) as pool:
        trials = {pool.submit(tried_but, try_edits, *it): it for it in work}
        for trial in as_completed(trials):
            (crate, _, known), (told, seconds) = trials[trial], trial.result()
            for edit, is_refused, text in told:
                print(f"wrong {edit.crate}/{edit.name}: {text}", flush=True)
                passed, failed = passed + is_refused, failed + (not is_refused)
            print(f"(wrong {crate.name}: {len(known)} taken from the record, {len(told)} tried, {seconds:.0f} s)", flush=True)
            passed, taken = passed + len(known), taken + len(known)
            recorded(record, libraries, crate, known, told)
    return passed, taken, failed


def options():
    parser = argparse.ArgumentParser(description="Tries the wrong programs, each of which the prover must refuse.")
    parser.add_argument("--again", action="store_true", help="try also those that the record has")
    parser.add_argument("--tree", metavar="TREE", type=Path, default=TOP, help="where the crates stand, if not here")
    parser.add_argument("--beside", metavar="LOG", help="stand on what rt ci builds, which writes to that file")
    parser.add_argument("crates", nargs="*", metavar="CRATE")
    return parser.parse_args()


def chosen(every, names):
    """The crates of these names, all where there is none."""
    unknown = set(names) - {it.name for it in every}
    if unknown:
        sys.exit(f"no crate is named {' or '.join(sorted(unknown))}")
    return [it for it in every if not names or it.name in names]


def main():
    rt, said = kit(), options()
    os.chdir(said.tree)
    rt.rtlib.guarded()
    crates = chosen(rt.rtlib.crates_below(os.getcwd()), said.crates)
    line = subprocess.run(["rt", "version"], capture_output=True, text=True, check=True).stdout.strip()
    with tempfile.TemporaryDirectory(prefix="libraries-") as room:
        libraries = Followed(said.beside, room, len(os.sched_getaffinity(0))) if said.beside else Built()
        try_edits = lambda crate, edits: tried(rt, libraries, crate, edits)
        passed, taken, failed = tell(crates, libraries, Record(RECORD, line), try_edits, said.again)
    print(f"{taken} of {passed + failed} wrong programs were taken from the record")
    print(f"{passed} passed, {failed} failed")
    # some of the crates may have none
    is_lost = not passed and said.tree == TOP
    return 1 if failed or is_lost else 0


if __name__ == "__main__":
    sys.exit(main())
