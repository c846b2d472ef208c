# SPDX-License-Identifier: MIT OR Apache-2.0
# Says whether the tests see bugs: python3 tests/planted.py SEED [PART..] [--program PROGRAM] [--count N] [--minutes M]
# [--jobs N]. It plants so many bugs by the seed, one at a time, in a copy of the tree, runs the tests that are to see
# it there, and tells each bug that none of them sees. PARTS has what is planted where, and which tests are to see it.
# planted_equal.jsonl has those bugs that change nothing that a test can see, each with its reason; they aren't planted.
import argparse
import json
import random
import sys
import tempfile
import time
from collections import Counter
from concurrent.futures import ThreadPoolExecutor
from dataclasses import dataclass
from pathlib import Path
from typing import Dict, List, Optional, Sequence, Tuple

sys.dont_write_bytecode = True

from planted_copies import TOP, Copy, cannot_confine
from planted_sites import Bug, bugs_of, is_read

EQUAL = Path(__file__).resolve().parent / "planted_equal.jsonl"
PROGRAM = "PROGRAM"
COUNT, MINUTES, JOBS = 200, 30, 2


@dataclass(frozen=True)
class Part:
    """Files in which bugs are planted, the tests that are to see them, those that take longer last, and how many of
    100 they have to see."""

    files: Tuple[str, ...]
    tests: Tuple[Tuple[str, ...], ...]
    bar: int


SCRIPTS = ("tests/script_checks.py", PROGRAM)
PROVE = ("tests/prove_checks.py",)
STRANGERS = "tests/stranger_checks.py"
FRONT_END = "tests/ansible_checks.py"
LAUNCHER = ("tests/launcher_checks.py", PROGRAM)
PARTS: Dict[str, Part] = {
    "launcher": Part(("playcheck", "launch.sh"), (LAUNCHER,), 90),
    "sources": Part(("sources.sh",), (SCRIPTS, PROVE, LAUNCHER), 90),
    "gate": Part(("test", "prove", "release", ".ci/run", "tests/counts.sh"), (SCRIPTS, PROVE), 90),
    "front_end": Part(("ansible/playcheck_ansible/*.py",),
                      ((FRONT_END, PROGRAM, "--quick"), (STRANGERS, PROGRAM, "--quick"), (FRONT_END, PROGRAM),
                       (STRANGERS, PROGRAM)), 95),
    "modules": Part(("examples/local/modules/*", "examples/ssh/modules/*"), (("tests/local_checks.py", PROGRAM),), 90),
}


def files_of(part: Part) -> List[str]:
    found = {path.relative_to(TOP).as_posix() for pattern in part.files for path in TOP.glob(pattern) if path.is_file()}
    return sorted(found)


def lines_of(files: Sequence[str]) -> int:
    return sum(len((TOP / file).read_bytes().splitlines()) for file in files)


def equals() -> Dict[Tuple[str, ...], str]:
    """The bugs that aren't any, with the reason of each."""
    rows = [json.loads(line) for line in EQUAL.read_text(encoding="utf-8").splitlines()]
    return {(file, row["before"], row["after"]): row["why"] for row in rows for file in row["files"]}


def lost_equals() -> List[str]:
    """Rows of planted_equal.jsonl that are of no bug which can be planted, or say no reason."""
    known = equals()
    files = {file for file, _, _ in known}
    made = {tuple(bug.key()) for file in files if (TOP / file).is_file() for bug in bugs_of(TOP, file)}
    return [" | ".join(key) for key, why in sorted(known.items()) if key not in made or not why]


def chosen(files: Sequence[str], count: int, seed: int) -> List[Bug]:
    """So many bugs, at most all: a file by its lines, a sort of bug, and one of that sort, by the seed."""
    made = random.Random(seed)
    left: Dict[str, Dict[str, List[Bug]]] = {}
    for file in files:
        for bug in bugs_of(TOP, file):
            left.setdefault(file, {}).setdefault(bug.sort, []).append(bug)
    found: List[Bug] = []
    while len(found) < count and left:
        file = made.choices(list(left), [lines_of([name]) for name in left])[0]
        sort = made.choice(list(left[file]))
        bug = left[file][sort].pop(made.randrange(len(left[file][sort])))
        if not left[file][sort]:
            del left[file][sort]
        if not left[file]:
            del left[file]
        if is_read(bug) and bug.key() not in [it.key() for it in found]:
            found.append(bug)
    return found


class Trial:
    """Bugs, each tried in the next copy that is free, until the time is over."""

    def __init__(self, copies: List[Copy], end: float) -> None:
        self.free, self.end = list(copies), end

    def seen(self, part: Part, bug: Bug) -> Optional[str]:
        """What a test says of the bug, nothing where none sees it; None where there was no time."""
        if time.monotonic() > self.end:
            return None
        copy = self.free.pop()
        try:
            said = copy.with_bug(bug, part.tests)
        finally:
            self.free.append(copy)
        if not said:
            print(f"NOT SEEN: {bug.told()}", flush=True)
        return said


def told(name: str, bugs: List[Bug], found: List[Optional[str]], equal: int) -> bool:
    """Tells what came of the bugs of a part, and says whether its bar is reached."""
    tried = [(bug, said) for bug, said in zip(bugs, found) if said is not None]
    for file, count in sorted(Counter(bug.file for bug, _ in tried).items()):
        print(f"  {file}: {sum(bool(said) for bug, said in tried if bug.file == file)} of {count} seen")
    seen, bar = sum(bool(said) for _, said in tried), PARTS[name].bar
    slow = sum("TimeoutExpired" in (said or "") for _, said in tried)
    is_reached = bool(tried) and 100 * seen >= bar * len(tried)
    print(f"{name}: {seen} of {len(tried)} bugs seen ({100 * seen / max(1, len(tried)):.1f} of 100, the bar is {bar}), "
          f"{slow} of these by the time that a test took, {equal} equal ones left out, {len(bugs) - len(tried)} not tried for want of time", flush=True)
    return is_reached


def tried(name: str, words: argparse.Namespace, trial: Trial) -> bool:
    part, known = PARTS[name], equals()
    whole = sum(lines_of(files_of(PARTS[other])) for other in words.parts)
    bugs = chosen(files_of(part), max(1, round(words.count * lines_of(files_of(part)) / whole)), words.seed)
    real = [bug for bug in bugs if tuple(bug.key()) not in known]
    broken = trial.free[0].run(part.tests)
    if broken:
        print(f"{name}: the tests fail without a bug: {broken}")
        return False
    with ThreadPoolExecutor(words.jobs) as pool:
        found = list(pool.map(lambda bug: trial.seen(part, bug), real))
    return told(name, real, found, len(bugs) - len(real))


def words_given() -> argparse.Namespace:
    parser = argparse.ArgumentParser(description="Says whether the tests see bugs.")
    parser.add_argument("seed", type=int)
    parser.add_argument("parts", nargs="*", choices=[*PARTS, []], metavar="PART", default=[])
    parser.add_argument("--program", default=str(TOP / "dist/playcheck"))
    parser.add_argument("--count", type=int, default=COUNT, help="how many bugs in all")
    parser.add_argument("--minutes", type=float, default=MINUTES, help="after which no other bug is tried")
    parser.add_argument("--jobs", type=int, default=JOBS, help="how many bugs at once")
    words = parser.parse_args()
    words.parts = words.parts or list(PARTS)
    return words


def main() -> int:
    words = words_given()
    reason = cannot_confine()
    if reason:
        print(f"planted.py: a bug may remove files, and nothing keeps it in its copy here: {reason}", file=sys.stderr)
        return 64
    with tempfile.TemporaryDirectory() as folder:
        copies = [Copy(Path(folder, str(number)), Path(words.program).resolve(), PROGRAM) for number in range(words.jobs)]
        trial = Trial(copies, time.monotonic() + 60 * words.minutes)
        reached = [tried(name, words, trial) for name in words.parts]
    return 0 if all(reached) else 1


if __name__ == "__main__":
    sys.exit(main())
