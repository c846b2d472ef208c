# SPDX-License-Identifier: MIT OR Apache-2.0
# Checks of ./test, ./prove, ./release, .ci/run and tests/counts.sh in made trees with made parts: what they run, what
# they count and how they end: python3 tests/script_checks.py [PROGRAM], with a program that says its version.
import os
import re
import shutil
import sys
import tempfile
from concurrent.futures import ThreadPoolExecutor
from typing import Callable, Dict, List, Sequence, Tuple

sys.dont_write_bytecode = True

import script_prove
from launcher_checks import BUILDING, FAILS, REFUSED
from script_trees import BUILT, COUNTS, KITS_LINE, READY, SOURCES, Outcome, Rows, Tree
from tree_copies import TOP, sum_of, write_program

# counts.sh.


def sums(tree: Tree, *parts: Tuple[str, int]) -> Outcome:
    """What parts that say this, and end so, are summed to."""
    lines = [f"run_part 'part {number}' sh -c 'printf %b \"{said}\"; exit {status}'"
             for number, (said, status) in enumerate(parts, 1)]
    return tree.run("bash", "-c", "\n".join(["set -u; . tests/counts.sh", *lines, "tell_counts"]))


GOOD, BAD = ("3 passed, 0 failed", 0), ("0 passed, 1 failed", 1)
# What one part says and how it ends, and what it counts.
COUNTED = [
    (("3 passed, 0 failed\n", 0), GOOD),
    (("3 passed, 0 failed", 0), GOOD),
    (("3 passed, 0 failed (one is late)\n", 0), GOOD),
    (("a line\n7 passed, 7 failed\n3 passed, 0 failed\n", 0), GOOD),
    (("08 passed, 0 failed\n", 0), ("8 passed, 0 failed", 0)),
    (("19 passed, 0 failed\n", 0), ("19 passed, 0 failed", 0)),
    (("1 passed, 19 failed\n", 1), ("1 passed, 19 failed", 1)),
    (("1 passed, 010 failed\n", 1), ("1 passed, 10 failed", 1)),
    (("3 passed, 2 failed\n", 1), ("3 passed, 2 failed", 1)),
    (("3 passed, 2 failed\n", 0), ("3 passed, 2 failed", 1)),
    (("3 passed, 0 failed\n", 1), ("3 passed, 1 failed", 1)),
    (("3 passed, 0 failed\n", 139), ("3 passed, 1 failed", 1)),
    (("0 passed, 0 failed\n", 0), ("0 passed, 0 failed", 1)),
    (("", 0), BAD),
    (("", 1), BAD),
    (("Traceback\n", 1), BAD),
    (("3 passed, 0 failed\nTraceback\n", 0), BAD),
    (("3 passed, 0 failed\n\n", 0), BAD),
    (("3 passed, 0 failed, 1 late\n", 0), BAD),
    (("3 passed, 0 failedly\n", 0), BAD),
    (("all 3 passed, 0 failed\n", 0), BAD),
    (("3 passed 0 failed\n", 0), BAD),
    (("-3 passed, 0 failed\n", 0), BAD),
]


def counts_one(tree: Tree) -> Rows:
    for (said, status), (counted, ended) in COUNTED:
        found = sums(tree, (said.replace("\n", "\\n"), status))
        end = "" if said.endswith("\n") or not said else said.rpartition("\n")[2]
        shown = [*said[: len(said) - len(end)].splitlines(), f"{end}(part 1: N s)"]
        yield found, (ended, [*shown, counted], "")
    yield tree.left_behind(), []


def counts_several(tree: Tree) -> Rows:
    found = sums(tree, ("2 passed, 1 failed\\n", 1), ("x\\n", 0), ("5 passed, 0 failed\\n", 0))
    yield found[0], 1
    yield found[1][-1], "7 passed, 2 failed"
    yield [line for line in found[1] if line.startswith("(")], ["(part 1: N s)", "(part 2: N s)", "(part 3: N s)"]
    part = "run_part one echo '1 passed, 0 failed'"
    parts = f"skip_part two 'it rains'\n{part}\nskip_part three 'it snows'\ntell_counts"
    skipped = tree.run("bash", "-uc", f". tests/counts.sh\n{parts}")
    yield skipped, (0, ["(skipped: two: it rains)", "1 passed, 0 failed", "(one: N s)", "(skipped: three: it snows)",
                        "2 skipped, for the reasons above", "1 passed, 0 failed"], "")
    words = tree.run("bash", "-uc", ". tests/counts.sh\nrun_part one printf '<%s>' 'a  b' '' '*'; tell_counts")
    yield words[1][0], "<a  b><><*>(one: N s)"
    slow = tree.run("bash", "-uc", ". tests/counts.sh\nrun_part one sleep 2 | sed 's/: [01] s/: too few/; s/: [0-9]* s/: enough/'")
    yield slow[1], ["(one: enough)"]


# ./test.


def parts_of(section: str) -> Dict[str, bool]:
    """Each script that a section of tests/README.md names and that is run by itself, with whether it takes a
    program."""
    page = (TOP / "tests/README.md").read_text(encoding="utf-8")
    text = page.partition(f"## What {section} runs\n")[2].partition("\n## ")[0]
    found = {}
    for name in re.findall(r"`(?:packaging/)?(\w+_checks\.py|run_cases\.py|make_pages\.py)\b", text):
        for path in [*TOP.glob(f"tests/**/{name}"), *TOP.glob(f"packaging/{name}")]:
            head = "".join(line for line in path.read_text(encoding="utf-8").splitlines(keepends=True)[:9] if line[0] == "#")
            usage = re.search(rf"python3 ({re.escape(path.relative_to(TOP).as_posix())})( \[?PROGRAM\b)?", head)
            if usage:
                found[usage[1]] = bool(usage[2])
    return found


FLAGS = {"tests/worker_checks.py": " --threads", "packaging/make_pages.py": " --check"}
OF_YAML = ["packaging/make_pages.py", "tests/ansible_checks.py", "tests/package_checks.py", "tests/stranger_checks.py"]
OF_ANSIBLE = "tests/peer_checks.py"


def parts_wanted(program: str, without: Sequence[str] = ()) -> List[str]:
    found = [f"{name}{f' {program}' if takes else ''}{FLAGS.get(name, '')}" for name, takes in parts_of("./test").items()
             if name not in without]
    return sorted([*found, "tests/semantics/make_rows.py --check"])


def test_runs_all(tree: Tree) -> Rows:
    """Each part that the page names, on the ready program, from wherever it is called."""
    tree.is_ready()
    (tree.folder / "link").symlink_to("tree/test")
    wanted = parts_wanted(READY)
    yield len(wanted) >= 14, True
    for words, folder in ((["./test"], "tree"), (["../link"], "room"), (["../tree/test"], "tools")):
        (tree.folder / "asked").unlink(missing_ok=True)
        status, lines, errors = tree.run(*words, folder=folder)
        yield (status, errors, lines[0], lines[-1]), (0, "", f"testing {READY}", f"{3 * len(wanted)} passed, 0 failed")
        yield sorted(tree.asked()), wanted
        names = [line for line in lines if re.fullmatch(r"\(.+: N s\)", line)]
        yield (len(names), len(set(names))), (len(wanted), len(wanted))
        yield other_lines(lines, wanted), []
    yield tree.left_behind(), []


def other_lines(lines: Sequence[str], wanted: Sequence[str]) -> List[str]:
    """What ./test prints beside its first and last line, what parts say, and the lines that it puts behind them."""
    of_parts = {"3 passed, 0 failed", *(f"this is {line.split()[0]}" for line in wanted)}
    return [line for line in lines[1:-1] if line not in of_parts and not line.startswith("(") and "skipped, for" not in line]


def names_of(lines: Sequence[str]) -> List[str]:
    """The parts that were run or skipped."""
    return [found[1] for line in lines for found in [re.match(r"\((?:skipped: )?(.+?): ", line)] if found]


def test_skips(tree: Tree) -> Rows:
    """What can't be run here is told, and the rest is run."""
    tree.is_ready()
    names = names_of(tree.run("./test")[1])
    (tree.folder / "asked").unlink()
    tree.environment["NO_YAML"] = "1"
    (tree.tools / "cc").unlink()
    write_program(tree.tools / "mypy", "exit 1")
    status, lines, errors = tree.run("./test")
    yield names_of(lines), names
    wanted = parts_wanted(READY, [*OF_YAML, OF_ANSIBLE, "tests/type_checks.py", "tests/refused_checks.py"])
    yield (status, errors, lines[-2:]), (0, "", ["7 skipped, for the reasons above", f"{3 * len(wanted)} passed, 0 failed"])
    yield sorted(tree.asked()), wanted
    reasons = [line.rpartition(": ")[2] for line in lines if line.startswith("(skipped: ")]
    yield reasons, ["PyYAML isn't here)"] * 4 + ["ansible-playbook or PyYAML isn't here)",
                                                 "mypy with the stubs of PyYAML isn't here)",
                                                 "neither cc nor gcc nor clang is here)"]
    yield len({line for line in lines if line.startswith("(skipped: ")}), 7
    (tree.tools / "mypy").unlink()
    yield "(skipped: types of the front end: mypy with the stubs of PyYAML isn't here)" in tree.run("./test")[1], True
    write_program(tree.tools / "mypy", "exit 0")
    for name in ("gcc", "clang"):
        write_program(tree.tools / name, "exit 1")
        lines = tree.run("./test")[1]
        yield (lines[-2], other_lines(lines, parts_wanted(READY))), ("5 skipped, for the reasons above", [])
        (tree.tools / name).unlink()


def test_fails(tree: Tree) -> Rows:
    tree.is_ready()
    write_program(tree.tools / "python3", COUNTS.replace("echo \"3", "case $1 in *house*) exit 1;; esac\necho \"3"))
    status, lines, errors = tree.run("./test")
    yield (status, errors, lines[-1]), (1, "", f"{3 * len(parts_wanted(READY)) - 3} passed, 1 failed")


def test_other_programs(tree: Tree) -> Rows:
    """What was built here where none is ready, else it is built; and where it can't be nothing is tried."""
    yield tree.run("./test"), (REFUSED[0], [], REFUSED[2].decode())
    yield tree.asked(), []
    tree.has_kit(FAILS)
    status, lines, errors = tree.run("./test")
    yield (status, lines, tree.asked()), (64, [], [])
    tree.has_kit()
    status, lines, errors = tree.run("./test")
    yield (status, errors, lines[0]), (0, BUILDING.decode(), f"testing {BUILT}")
    yield sorted(tree.asked()), parts_wanted(BUILT)
    status, lines, errors = tree.run("./test")
    yield (status, errors, lines[0]), (0, "", f"testing {BUILT}")


# ./release.


def kept(tree: Tree) -> Tuple[str, str]:
    """What stands in dist: the program, and what is said of its sources."""
    program, sources = tree.top / READY, tree.top / "dist/sources"
    return program.read_text(encoding="utf-8"), sources.read_text(encoding="utf-8")


def releases(tree: Tree) -> Rows:
    """The program that was built is kept, with the sum of its sources and the kit's line; first of all it is built."""
    yield tree.run("./release"), (REFUSED[0], [], REFUSED[2].decode())
    yield (tree.top / "dist").exists(), False
    tree.has_kit(FAILS)
    yield tree.run("./release")[:2], (64, [])
    yield (tree.top / "dist").exists(), False
    tree.has_kit()
    sources = f"{sum_of(tree.top)}\n{KITS_LINE}\n"
    yield tree.run("./release"), (0, [], BUILDING.decode())
    yield kept(tree), ("#!/bin/sh\necho just built\n", sources)
    yield os.access(tree.top / READY, os.X_OK), True
    tree.is_built()
    (tree.folder / "link").symlink_to("tree/release")
    yield tree.run("../link", folder="room"), (0, [], "")
    yield kept(tree), ("#!/bin/sh\necho built here\n", sources)
    tree.write("crates/low/src/lib.rt", "// another\n")
    yield tree.run("./release"), (0, [], BUILDING.decode())
    yield kept(tree)[1] not in ("", sources), True
    yield kept(tree)[1], f"{sum_of(tree.top)}\n{KITS_LINE}\n"
    yield tree.left_behind(), []


def releases_nothing(tree: Tree) -> Rows:
    """A program that can't be kept, and a kit that says no line, are told by the status."""
    tree.is_built()
    write_program(tree.tools / "rt", "exit 1")
    yield tree.run("./release")[0] != 0, True
    tree.has_kit()
    shutil.rmtree(tree.top / "dist")
    tree.write("dist/playcheck/is/a folder", "")
    (tree.tools / "cp").unlink()
    yield tree.run("./release")[0] != 0, True
    yield (tree.top / "dist/sources").exists(), False


def sums_sources(tree: Tree) -> Rows:
    """The sum of this very tree, and of a made one with names of all sorts, whatever the language of the system is."""
    script = 'top=$1; . "$1/sources.sh"; sources_sum; program_sources'
    for folder in (TOP, tree.top):
        status, lines, errors = tree.run("bash", "-uc", script, "bash", str(folder))
        yield (status, errors, lines[0]), (0, "", sum_of(folder))
    wanted = sorted(["crates.txt", *(f"crates/{name}" for name in SOURCES if not name.startswith("pb_other"))])
    yield lines[1:], wanted
    tree.environment["LC_ALL"] = "C.UTF-8"
    yield tree.run("bash", "-uc", script, "bash", str(tree.top))[1][1:], wanted
    for name, below in (("pb_cli", ["high", "low", "pb_cli"]), ("low", ["low"]), ("lo", []), ("", []),
                        ("pb_other", ["high", "low", "pb_cli", "pb_other"])):
        found = tree.run("bash", "-uc", 'top=$1; . "$1/sources.sh"; crates_below "$2"', "bash", str(tree.top), name)
        yield (found[0], sorted(line for line in found[1] if line), found[2]), (0, below, "")


# .ci/run.


def gate(tree: Tree) -> Rows:
    (tree.folder / "link").symlink_to("tree/.ci/run")
    for name in ("prove", "test"):
        write_program(tree.top / name, f"echo {name}: $PWD; echo '{len(name)} passed, 0 failed'")
    wanted = [f"prove: {tree.top}", "5 passed, 0 failed", "(./prove: N s)",
              f"test: {tree.top}", "4 passed, 0 failed", "(./test: N s)", "9 passed, 0 failed"]
    for words, folder in ((".ci/run", "tree"), ("../link", "room")):
        yield tree.run(words, folder=folder), (0, wanted, "")
    for name in ("prove", "test"):
        (tree.top / name).rename(tree.top / "kept")
        write_program(tree.top / name, "exit 64")
        status, lines, errors = tree.run(".ci/run")
        yield (status, errors, lines[-1]), (1, "", f"{9 - len(name)} passed, 1 failed")
        (tree.top / "kept").rename(tree.top / name)


CHECKS: Dict[str, Callable[[Tree], Rows]] = {
    "counts of one part": counts_one,
    "counts of several parts": counts_several,
    "the parts of ./test": test_runs_all,
    "parts that ./test skips": test_skips,
    "a part of ./test that fails": test_fails,
    "the program of ./test": test_other_programs,
    "./release": releases,
    "./release of nothing": releases_nothing,
    "the sum of the sources": sums_sources,
    "the gate": gate,
    **script_prove.CHECKS,
}


def failures_of(name: str, program: str) -> List[str]:
    with tempfile.TemporaryDirectory() as folder:
        try:
            wrong = [pair for pair in CHECKS[name](Tree(folder, program)) if pair[0] != pair[1]]
        except Exception as fault:  # also a script that takes too long, or prints less than it is asked for
            return [f"FAILED: scripts, {name}: {fault!r}"]
    return [f"FAILED: scripts, {name}: wanted {wanted}, got {found}" for found, wanted in wrong]


def main() -> int:
    program, failed = os.path.abspath(sys.argv[1]) if len(sys.argv) > 1 else str(TOP / READY), 0
    with ThreadPoolExecutor(os.cpu_count() or 1) as pool:
        for failures in pool.map(lambda name: failures_of(name, program), CHECKS):
            failed += bool(failures)
            print("".join(f"{line}\n" for line in failures), end="")
    print(f"{len(CHECKS) - failed} passed, {failed} failed")
    return 1 if failed else 0


if __name__ == "__main__":
    sys.exit(main())
