# SPDX-License-Identifier: MIT OR Apache-2.0
# Checks of script_checks.py for ./prove, with a made prover and made parts: which it runs, with which programs, what it
# counts, and what it leaves behind.
import os
import re
import shutil
import signal
import subprocess
import time
from pathlib import Path
from typing import Callable, Dict, List

from script_trees import BUILT, COUNTS, KITS_LINE, READY, SECONDS, Rows, Tree
from tree_copies import write_program

NO_KIT = "playcheck: proofs want the kit's rt, which isn't on PATH\n"
# In the place of the kit's: it says where it is, with what stands there, and builds a program of each crate.
PROVES = """[ "$*" = ci ] || exit 2
echo "rt in $PWD: $(cd crates && echo *)"
for crate in crates/*; do
    mkdir -p $crate/out/rlib
    printf '#!/bin/sh\\necho built by rt\\n' >$crate/out/${crate#crates/}
    chmod +x $crate/out/${crate#crates/}
    touch -d @1000000000 $crate/out/${crate#crates/}
done
echo '7 passed, 0 failed'"""
# Wrong programs are tried until the proofs have ended; then it tells what it was given to read.
WATCHES = f"""case $1 in *wrong_programs*)
    for file; do :; done
    until grep -q '^rt ci has ended$' "$file"; do sleep 0.05; done
    sed 's/^/read: /' "$file"
    echo and errors >&2
    ;;
esac
{COUNTS}"""
ALL = ["bench/instructions.py crates/pb_cli/out/pb_cli", "tests/expression_cases.py", "tests/inventory_checks.py",
       "tests/refused_checks.py crates/pb_cli/out/pb_cli crates/pb_tests/out/pb_tests_tests "
       "crates/pb_pool_tests/out/pb_pool_tests_tests",
       "tests/seat_checks.py"]


def prepare(tree: Tree) -> None:
    """The ready program is the one that was built here, and all tools are there."""
    tree.has_kit(PROVES)
    tree.is_ready()
    shutil.rmtree(tree.top / "crates/pb_cli/out", ignore_errors=True)
    (tree.top / BUILT).parent.mkdir()
    shutil.copy2(tree.program, tree.top / BUILT)
    tree.has_kit(PROVES.replace("for crate in crates/*", "for crate in"))
    tree.write("HANDLES", "Handles allowed: none.\n")
    write_program(tree.tools / "valgrind", "exit 1")
    write_program(tree.tools / "python3", WATCHES)


def asked(tree: Tree) -> List[str]:
    """The parts that were run, but for the name of the file that is read by the wrong programs."""
    found = sorted(re.sub(r"--beside \S+$", "--beside FILE", line) for line in tree.asked())
    (tree.folder / "asked").unlink(missing_ok=True)
    return found


def wrong_programs(tree: Path, again: str = "") -> str:
    return f"tests/wrong_programs.py {again}--tree {tree} --beside FILE"


def part(script: str, name: str) -> List[str]:
    return [f"this is {script}", "3 passed, 0 failed", f"({name}: N s)"]


def proves_all(tree: Tree) -> Rows:
    prepare(tree)
    (tree.folder / "link").symlink_to("tree/prove")
    write_program(tree.tools / "nice", 'echo "as $1 $2"; shift 2; exec "$@"')
    proofs = [f"rt in {tree.top}: high low pb_cli pb_other", "7 passed, 0 failed"]
    for words, folder, again in ((["./prove"], "tree", ""), (["../link", "--again"], "room", "--again ")):
        status, lines, errors = tree.run(*words, folder=folder)
        yield asked(tree), sorted([*ALL, wrong_programs(tree.top, again)])
        refusals = ["as -n 10", *(f"read: {line}" for line in (*proofs, "rt ci has ended")), "and errors"]
        yield (status, errors, lines), (0, "", [
            *proofs, "(rt ci: N s)", *refusals, *part("tests/wrong_programs.py", "wrong programs, beyond rt ci"),
            *part("tests/expression_cases.py", "expressions"), *part("tests/inventory_checks.py", "inventories"),
            *part("tests/refused_checks.py", "refused allocations"), *part("tests/seat_checks.py", "seats"),
            *part("bench/instructions.py", "instructions"), "1 passed, 0 failed", "(ready program: N s)",
            "26 passed, 0 failed"])
    yield tree.left_behind(), []


def proves_less(tree: Tree) -> Rows:
    """What can't be compared is told, and isn't counted."""
    prepare(tree)
    (tree.tools / "valgrind").unlink()
    tree.write("dist/sources", (tree.top / "dist/sources").read_text().replace(KITS_LINE, "another kit"))
    status, lines, errors = tree.run("./prove")
    skipped = ["(skipped: instructions: valgrind isn't here)",
               "(skipped: ready program: dist/playcheck was made with another kit, whose program may differ)"]
    told = [line for line in lines if "skipped" in line]
    yield (status, errors, told), (0, "", [*skipped, "2 skipped, for the reasons above"])
    yield lines[-1], "22 passed, 0 failed"
    tree.write("crates/low/src/lib.rt", "// another\n")
    status, lines, errors = tree.run("./prove")
    yield lines[-3:], ["(skipped: ready program: dist/playcheck is of other sources: ./release makes it anew)",
                       "2 skipped, for the reasons above", "22 passed, 0 failed"]


def another_program(tree: Tree) -> Rows:
    """The ready program has to be that which was built here, byte for byte."""
    prepare(tree)
    with open(tree.top / BUILT, "ab") as file:
        file.write(b"\0")
    status, lines, _ = tree.run("./prove")
    yield (status, lines[-1]), (1, "25 passed, 1 failed")
    yield lines[-3:-1], ["0 passed, 1 failed", "(ready program: N s)"]


def fails(tree: Tree) -> Rows:
    """A prover or a part that ends badly, or counts nothing, is a failure."""
    prepare(tree)
    for kit, wanted in ((PROVES.replace("'7 passed, 0 failed'", "'7 passed, 0 failed'; exit 1"), "26 passed, 1 failed"),
                        ("echo crashed; exit 1", "19 passed, 1 failed"), ("exit 0", "19 passed, 1 failed")):
        tree.has_kit(kit.replace("for crate in crates/*", "for crate in"))
        status, lines, _ = tree.run("./prove")
        yield (status, lines[-1]), (1, wanted)
    tree.has_kit(PROVES.replace("for crate in crates/*", "for crate in"))
    for part, failed in (("wrong_programs", 1), ("seat_checks", 1)):
        write_program(tree.tools / "python3", f"{WATCHES}\ncase $1 in *{part}*) exit 1;; esac")
        status, lines, _ = tree.run("./prove")
        yield (status, lines[-1]), (1, f"26 passed, {failed} failed")
    yield tree.left_behind(), []


def wants_a_kit(tree: Tree) -> Rows:
    for words in ("./prove", "./prove --again", "./prove low"):
        yield tree.run(*words.split()), (64, [], NO_KIT)
    yield tree.asked(), []


def proves_some(tree: Tree) -> Rows:
    """A copy of the named crates and those below them is proved, and the programs that were built there are taken as
    they are."""
    prepare(tree)
    tree.has_kit(f"sort crates.txt; cat HANDLES crates/low/src/lib.rt; ls crates/low\n{PROVES}")
    (tree.tools / "ls").symlink_to(shutil.which("ls") or "")
    tree.write("crates/low/out/old", "built before")
    tree.write("crates/low/src/out/lib.rt", "// no output\n")
    tree.write("crates/low/proofs/Low.antt", "-- proved\n")
    status, lines, errors = tree.run("./prove", "--again", "high")
    yield (status, errors, lines[-1]), (0, "", "10 passed, 0 failed")
    texts = ["high: low", "low: clap  # pb_other # twice", "Handles allowed: none.", "// low/src/lib.rt", "proofs", "src"]
    yield lines[: len(texts)], texts
    folder = lines[len(texts)].partition(" in ")[2].partition(": ")[0]
    yield lines[len(texts)], f"rt in {folder}: high low"
    yield asked(tree), [wrong_programs(Path(folder), "--again ")]
    for name in ("low", "high"):
        made = tree.top / "crates" / name / "out" / name
        yield (made.read_text(), os.access(made, os.X_OK)), ("#!/bin/sh\necho built by rt\n", True)
        yield made.stat().st_mtime, 1_000_000_000
    yield (tree.top / "crates/low/out/old").read_text(), "built before"
    yield [(tree.top / "crates" / name / "out/rlib").exists() for name in ("low", "pb_other")], [False, False]
    yield (tree.top / READY).read_bytes() == (tree.top / BUILT).read_bytes(), True
    yield tree.left_behind(), []


def names_none(tree: Tree) -> Rows:
    prepare(tree)
    for name in ("lo", "l.w", "", "low high"):
        yield tree.run("./prove", "low", name), (64, [], f"playcheck: no crate is named {name}\n")
    yield (tree.asked(), tree.left_behind()), ([], [])


def is_ended(tree: Tree) -> Rows:
    """Where it is ended the wrong programs end too, if they haven't before, and nothing is left behind nor told."""
    prepare(tree)
    for words, seconds in (("", 60), ("low", 60), ("", 0)):
        write_program(tree.tools / "python3", f'echo $$ >"{tree.folder}/pid"; exec sleep {seconds}')
        tree.has_kit(f'until [ -s "{tree.folder}/pid" ]; do sleep 0.05; done\nsleep 0.5\n'
                     f'kill -TERM "$(cat "{tree.folder}/prove")"')
        call = f'echo $$ >"{tree.folder}/prove"; exec ./prove {words} 2>"{tree.folder}/told"'
        subprocess.run(["sh", "-c", call], cwd=tree.top, env=tree.environment, stdout=subprocess.DEVNULL,
                       timeout=SECONDS, check=False)
        pid = int((tree.folder / "pid").read_text())
        (tree.folder / "pid").unlink()
        yield has_ended(pid), True
        yield (tree.folder / "told").read_text(), ""
        yield [path.name for path in tree.room.iterdir() if path.is_dir()], []


def has_ended(pid: int) -> bool:
    for _ in range(100):
        try:
            # What has ended may wait for its status to be asked for.
            if " Z " in Path(f"/proc/{pid}/stat").read_text():
                return True
        except OSError:
            return True
        time.sleep(0.02)
    os.kill(pid, signal.SIGKILL)
    return False


CHECKS: Dict[str, Callable[[Tree], Rows]] = {
    "./prove": proves_all,
    "./prove where something is missing": proves_less,
    "./prove with another program": another_program,
    "./prove with parts that fail": fails,
    "./prove without a kit": wants_a_kit,
    "./prove of a crate": proves_some,
    "./prove of no crate": names_none,
    "./prove that is ended": is_ended,
}
