# SPDX-License-Identifier: MIT OR Apache-2.0
# Checks of ./prove CRATE.. on a made tree with a made prover: which crates it proves, what it counts, takes and leaves behind:
# python3 tests/prove_checks.py
import os
import shutil
import subprocess
import sys
import tempfile
from pathlib import Path

sys.dont_write_bytecode = True

from record import Record
from wrong_programs import read_edit

TOP = Path(__file__).resolve().parent.parent
PARTS = ["prove", "sources.sh", "tests/counts.sh", "tests/wrong_programs.py", "tests/record.py", "tests/blanks.py"]
CRATES = "# made\nlow: clap\n\nhigh: low  # a program\nother: low\n"
KIT = "a made kit"

# In the place of the kit's: `ci` proves what it finds, but for what is wrong, and builds a program of it; it takes no names.
RT = f'''#!{sys.executable}
import os, sys
from pathlib import Path


class Crate:
    def __init__(self, name, top, libraries):
        self.name, self.folder, self.libraries = name, f"{{top}}/crates/{{name}}", libraries
        self.rlib = f"{{self.folder}}/out/rlib"

    def below(self):
        return self.libraries


class rtlib:
    def guarded():
        return []

    def crates_below(top):
        made = {{}}
        for line in Path(top, "crates.txt").read_text().splitlines():
            name, _, libraries = line.partition("#")[0].partition(":")
            if name.strip():
                made[name] = Crate(name, top, [made[it] for it in libraries.split() if it in made])
        return list(made.values())


def ci():
    crates = rtlib.crates_below(os.getcwd())
    folders = {{it.name for it in Path("crates").iterdir()}}
    bad = folders != {{it.name for it in crates}} or not Path("HANDLES").is_file()
    for it in crates:
        if Path(it.folder, "out").exists() or "wrong" in Path(it.folder, "src/lib.rt").read_text():
            bad = True
            print(f"rt: {{it.name}} NOT PROVED")
            continue
        os.makedirs(it.rlib)
        Path(it.folder, "out", it.name).write_text("built just now")
        print(f"rt: {{it.name}} proved")
    print(f"{{len(crates) - bad}} passed, {{int(bad)}} failed")
    return int(bad)


if __name__ == "__main__":
    if sys.argv[1:] == ["version"]:
        print("{KIT}")
    else:
        sys.exit(ci() if sys.argv[1:] == ["ci"] else 2)
'''


class Tree:
    """A tree of three crates, two of which stand on the first, with what was built there before; the wrong program of the first
    was refused before."""

    def __init__(self, folder):
        self.top, self.tools, self.room = [Path(folder, name) for name in ("tree", "tools", "room")]
        for path in PARTS:
            (self.top / path).parent.mkdir(parents=True, exist_ok=True)
            shutil.copy2(TOP / path, self.top / path)
        self.write("crates.txt", CRATES)
        self.write("HANDLES", "Handles allowed: none.\n")
        for name in ["low", "high", "other"]:
            self.write(f"crates/{name}/src/lib.rt", f"// {name}\n")
            self.write(f"crates/{name}/out/{name}", "built before")
        self.write("crates/low/wrong/lies.edit", "function: low\nfile: src/lib.rt\nold: low\nnew: high\n")
        self.room.mkdir()
        self.tools.mkdir()
        (self.tools / "rt").write_text(RT)
        (self.tools / "rt").chmod(0o755)
        self.record_refusal()

    def write(self, path, text):
        (self.top / path).parent.mkdir(parents=True, exist_ok=True)
        (self.top / path).write_text(text, encoding="utf-8")

    def record_refusal(self):
        made = {"__name__": "made"}
        exec(RT, made)
        low = made["rtlib"].crates_below(self.top)[0]
        edit = read_edit(self.top / "crates/low/wrong/lies.edit")
        Record(self.top / "tests/refused", KIT).write(low, [edit])

    def prove(self, *words):
        """The status, the crates that were proved, and the last line that was printed."""
        env = os.environ | {"PATH": f"{self.tools}:{os.environ['PATH']}", "TMPDIR": str(self.room)}
        done = subprocess.run(
            ["./prove", *words], cwd=self.top, env=env, capture_output=True, text=True, timeout=60, check=False
        )
        lines = (done.stdout + done.stderr).splitlines()
        proved = sorted(line.split()[1] for line in lines if line.startswith("rt: ") and line.endswith(" proved"))
        return done.returncode, proved, lines[-1]

    def built(self, name):
        return (self.top / f"crates/{name}/out/{name}").read_text()

    def left_behind(self):
        return sorted(path.name for path in self.room.iterdir())


def with_those_below(tree):
    """Two crates are proved, and the wrong program of the lower one is taken from the record."""
    yield tree.prove("high"), (0, ["high", "low"], "3 passed, 0 failed")
    yield tree.left_behind(), []


def no_wrong_programs(tree):
    (tree.top / "crates/low/wrong/lies.edit").unlink()
    yield tree.prove("low"), (0, ["low"], "1 passed, 0 failed")


def several(tree):
    yield tree.prove("high", "other"), (0, ["high", "low", "other"], "4 passed, 0 failed")


def programs(tree):
    """What was built is taken, and no other crate is touched."""
    tree.prove("high")
    yield [tree.built(name) for name in ("low", "high", "other")], ["built just now", "built just now", "built before"]


def unproved(tree):
    tree.write("crates/high/src/lib.rt", "// wrong\n")
    yield tree.prove("high"), (1, ["low"], "2 passed, 1 failed")
    yield tree.prove("low"), (0, ["low"], "2 passed, 0 failed")
    yield tree.left_behind(), []


def unknown(tree):
    yield tree.prove("high", "hig"), (64, [], "playcheck: no crate is named hig")
    yield tree.prove("l.w"), (64, [], "playcheck: no crate is named l.w")
    yield tree.left_behind(), []


CHECKS = {
    "a crate and the one below it": with_those_below,
    "a crate without wrong programs": no_wrong_programs,
    "several crates": several,
    "the programs that were built": programs,
    "a crate that isn't proved": unproved,
    "no such crate": unknown,
}


def main():
    failed = 0
    for name, check in CHECKS.items():
        with tempfile.TemporaryDirectory() as folder:
            wrong = [pair for pair in check(Tree(folder)) if pair[0] != pair[1]]
        failed += bool(wrong)
        for got, wanted in wrong:
            print(f"FAILED: prove, {name}: wanted {wanted}, got {got}")
    print(f"{len(CHECKS) - failed} passed, {failed} failed")
    return 1 if failed else 0


if __name__ == "__main__":
    sys.exit(main())
