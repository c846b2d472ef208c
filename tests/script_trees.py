# SPDX-License-Identifier: MIT OR Apache-2.0
# A made tree for script_checks.py, with made parts and tools.
import os
import re
import shutil
import subprocess
from pathlib import Path
from typing import Iterator, List, Tuple

from launcher_checks import KIT
from tree_copies import TOP, make_tools, sum_of, write_program

SECONDS = 300  # of one script, which takes a second where the machine has nothing else to do
KITS_LINE = "a made kit"
BUILT, READY = "crates/pb_cli/out/pb_cli", "dist/playcheck"
SCRIPTS = ("prove", "test", "release", "sources.sh", ".ci/run", "tests/counts.sh")
CRATES = "# made: low\nlow: clap  # pb_other # twice\npb_cli: high low\nhigh: low\npb_other: pb_cli\n"
SOURCES = ("low/src/lib.rt", "low/src/a/more.rt", "low/src/a.rt", "pb_cli/src/lib.rt", "high/src/B.rt", "high/src/a b.rt",
           "pb_other/src/lib.rt")
# In the place of Python: it tells its words, and counts three.
COUNTS = """case $1 in -c) [ "$NO_YAML" = 0 ] || echo "no yaml" >&2; exit "$NO_YAML";; esac
printf '%s\\n' "$*" >>"$ASKED"
echo "this is $1"
echo "3 passed, 0 failed\""""
Outcome = Tuple[int, List[str], str]
Rows = Iterator[Tuple[object, object]]


class Tree:
    """A tree of four crates, three of them of the program, with the scripts and with tools for a PATH."""

    def __init__(self, folder: str, program: str) -> None:
        self.folder, self.program = Path(os.path.realpath(folder)), program
        self.top, self.tools, self.room = (self.folder / name for name in ("tree", "tools", "room"))
        self.environment = {"PATH": str(self.tools), "TMPDIR": str(self.room), "ASKED": str(self.folder / "asked"),
                            "NO_YAML": "0"}
        self.room.mkdir()
        make_tools(self.tools)
        for name in SCRIPTS:
            (self.top / name).parent.mkdir(parents=True, exist_ok=True)
            shutil.copy2(TOP / name, self.top / name)
        self.write("crates.txt", CRATES)
        for name in SOURCES:
            self.write(f"crates/{name}", f"// {name}\n")
        write_program(self.tools / "python3", COUNTS)
        write_program(self.tools / "cc", "exit 1")
        write_program(self.tools / "ansible-playbook", "exit 1")
        write_program(self.tools / "mypy", "exit 0")

    def write(self, name: str, text: str) -> None:
        (self.top / name).parent.mkdir(parents=True, exist_ok=True)
        (self.top / name).write_text(text, encoding="utf-8")

    def has_kit(self, text: str = KIT) -> None:
        write_program(self.tools / "rt", f"if [ \"$*\" = version ]; then echo '{KITS_LINE}'; exit; fi\n{text}")

    def is_built(self, says: str = "built here") -> None:
        write_program(self.top / BUILT, f"echo {says}")

    def is_ready(self) -> None:
        """A program of these sources is ready."""
        (self.top / "dist").mkdir()
        shutil.copy2(self.program, self.top / READY)
        self.write("dist/sources", f"{sum_of(self.top)}\n{KITS_LINE}\n")

    def run(self, *words: str, folder: str = "tree") -> Outcome:
        """The status, the lines of the output without times, and the errors."""
        done = subprocess.run(words, cwd=self.folder / folder, env=self.environment, input="input\n", text=True,
                              capture_output=True, timeout=SECONDS, check=False)
        return done.returncode, re.sub(r": \d+ s\)", ": N s)", done.stdout).splitlines(), done.stderr

    def asked(self) -> List[str]:
        asked = self.folder / "asked"
        return asked.read_text(encoding="utf-8").splitlines() if asked.exists() else []

    def left_behind(self) -> List[str]:
        return sorted(path.name for path in self.room.iterdir())
