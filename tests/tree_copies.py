# SPDX-License-Identifier: MIT OR Apache-2.0
# Copies of the tree with a ready program that is of their sources, and folders of tools for a PATH: for the checks of
# the launcher, of the scripts and of the packages.
import hashlib
import os
import shutil
from pathlib import Path
from typing import Dict, Iterable, List, Union

TOP = Path(__file__).resolve().parent.parent
LAUNCHED = ("crates.txt", "launch.sh", "playcheck", "sources.sh", "examples")


def tree(folder: Path, program: Union[str, Path], further: Iterable[str] = ()) -> Path:
    """A copy of what the launcher reads, and of further files and folders, with nothing built."""
    top = folder / "tree"
    top.mkdir()
    for name in (*LAUNCHED, *further):
        copy(TOP / name, top / name)
    for crate in (TOP / "crates").iterdir():
        if (crate / "src").is_dir():
            copy(crate / "src", top / "crates" / crate.name / "src")
    (top / "dist").mkdir()
    shutil.copy2(program, top / "dist/playcheck")
    (top / "dist/sources").write_text(f"{sum_of(top)}\nthe kit's line\n")
    return top


def crates_of_program(top: Path) -> List[str]:
    """The crate pb_cli and those below it, by crates.txt."""
    below: Dict[str, List[str]] = {}
    for line in (top / "crates.txt").read_text(encoding="utf-8").splitlines():
        name, _, libraries = line.partition("#")[0].partition(":")
        below[name.strip()] = libraries.split()
    found, left = set(), ["pb_cli"]
    while left:
        name = left.pop()
        if name in below and name not in found:
            found.add(name)
            left += below[name]
    return sorted(found)


def sum_of(top: Path) -> str:
    """The sum of a tree's sources, as dist/sources has it: of the lines that sha256sum prints of crates.txt and of
    each file of Rattle of the program's crates, in the order of their names' bytes."""
    names = [path.relative_to(top).as_posix() for crate in crates_of_program(top)
             for path in (top / "crates" / crate / "src").rglob("*.rt")]
    lines = [f"{hashlib.sha256((top / name).read_bytes()).hexdigest()}  {name}\n"
             for name in sorted(["crates.txt", *names], key=str.encode)]
    return hashlib.sha256("".join(lines).encode()).hexdigest()


# What scripts need of the system.
TOOLS = ("bash", "sh", "env", "cat", "cut", "date", "dirname", "find", "grep", "head", "kill", "mkdir", "mktemp",
         "chmod", "cmp", "cp", "mv", "nice", "printf", "readlink", "rm", "sed", "sha256sum", "sleep", "sort", "tail", "tar",
         "tee", "touch", "tr", "xargs")


def make_tools(tools: Path, names: Iterable[str] = TOOLS) -> None:
    """Makes a folder of links to programs of the system: a PATH, with no rt."""
    tools.mkdir()
    for name in names:
        found = shutil.which(name)
        if found:
            os.symlink(found, tools / name)


def without_more_rights() -> List[str]:
    """Words before a program that root starts, which then may read and write no more than others."""
    lost = "-dac_override,-dac_read_search"
    words = [shutil.which("setpriv") or "", f"--bounding-set={lost}", f"--inh-caps={lost}"]
    return words if os.geteuid() == 0 else []


def has_no_more_rights() -> bool:
    """Whether a program can be started so."""
    return os.geteuid() != 0 or bool(shutil.which("setpriv"))


def write_program(path: Path, text: str) -> None:
    """A program of a shell in the place of another."""
    path.parent.mkdir(parents=True, exist_ok=True)
    path.unlink(missing_ok=True)
    path.write_text(f"#!/bin/sh\n{text}\n", encoding="utf-8")
    path.chmod(0o755)


def copy(source: Path, target: Path) -> None:
    if source.is_dir():
        shutil.copytree(source, target, ignore=shutil.ignore_patterns("__pycache__"))
    else:
        shutil.copy2(source, target)
