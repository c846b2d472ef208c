# SPDX-License-Identifier: MIT OR Apache-2.0
# Searches of house_checks.py: the licence of each script, what NOTICE names, and that all versions are one.
import ast
import os
import re
from pathlib import Path
from typing import Iterator

TOP = Path(__file__).resolve().parent.parent
SUFFIXES = (".py", ".sh", ".bash", ".zsh", ".fish")
# Folders without scripts, or that aren't of the repository.
PASSED_OVER = {".git", ".mypy_cache", ".pytest_cache", "__pycache__", "crates", "dist"}
SPDX = "# SPDX-License-Identifier: "
OWN = "MIT OR Apache-2.0"
ANSIBLES = "GPL-3.0-or-later"
PACKAGE = "ansible/playcheck_ansible"
PROGRAM = "crates/pb_options/src/options.rt"
# Where a version stands, and the text that holds it.
VERSIONS = {
    PROGRAM: r'^const VERSION: &str = "(.*)";$',
    f"{PACKAGE}/__init__.py": r'^__version__ = "(.*)"$',
    "CHANGELOG.md": r"^## \[(\d.*)\]",
}


def scripts() -> Iterator[Path]:
    """Each file of Python or of a shell, but for those of a virtual environment that somebody keeps here."""
    for folder, inner, names in os.walk(TOP):
        inner[:] = sorted(name for name in set(inner) - PASSED_OVER if not Path(folder, name, "pyvenv.cfg").exists())
        for name in sorted(names):
            path = Path(folder, name)
            if not path.is_symlink() and (name.endswith(SUFFIXES) or path.read_bytes()[:2] == b"#!"):
                yield path


def licence_of(path: Path) -> str:
    """What the line at the head of a script says, right behind `#!` where that is there."""
    lines = path.read_text(encoding="utf-8").splitlines()[:2]
    head = lines[1:] if lines and lines[0].startswith("#!") else lines
    return head[0][len(SPDX) :] if head and head[0].startswith(SPDX) else ""


def imports_ansible(path: Path) -> bool:
    """Whether a file of Python imports Ansible's own; a script of a shell imports nothing."""
    text = path.read_text(encoding="utf-8")
    if path.suffix != ".py" and "python" not in text.partition("\n")[0]:
        return False
    for node in ast.walk(ast.parse(text)):
        names = [alias.name for alias in node.names] if isinstance(node, ast.Import) else []
        if isinstance(node, ast.ImportFrom) and not node.level:
            names = [node.module or ""]
        if any(name.partition(".")[0] == "ansible" for name in names):
            return True
    return False


def wrong_licences() -> Iterator[str]:
    """Each script names its licence: Ansible's where it imports Ansible, and such stand in folders of their own."""
    folders: dict[Path, set[str]] = {}
    for path in scripts():
        wanted = ANSIBLES if imports_ansible(path) else OWN
        folders.setdefault(path.parent, set()).add(wanted)
        name = path.relative_to(TOP).as_posix()
        if licence_of(path) != wanted:
            yield f"{name}: no line `{SPDX}{wanted}`"
        if wanted == ANSIBLES and name.startswith(PACKAGE):
            yield f"{name}: imports ansible, of which the front end has nothing"
    yield from (f"{folder.relative_to(TOP)}: scripts of both licences" for folder, found in folders.items()
                if len(found) > 1)


def lost_notices() -> Iterator[str]:
    """NOTICE names each library of the kit that crates.txt names, and the two licences are there."""
    known = set(re.findall(r"\w+", (TOP / "NOTICE").read_text(encoding="utf-8")))
    lines = (TOP / "crates.txt").read_text(encoding="utf-8").splitlines()
    named = {word for line in lines for word in re.findall(r"\w+", line.partition("#")[0])}
    yield from (f"NOTICE: no {name}" for name in sorted(named - known) if not name.startswith("pb_"))
    for name, text in (("LICENSE-MIT", "the playcheck authors"), ("LICENSE-APACHE", "Version 2.0, January 2004")):
        if text not in (TOP / name).read_text(encoding="utf-8"):
            yield f"{name}: no {text!r}"


def stated_versions() -> dict[str, str]:
    """The version as each place has it, the first one where a place has several."""
    found = {}
    for name, pattern in VERSIONS.items():
        stated = re.search(pattern, (TOP / name).read_text(encoding="utf-8"), re.M)
        found[name] = stated[1] if stated else ""
    return found


def version() -> str:
    """The version of the program's sources."""
    return stated_versions()[PROGRAM]


def other_versions() -> Iterator[str]:
    """The program, the front end and the changelog have one version."""
    stated = stated_versions()
    if len(set(stated.values())) != 1 or not all(re.fullmatch(r"\d+\.\d+\.\d+", one) for one in stated.values()):
        yield ", ".join(f"{name}: {version!r}" for name, version in stated.items())
