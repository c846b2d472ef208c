# SPDX-License-Identifier: MIT OR Apache-2.0
# What every package brings, each file with its place: both commands, the front end with its pages, the manual,
# completions, licences and an example.
import os
import re
import subprocess
from datetime import datetime, timezone
from pathlib import Path
from typing import Iterator, NamedTuple

TOP = Path(__file__).resolve().parent.parent
FRONT_END = TOP / "ansible" / "playcheck_ansible"
SUMMARY = "Verifies Ansible playbooks before any host is touched, and runs what it accepts"
LICENCES = ("LICENSE-MIT", "LICENSE-APACHE", "NOTICE")
# The pages that the front end shows by `explain`.
PAGES = ("REFUSALS.md", "FROM_ANSIBLE.md")
EXAMPLES = ("faulty", "signed")
NOT_READY = "dist/playcheck isn't the program of these sources: ./release makes it anew"


class Fault(Exception):
    """Why no package can be made."""


class File(NamedTuple):
    name: str  # its path in the package
    data: bytes
    is_executable: bool = False

    def mode(self) -> int:
        return 0o755 if self.is_executable else 0o644


class Layout(NamedTuple):
    """Where a package puts what it brings."""

    commands: str
    modules: str
    share: str
    zsh: str = "zsh/site-functions"


def version() -> str:
    text = (FRONT_END / "__init__.py").read_text(encoding="utf-8")
    return str(re.findall(r'^__version__ = "(.*)"$', text, re.M)[0])


def moment() -> int:
    """The time that all files of a package have: SOURCE_DATE_EPOCH, else the day of the version in the changelog."""
    given = os.environ.get("SOURCE_DATE_EPOCH")
    if given and not re.fullmatch(r"\d{1,10}", given):
        raise Fault(f"SOURCE_DATE_EPOCH isn't a number of seconds: {given}")
    if given:
        return int(given)
    text = (TOP / "CHANGELOG.md").read_text(encoding="utf-8")
    days = re.findall(rf"^## \[{re.escape(version())}\] - (\d{{4}}-\d\d-\d\d)$", text, re.M)
    if not days:
        raise Fault(f"CHANGELOG.md has no day for {version()}")
    return int(datetime.strptime(days[0], "%Y-%m-%d").replace(tzinfo=timezone.utc).timestamp())


def ready_program() -> bytes:
    """The program, where it is of these sources: as the launcher asks it, by sources.sh."""
    asked = ["bash", "-c", 'top=$1; . "$1/sources.sh"; is_ready', "bash", str(TOP)]
    if subprocess.run(asked, check=False).returncode:
        raise Fault(NOT_READY)
    return (TOP / "dist" / "playcheck").read_bytes()


def read(name: str) -> bytes:
    return (TOP / name).read_bytes()


def front_end() -> Iterator[tuple[str, bytes]]:
    """The package of Python, with all that stands in its folder but what is hidden or compiled, and its pages."""
    for path in sorted(FRONT_END.rglob("*")):
        inner = path.relative_to(FRONT_END)
        if path.is_file() and not any(part.startswith((".", "__pycache__")) for part in inner.parts):
            yield f"playcheck_ansible/{inner.as_posix()}", path.read_bytes()
    for page in PAGES:
        yield f"playcheck_ansible/pages/{page}", read(f"docs/{page}")


def shared(zsh: str) -> Iterator[tuple[str, bytes]]:
    """What stands below `share`: each shell reads a file of the command's name."""
    for command in ("playcheck", "playcheck-ansible"):
        yield f"man/man1/{command}.1", read(f"docs/man/{command}.1")
        yield f"bash-completion/completions/{command}", read("completion/playcheck.bash")
        yield f"fish/vendor_completions.d/{command}.fish", read("completion/playcheck.fish")
    yield f"{zsh}/_playcheck", read("completion/_playcheck")
    for name in (*LICENCES, "CHANGELOG.md"):
        yield f"doc/playcheck/{name}", read(name)
    for example in EXAMPLES:
        for path in sorted((TOP / "examples" / example).iterdir()):
            yield f"doc/playcheck/examples/{example}/{path.name}", path.read_bytes()


def contents(layout: Layout) -> list[File]:
    """All files of a package but for the command of the front end, by their names."""
    files = [File(f"{layout.commands}/playcheck", ready_program(), True)]
    files += [File(f"{layout.modules}{name}", data) for name, data in front_end()]
    files += [File(f"{layout.share}/{name}", data) for name, data in shared(layout.zsh)]
    return sorted(files)


def command(interpreter: str = "/usr/bin/env python3") -> bytes:
    """The command of the front end, which finds it in ../lib/playcheck."""
    _, _, rest = read("playcheck-ansible").partition(b"\n")
    return f"#!{interpreter}\n".encode() + rest
