# SPDX-License-Identifier: MIT OR Apache-2.0
# What package_checks.py asks of a package where it was installed, each into an empty folder and without the network.
import importlib.util
import os
import re
import shutil
import subprocess
import sys
import tarfile
import tempfile
from pathlib import Path
from typing import Iterator, NamedTuple, Optional

from ansible_tools import make_tools
from house_licences import version
from page_checks import COMMAND, FENCE
from tree_copies import TOP

SECONDS = 120
# No package is looked for anywhere but in what is installed.
OFFLINE = {"PIP_NO_INDEX": "1", "PIP_CONFIG_FILE": os.devnull, "PIP_DISABLE_PIP_VERSION_CHECK": "1"}
SHARED = ("man/man1/playcheck.1", "man/man1/playcheck-ansible.1", "fish/vendor_completions.d/playcheck.fish",
          "fish/vendor_completions.d/playcheck-ansible.fish", "bash-completion/completions/playcheck",
          "bash-completion/completions/playcheck-ansible", "zsh/*/_playcheck", "doc/playcheck/LICENSE-MIT",
          "doc/playcheck/LICENSE-APACHE", "doc/playcheck/NOTICE", "doc/playcheck/CHANGELOG.md",
          "doc/playcheck/examples/signed/signatures.json")


class Place(NamedTuple):
    """Where a package was installed."""

    name: str
    top: Path  # that of `bin` and `share`

    def modules(self) -> Path:
        return next(self.top.rglob("playcheck_ansible"))


def run(words: list[str], folder: Path, **given: str) -> "subprocess.CompletedProcess[str]":
    """Runs a program that is told neither of a program to ask nor of places with modules."""
    told = {name: text for name, text in os.environ.items() if name not in ("PLAYCHECK", "PYTHONPATH")}
    return subprocess.run(words, cwd=folder, env={**told, **OFFLINE, **given}, capture_output=True, text=True,
                          check=False, timeout=SECONDS, stdin=subprocess.DEVNULL)


# How each is installed.


def virtual(folder: Path, name: str, source: Path) -> Place:
    """A virtual environment into which pip puts a wheel, or a clone."""
    top = folder / name
    python = str(top / "bin/python")
    for words in ([sys.executable, "-m", "venv", "--system-site-packages", "--without-pip", str(top)],
                  [python, "-m", "pip", "install", "--no-index", str(source)]):
        done = run(words, folder)
        if done.returncode:
            raise RuntimeError(f"{words}: {done.stdout}{done.stderr}")
    return Place(name, top)


def unpacked_tarball(folder: Path, packages: Path) -> Place:
    (path,) = packages.glob("*.tar.gz")
    with tarfile.open(path) as archive:
        archive.extractall(folder / "tarball")
    return Place("tarball", folder / "tarball" / f"playcheck-{version()}")


def unpacked_debian(folder: Path, packages: Path) -> Place:
    (path,) = packages.glob("*.deb")
    done = run(["dpkg-deb", "-x", str(path), str(folder / "debian")], folder)
    if done.returncode:
        raise RuntimeError(f"dpkg-deb: {done.stderr}")
    return Place("debian", folder / "debian/usr")


def skipped_tool(name: str) -> Optional[str]:
    """Why a package isn't installed here, or nothing."""
    if name == "debian":
        if not shutil.which("dpkg-deb"):
            return "dpkg-deb isn't here"
        asked = ["/usr/bin/python3", "-c", "import yaml"]
        has_yaml = os.path.exists(asked[0]) and not subprocess.run(asked, capture_output=True, check=False).returncode
        return None if has_yaml else "/usr/bin/python3 with PyYAML isn't here"
    return None if importlib.util.find_spec("pip") and importlib.util.find_spec("venv") else "pip and venv aren't here"


def places(top: Path, folder: Path) -> Iterator[Place]:
    """Each package where it was installed; says which can't be."""
    packages = folder / "packages"
    yield unpacked_tarball(folder, packages)
    for name in ("wheel", "clone", "debian"):
        reason = skipped_tool(name)
        if reason:
            print(f"skipped: {name}: {reason}")
        elif name == "debian":
            yield unpacked_debian(folder, packages)
        else:
            yield virtual(folder, name, next(packages.glob("*.whl")) if name == "wheel" else top)


# What each is asked.


def first_screen() -> list[tuple[str, str]]:
    """The commands of README's first transcript, with what each prints."""
    for _, text in FENCE.findall((TOP / "README.md").read_text(encoding="utf-8")):
        commands: list[tuple[str, str]] = COMMAND.findall(text)
        if commands:
            return commands
    return []


def wrong_screen(place: Place) -> Iterator[str]:
    """README's first screen comes out, on the example that the package brings."""
    screen = first_screen()
    if [command.split()[0] for command, _ in screen] != ["./playcheck-ansible", "./playcheck"]:
        yield f"README begins with {screen}"
    for command, printed in screen:
        words = re.sub(r"^\./", "", command)
        done = run(["bash", "-c", words], place.top / "share/doc/playcheck", PATH=f"{place.top}/bin:{make_tools()}")
        if done.stdout != printed or done.stderr:
            yield f"{words}: {done}"


def wrong_versions(place: Place, wanted: str) -> Iterator[str]:
    for name in ("playcheck", "playcheck-ansible"):
        done = run([str(place.top / "bin" / name), "--version"], place.top, PATH=make_tools())
        if (done.returncode, done.stdout.rstrip("\n"), done.stderr) != (0, f"{name} {wanted}", ""):
            yield f"{name} --version: {done}"


def wrong_explanations(place: Place) -> Iterator[str]:
    """`explain` has its pages in the package: those of the program's codes, and those of the front end's."""
    for code, page in (("V03", "REFUSALS.md"), ("A-alias", "FROM_ANSIBLE.md")):
        done = run([str(place.top / "bin/playcheck-ansible"), "explain", code], place.top, PATH=make_tools())
        text = (TOP / "docs" / page).read_text(encoding="utf-8")
        if not done.stdout.startswith(f"### {code}: ") or done.stdout.strip() not in text or done.stderr:
            yield f"explain {code}: {done}"


def lost_files(place: Place) -> Iterator[str]:
    """All of the front end is there, and what shells and readers of the manual look for."""
    front_end = TOP / "ansible/playcheck_ansible"
    for path in front_end.rglob("*"):
        name = path.relative_to(front_end)
        if path.is_file() and "__pycache__" not in name.parts and not (place.modules() / name).is_file():
            yield f"no {name}"
    for pattern in SHARED:
        found = list((place.top / "share").glob(pattern)) or list((place.top / "share").glob(f"{pattern}.gz"))
        if len(found) != 1:
            yield f"no single share/{pattern}"


def wrong_link(place: Place) -> Iterator[str]:
    """Both commands may be called by links from elsewhere."""
    with tempfile.TemporaryDirectory() as folder:
        other = Place(place.name, Path(folder))
        (other.top / "bin").mkdir()
        (other.top / "share").symlink_to(place.top / "share")
        for name in ("playcheck", "playcheck-ansible"):
            (other.top / "bin" / name).symlink_to(place.top / "bin" / name)
        yield from wrong_screen(other)


def lost_program(place: Place) -> Iterator[str]:
    """Where the program is gone from its package, that is told, and no other program is asked."""
    program = place.top / "bin/playcheck"
    beside = program.with_name("beside")
    program.rename(beside)
    words = [str(place.top / "bin/playcheck-ansible"), "check", "examples/faulty/book.yml", "-i", "h,"]
    done = run(words, place.top / "share/doc/playcheck", PATH=make_tools())
    beside.rename(program)
    told = "playcheck-ansible: the program playcheck isn't where this package was put; PLAYCHECK may name it\n"
    if (done.returncode, done.stdout, done.stderr) != (64, "", told):
        yield f"{done}"


def questions(place: Place) -> Iterator[tuple[str, Iterator[str]]]:
    """Each by its name, with what it finds wrong."""
    yield "README's first screen", wrong_screen(place)
    yield "versions", wrong_versions(place, version())
    yield "explain", wrong_explanations(place)
    yield "files", lost_files(place)
    yield "links to the commands", wrong_link(place)
    yield "without its program", lost_program(place)
