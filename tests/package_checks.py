# SPDX-License-Identifier: MIT OR Apache-2.0
# Makes the packages of a copy of the tree, twice, installs each into an empty folder without the network, and checks a
# book there: python3 tests/package_checks.py PROGRAM, with a program that is of these sources.
import base64
import csv
import hashlib
import importlib.util
import io
import re
import sys
import tempfile
import zipfile
from fnmatch import fnmatch
from pathlib import Path
from typing import Iterator

sys.dont_write_bytecode = True

from house_licences import version
from installed_packages import places, questions, run, skipped_tool
from tree_copies import tree

FURTHER = ("CHANGELOG.md", "Containerfile", "LICENSE-APACHE", "LICENSE-MIT", "NOTICE", "README.md", "ansible",
           "completion", "docs", "package", "packaging", "playcheck-ansible", "pyproject.toml")
NOT_READY = "dist/playcheck isn't the program of these sources: ./release makes it anew"
NEWEST_GLIBC = (2, 34)


# What is made.


def made_twice(top: Path, folder: Path) -> Iterator[str]:
    """Both runs of ./package are equal, whatever the mask of the process, the time zone and the folder are."""
    first = run([str(top / "package"), "packages"], folder)
    other = run(["bash", "-c", 'umask 077; exec "$0" "$1"', str(top / "package"), str(folder / "others")], top,
                TZ="Asia/Tokyo", LC_ALL="C")
    if first.returncode or other.returncode:
        yield f"./package: {first}, {other}"
        return
    names = sorted(path.name for path in (folder / "packages").iterdir())
    if names != sorted(path.name for path in (folder / "others").iterdir()):
        yield f"./package makes {names}, and then others"
    for name in names:
        if (folder / "packages" / name).read_bytes() != (folder / "others" / name).read_bytes():
            yield f"./package: {name} differs in the second run"


def wrong_sums(packages: Path) -> Iterator[str]:
    """SHA256SUMS has each package, with its sum."""
    wanted = "".join(f"{hashlib.sha256(path.read_bytes()).hexdigest()}  {path.name}\n"
                     for path in sorted(packages.iterdir()) if path.name != "SHA256SUMS")
    if (packages / "SHA256SUMS").read_text(encoding="utf-8") != wanted:
        yield f"SHA256SUMS isn't {wanted!r}"


def wrong_record(packages: Path) -> Iterator[str]:
    """The list of the wheel has all its files but itself with their sums, and its name and tag are those it has."""
    (path,) = packages.glob("*.whl")
    with zipfile.ZipFile(path) as wheel:
        files = {name: wheel.read(name) for name in wheel.namelist()}
    info = f"playcheck-{version()}.dist-info"
    rows = {name: digest for name, digest, _ in csv.reader(io.StringIO(files[f"{info}/RECORD"].decode()))}
    for name, data in files.items():
        digest = base64.urlsafe_b64encode(hashlib.sha256(data).digest()).decode().rstrip("=")
        if rows.pop(name, None) != ("" if name.endswith("/RECORD") else f"sha256={digest}"):
            yield f"RECORD: {name}"
    yield from (f"RECORD: {name} isn't in the wheel" for name in rows)
    tag = path.stem.partition(f"{version()}-")[2]
    if f"Tag: {tag}\n" not in files[f"{info}/WHEEL"].decode() or not tag.startswith("py3-none-manylinux_2_34_"):
        yield f"WHEEL: {tag}"


def wrong_glibc(program: Path) -> Iterator[str]:
    """The program wants no newer C library than the wheel's tag says."""
    wanted = re.findall(rb"GLIBC_(\d+)\.(\d+)", program.read_bytes())
    newest = max(((int(major), int(minor)) for major, minor in wanted), default=(0, 0))
    if not (0, 0) < newest <= NEWEST_GLIBC:
        yield f"the program wants glibc {newest}, the packages say {NEWEST_GLIBC}"


def wrong_containerfile(top: Path, packages: Path) -> Iterator[str]:
    """The package that the Containerfile copies is one that ./package makes."""
    copied = re.findall(r"^COPY dist/packages/(\S+) ", (top / "Containerfile").read_text(encoding="utf-8"), re.M)
    found = [path.name for path in packages.iterdir() if any(fnmatch(path.name, name) for name in copied)]
    if len(copied) != 1 or len(found) != 1:
        yield f"Containerfile: {copied} is {found}"


# What is refused.


def wrong_refusals(top: Path, folder: Path) -> Iterator[str]:
    """A source that was edited, and a time that is none, are told, and nothing is written."""
    done = run([str(top / "package"), str(folder / "none")], folder, SOURCE_DATE_EPOCH="today")
    if done.returncode != 64 or done.stderr != "package: SOURCE_DATE_EPOCH isn't a number of seconds: today\n":
        yield f"SOURCE_DATE_EPOCH: {done}"
    with open(top / "crates/pb_value/src/lib.rt", "a", encoding="utf-8") as source:
        source.write("// edited\n")
    done = run([str(top / "package"), str(folder / "none")], folder)
    if (done.returncode, done.stdout, done.stderr) != (64, "", f"package: {NOT_READY}\n"):
        yield f"./package of an edited source: {done}"
    if importlib.util.find_spec("pip"):
        done = run([sys.executable, "-m", "pip", "wheel", "--no-index", "--no-deps", str(top)], folder)
        told = done.stdout + done.stderr
        if not done.returncode or f"playcheck: {NOT_READY}" not in told or "Traceback" in told:
            yield f"pip wheel of an edited source: {done}"
    if (folder / "none").exists() or list(folder.glob("*.whl")):
        yield f"something is written: {sorted(path.name for path in folder.iterdir())}"


# All of them.


def searches(program: Path, folder: Path) -> Iterator[tuple[str, Iterator[str]]]:
    """Each check by its name, with what it finds wrong; in an order in which each has what it wants."""
    top = tree(folder, program, FURTHER)
    yield "two runs of ./package", made_twice(top, folder)
    packages = folder / "packages"
    yield "sums", wrong_sums(packages)
    yield "the wheel's list", wrong_record(packages)
    yield "the C library", wrong_glibc(program)
    if skipped_tool("debian") is None:
        yield "Containerfile", wrong_containerfile(top, packages)
    for place in places(top, folder):
        for name, found in questions(place):
            yield f"{place.name}: {name}", found
    yield "refusals", wrong_refusals(top, folder)


def main() -> int:
    counts = {True: 0, False: 0}
    with tempfile.TemporaryDirectory(prefix="playcheck-packages-") as folder:
        for name, search in searches(Path(sys.argv[1]).resolve(), Path(folder)):
            found = list(search)
            counts[not found] += 1
            for line in found:
                print(f"FAILED: {name}: {line}")
    print(f"{counts[True]} passed, {counts[False]} failed")
    return 1 if counts[False] else 0


if __name__ == "__main__":
    sys.exit(main())
