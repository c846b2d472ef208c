# SPDX-License-Identifier: MIT OR Apache-2.0
# Asks mypy for the types of the front end, as pyproject.toml says: python3 tests/type_checks.py.
import re
import subprocess
import sys
import tempfile
from pathlib import Path
from typing import Iterator, Tuple

TOP = Path(__file__).resolve().parent.parent
PACKAGE = TOP / "ansible" / "playcheck_ansible"
# What leaves something unasked: an error that is passed over without a reason, and a type that is none.
UNASKED = re.compile(r"# type: ignore(?!\[[\w, -]+\]  # \w)|\bcast\(")
# A module of the package that is made wrong in each of these ways: mypy has to see it.
FAULTS = {
    "a function without types": "def untyped(one):\n    return one\n",
    "what may be None": "from .nodes import Mapping\n\n\ndef place(words: Mapping) -> int:\n    return words.get('a').place.line\n",
    "a text for a node": "from .nodes import is_literal\n\nFOUND = is_literal('a')\n",
    "a list of any": "from typing import List\n\nFOUND: List = []\n",
}


def asked(*words: str) -> Tuple[str, int]:
    """What mypy says, without a cache of its own in the tree."""
    with tempfile.TemporaryDirectory() as cache:
        done = subprocess.run(["mypy", "--cache-dir", cache, "--no-pretty", "--no-color-output", *words], cwd=TOP,
                              capture_output=True, text=True, check=False)
    return done.stdout + done.stderr, done.returncode


def wrong_types() -> Iterator[str]:
    """All modules of the package are asked, and nothing is found."""
    said, status = asked()
    count = len(list(PACKAGE.glob("*.py")))
    if status or said != f"Success: no issues found in {count} source files\n":
        yield f"of {count} modules: status {status}\n{said}"


def unasked_lines() -> Iterator[str]:
    for path in sorted(PACKAGE.glob("*.py")):
        for number, line in enumerate(path.read_text(encoding="utf-8").splitlines(), 1):
            if UNASKED.search(line):
                yield f"{path.relative_to(TOP)}:{number}: {line.strip()}"


def unseen_faults() -> Iterator[str]:
    """What is wrong is found: each of these modules beside those of the package."""
    with tempfile.TemporaryDirectory() as folder:
        package = Path(folder, PACKAGE.name)
        package.mkdir()
        for path in PACKAGE.glob("*.py"):
            (package / path.name).symlink_to(path)
        for number, text in enumerate(FAULTS.values()):
            (package / f"fault{number}.py").write_text(text, encoding="utf-8")
        settings = Path(folder, "mypy.ini")
        settings.write_text("[mypy]\nstrict = true\npython_version = 3.9\n"
                            f"mypy_path = {folder}\npackages = {PACKAGE.name}\n"
                            "[mypy-playcheck_ansible.positions]\ndisallow_untyped_calls = false\n", encoding="utf-8")
        said, _ = asked("--config-file", str(settings))
    for number, name in enumerate(FAULTS):
        if not re.search(rf"fault{number}\.py:\d+: error: ", said):
            yield f"{name} isn't found: {said}"


def main() -> int:
    results = ["\n".join(search()) for search in (wrong_types, unasked_lines, unseen_faults)]
    for wrong in filter(None, results):
        print(f"FAILED: {wrong}")
    failed = sum(map(bool, results))
    print(f"{len(results) - failed} passed, {failed} failed")
    return 1 if failed else 0


if __name__ == "__main__":
    sys.exit(main())
