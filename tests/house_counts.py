# SPDX-License-Identifier: MIT OR Apache-2.0
# Counts of the tree that pages state, and searches of house_checks.py that compare them:
# python3 tests/house_counts.py prints them.
import re
import sys
from pathlib import Path
from typing import Iterator

TOP = Path(__file__).resolve().parent.parent
WORDS = ("none", "one", "two", "three", "four", "five", "six", "seven", "eight", "nine", "ten", "eleven", "twelve")
# What pages say, with the counts by their names; a blank may be an end of line.
STATED = [
    ("README.md", "Of {compared_books} small faulty playbooks"),
    ("README.md", "playcheck refuses all {compared_books}"),
    ("docs/ARCHITECTURE.md", "{crates} crates in {sections_word} sections"),
    ("crates/README.md", "{sections_word_capital} sections, in reading order"),
    ("docs/CHANGING.md", "out of the {left_out_words} words of `LEFT_OUT`"),
    ("docs/COMPARED.md", "Of {compared_books} faults playcheck refuses {compared_books}"),
    ("docs/decisions/tests.md", "stand in {test_crates_word} crates"),
    ("docs/decisions/README.md", "The tests of public calls stand in {test_crates_word} crates"),
    ("bench/README.md", "{crates} crates, {wrong_programs} wrong programs and {wrong_definitions} wrong definitions"),
]
# Pages that name each crate with wrong definitions.
NAME_DEFINITIONS = ("crates/README.md", "docs/PROVED.md")


def files(pattern: str) -> int:
    return len(list(TOP.glob(pattern)))


def lines(pattern: str) -> int:
    return sum(path.read_bytes().count(b"\n") for path in TOP.glob(pattern))


def crates() -> list[str]:
    return re.findall(r"^(\w+):", (TOP / "crates.txt").read_text(encoding="utf-8"), re.M)


def counts() -> dict[str, int]:
    """Each count by its name."""
    sections = re.findall(r"^# (\w+): ", (TOP / "crates.txt").read_text(encoding="utf-8"), re.M)
    keywords = (TOP / "crates/pb_task/src/keyword.rt").read_text(encoding="utf-8")
    left_out = re.findall(r"^const LEFT_OUT: \[&str; (\d+)\]", keywords, re.M)
    codes = "".join(path.read_text(encoding="utf-8") for path in TOP.glob("crates/*/specs/Codes.antt"))
    return {
        "crates": len(crates()),
        "sections": len(sections),
        # Of public calls; pb_probe is a program.
        "test_crates": sum(name.endswith("_tests") for name in crates()),
        "wrong_programs": files("crates/*/wrong/*.edit"),
        "wrong_definitions": files("crates/*/must-fail/*.edit"),
        "codes": len(re.findall(r"^code_text \w+ =", codes, re.M)),
        "left_out_words": int(left_out[0]) if left_out else 0,
        "modules": files("ansible/playcheck_ansible/[a-z]*.py"),
        "transcripts": files("tests/ansible/*/transcript"),
        "cases": lines("tests/cases/*.jsonl"),
        "compared_books": files("examples/compared/*.json") - 2,  # beside the inventory and the verdicts
    }


def stated(text: str) -> str:
    """A statement with today's counts."""
    found = counts()
    words = {f"{name}_word": WORDS[count] for name, count in found.items() if count < len(WORDS)}
    capitals = {f"{name}_capital": word.capitalize() for name, word in words.items()}
    return text.format(**found, **words, **capitals)


def wrong_counts() -> Iterator[str]:
    """Each page states today's counts."""
    for page, text in STATED:
        wanted = stated(text)
        pattern = r"(?<!\d)" + re.escape(wanted).replace(r"\ ", r"\s+")
        if not re.search(pattern, (TOP / page).read_text(encoding="utf-8")):
            yield f"{page}: no {wanted!r}"


def lost_definitions() -> Iterator[str]:
    """Where pages list the crates with wrong definitions, none is left out, and no other is named."""
    wanted = {path.name for path in TOP.glob("crates/*") if (path / "must-fail").is_dir()}
    for page in NAME_DEFINITIONS:
        text = (TOP / page).read_text(encoding="utf-8")
        listed = re.findall(r"`must-fail/`[^(]*\((.*?)\)", text, re.S)
        named = set(re.findall(r"pb_\w+", listed[0])) if listed else set()
        for crate in sorted(wanted ^ named):
            yield f"{page}: {crate} has wrong definitions, or is named with those that have"


def lost_citations() -> Iterator[str]:
    """The crates from pb_lattice to pb_executor, and these alone below the program, cite definitions of pb_language."""
    names = crates()
    wanted = names[names.index("pb_lattice") : names.index("pb_executor") + 1]
    for crate in names[names.index("pb_value") : names.index("pb_options")]:
        cited = any("Rattle.pb_language.specs" in path.read_text(encoding="utf-8")
                    for folder in ("src", "specs") for path in (TOP / "crates" / crate / folder).rglob("*.*t*"))
        if cited != (crate in wanted):
            yield f"docs/ARCHITECTURE.md: {crate} {'cites' if cited else 'does not cite'} pb_language"


def main() -> int:
    for name, count in counts().items():
        print(f"{name}: {count}")
    return 0


if __name__ == "__main__":
    sys.exit(main())
