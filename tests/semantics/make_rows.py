#!/usr/bin/env python3
# SPDX-License-Identifier: MIT OR Apache-2.0
"""Writes the rows of crates/pb_rows and pb_byte_rows: cases as closed terms that the definitions compute.

Usage: make_rows.py, which writes the rows anew (then `rt fmt` lays them out), or make_rows.py --check.
The cases are those of tests/cases that cases.txt lists, and all of rows.jsonl. Those of pb_byte_rows are made by verdicts.py.

A case says what is printed for a book; its row says that `judged`, or the run of an accepted book, gives just that. The
expressions of all cases have rows too: the tree that the grammar gives each text, or that it has none; and so have their
inventories and books: what the definitions read the JSON to, or why they refuse it.
"""

import json
import re
import sys
from pathlib import Path

import inventories
import outcomes
import readings
import trees
import verdicts
from books import answers_term, book_term, inventory_term, read_json, registry_term
from expressions import codes

PER_FILE = 12
HERE = Path(__file__).resolve().parent
HEADER = HERE / "imports.txt"
CRATES = HERE.parent.parent / "crates"
ROWS = CRATES / "pb_rows" / "proofs"
BYTE_ROWS = CRATES / "pb_byte_rows" / "proofs"


def read_text(source):
    if isinstance(source, str):
        return source
    raise ValueError("made of pieces")


def verdict_term(line):
    accepted = re.fullmatch(r"accepted budget (\d+)", line)
    if accepted:
        return f"accepted {accepted.group(1)}"
    refused = re.fullmatch(r"refused V(\d\d) line (\d+) host (\S+)", line)
    host = "None" if refused.group(3) == "-" else f"(Some {codes(refused.group(3))})"
    return f"refused (record {{ code = {int(refused.group(1))}; line = {refused.group(2)}; host = {host} }})"


def recap_term(line):
    counts = re.findall(r"(\w+)=(\d+)", line)
    return "record { " + "; ".join(f"{name} = {count}" for name, count in counts) + " }"


def row(case):
    name = case["id"].replace("-", "_")
    book = read_json(read_text(case["book"]))
    hosts, inventory = inventory_term(read_json(read_text(case["inventory"])))
    signatures = json.loads(read_text(case["signatures"])) if case["signatures"] else None
    lines = case["expected_stdout"].splitlines()
    note = " ".join((case.get("note") or "").split())
    given = (
        f"{name}_book : Book\n{name}_book = {book_term(book)}\n\n"
        f"{name}_inventory : Inventory\n{name}_inventory = {inventory}\n\n"
        f"{name}_registry : Registry\n{name}_registry = {registry_term(signatures)}\n\n"
    ).replace(f"{name}_book :", f"abbrev {name}_book :").replace(f"{name}_inventory :", f"abbrev {name}_inventory :")
    given = given.replace(f"{name}_registry :", f"abbrev {name}_registry :")
    judged = f"judged {name}_registry {name}_inventory {name}_book"
    if lines and re.match("accepted|refused V", lines[0]):
        return f"-- {name}: {note}\n{given}{name} : {judged} ≡ {verdict_term(lines[0])}\n{name} = refl\n"
    answers = answers_term(read_json(read_text(case["answers"])), hosts)
    recaps = "(" + "".join(f"{recap_term(line)} ∷ " for line in lines) + "[])"
    program = f"{name}_registry {name}_inventory {name}_book {case['forks']} {answers}"
    return f"-- {name}: {note}\n{given}{name} : recaps_of {program} ≡ {recaps}\nunfolding digits\n{name} = refl\n"


def cases_in(folder):
    for path in sorted(Path(folder).glob("*.jsonl")):
        for line in path.read_text().splitlines():
            yield json.loads(line)


def value_files():
    """The text of each file of rows of pb_rows, by its name."""
    found = {case["id"]: case for case in cases_in(HERE.parent / "cases")}
    chosen = [found[name] for name in (HERE / "cases.txt").read_text().split()]
    chosen += [json.loads(line) for line in (HERE / "rows.jsonl").read_text().splitlines()]
    families = {}
    for case in chosen:
        families.setdefault(case["id"].split("-")[0], []).append(row(case))
    texts = {}
    for family, rows in families.items():
        for number, start in enumerate(range(0, len(rows), PER_FILE)):
            text = f"-- Cases of {family}, computed.\n" + HEADER.read_text() + "\n" + "\n".join(rows[start : start + PER_FILE])
            texts[f"{family.capitalize()}{number + 1:02}"] = text
    texts |= inventories.files(cases_in(HERE.parent / "cases"))
    texts |= readings.files(cases_in(HERE.parent / "cases"))
    return {**texts, **trees.files(cases_in(HERE.parent / "cases")), **outcomes.files(HEADER.read_text(), verdict_term)}


def files():
    """The text of each file of rows, by its path."""
    of_values = {ROWS / f"{name}.antt": text for name, text in value_files().items()}
    of_bytes = verdicts.files(cases_in(HERE.parent / "cases"))
    return of_values | {BYTE_ROWS / f"{name}.antt": text for name, text in of_bytes.items()}


def bare(text):
    """A text without its layout: what stands in it, and which names it brings in."""
    brought = sorted(name for line in re.findall(r"^use .*", text, re.M) for name in re.findall(r"[^\s{},]+", line))
    rest = re.sub(r"^use .*|^--.*", "", text, flags=re.M)
    return brought, re.sub(r"[\s;,()]", "", rest)


def is_as_made(path, text):
    """Whether the committed file is that text; the layout may differ where no row quotes a file."""
    if not path.is_file():
        return False
    return path.read_text() == text if path.parent == BYTE_ROWS else bare(path.read_text())[1] == bare(text)[1]


def check():
    """Whether the committed rows are those that the cases give."""
    texts = files()
    good = sum(is_as_made(path, text) for path, text in texts.items())
    print(f"{good} passed, {len(texts) - good} failed")
    return 0 if good == len(texts) else 1


def main():
    if sys.argv[1:] == ["--check"]:
        return check()
    for old in [*ROWS.glob("*[0-9][0-9].antt"), *BYTE_ROWS.glob("*[0-9][0-9].antt")]:
        old.unlink()
    for path, text in files().items():
        path.write_text(text)
    return 0


if __name__ == "__main__":
    sys.exit(main())
