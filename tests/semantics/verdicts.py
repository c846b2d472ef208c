# SPDX-License-Identifier: MIT OR Apache-2.0
"""What becomes of the files of the cases, from their bytes, as rows.

What is wanted is the line that the case prints; nothing else of the case is read here. Left out are cases of long files, and
those that print what a run comes to.
"""

import re
import sys
from pathlib import Path

sys.path.insert(0, str(Path(__file__).resolve().parent.parent))

from check import bytes_of

FILES = ("signatures", "inventory", "book")
PER_FILE = 120
MOST_BYTES = 2000
ESCAPES = {"\\": "\\\\", '"': '\\"', "\n": "\\n", "\t": "\\t", "\r": "\\r"}
WHOLE_FILES = {"S": "wrong_signatures", "I": "wrong_inventory"}
IMPORTS = {
    "Rattle.std.specs.Prelude": ["◌≡◌", "refl", "[]", "◌∷◌", "Some", "None", "codes"],
    "Rattle.pb_language.specs.Verdict": ["accepted", "refused"],
    "Rattle.pb_byte_rows.specs.Found": ["wrong_signatures", "wrong_inventory", "wrong_book", "verdict", "found", "found_with"],
    "Rattle.pb_byte_rows.proofs.Computing": ["reading"],
}


def bytes_term(content):
    """The bytes of a file as a term: a quoted text where they are plain."""
    if all(32 <= byte < 127 or byte in b"\n\t\r" for byte in content):
        return '(codes "' + "".join(ESCAPES.get(sign, sign) for sign in content.decode()) + '")'
    return "(" + "".join(f"{byte} ∷ " for byte in content) + "[])"


def wanted(line):
    """What becomes of the files by the line that is printed, as a term; none where it is of a run."""
    accepted = re.fullmatch(r"accepted budget (\d+)\n", line)
    if accepted:
        return f"verdict (accepted {accepted[1]})"
    refused = re.fullmatch(r"refused ([SIPV])(\d\d) line (\d+) host (\S+)\n", line)
    if not refused:
        return None
    letter, code, number, host = refused[1], int(refused[2]), refused[3], refused[4]
    if letter in WHOLE_FILES:
        return f"{WHOLE_FILES[letter]} {code}"
    if letter == "P":
        return f"wrong_book (record {{ line = {number}; code = {code} }})"
    named = "None" if host == "-" else f"Some {bytes_term(host.encode())}"
    return f"verdict (refused (record {{ code = {code}; line = {number}; host = {named} }}))"


def row(case):
    """The row of a case; none where its files are long, or it prints what a run comes to."""
    given = [bytes_of(case[name]) for name in FILES if case[name] is not None]
    term = wanted(case["expected_stdout"])
    if term is None or sum(map(len, given)) > MOST_BYTES:
        return None
    name = case["id"].replace("-", "_")
    note = f"-- {' '.join(case['note'].split())}\n" if case.get("note") else ""
    call = f"{'found_with' if len(given) == len(FILES) else 'found'} {' '.join(map(bytes_term, given))}"
    return f"{note}{name} : {call} ≡ {term}\nunfolding reading\n{name} = refl\n"


def header(family, rows):
    """The head of a file, which brings in what its rows name."""
    body = re.sub(r'^--.*|"(?:[^"\\]|\\.)*"', "", rows, flags=re.M)
    lines = [f"-- Cases of {family}, computed from the bytes of their files."]
    for module, names in IMPORTS.items():
        used = [name for name in names if re.search(rf"(?<!\w){re.escape(name.strip('◌'))}(?!\w)", body)]
        if used:
            lines.append(f"use {module}.{{{', '.join(used)}}}")
    return "\n".join(lines) + "\n"


def files(cases):
    """The text of each file of rows, by its name."""
    families = {}
    for case in cases:
        made = row(case)
        if made:
            families.setdefault(case["id"].split("-")[0], []).append(made)
    texts = {}
    for family, rows in families.items():
        for number, start in enumerate(range(0, len(rows), PER_FILE)):
            chosen = "\n".join(rows[start : start + PER_FILE])
            texts[f"{family.capitalize()}{number + 1:02}"] = header(family, chosen) + "\n" + chosen
    return texts
