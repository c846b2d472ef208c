# SPDX-License-Identifier: MIT OR Apache-2.0
"""The inventories of the cases, with what the definitions read them to, as rows.

What is wanted of one that is read is worked out by books.py, apart from the definitions, and of a refused one the case says it.
"""

import json
import re
import sys
from pathlib import Path

sys.path.insert(0, str(Path(__file__).resolve().parent.parent))

from books import data, inventory_term, read_json
from check import bytes_of

PER_FILE = 60
MOST_BYTES = 8000
OFFENCES = {"I02": "wrong_form", "I03": "wrong_host_name", "I04": "cyclic", "I05": "over_limit"}
IMPORTS = """use Rattle.std.specs.Prelude.{◌≡◌, refl, pos, negsuc, [], ◌∷◌, true, false, Ok, Err, codes}
use Rattle.pb_semantics.specs.Data.{Data, null, boolean, int, text, list, rec, opaque, no_items, item, no_fields, field}
use Rattle.pb_language.specs.Inventories.{cyclic, inventory_from, over_limit, wrong_form, wrong_host_name}
"""


def wanted(case, text):
    """What the inventory of a case is read to, as a term; none where the case doesn't say it."""
    refused = re.fullmatch(r"refused (I\d\d) line 0 host -\n", case["expected_stdout"])
    if refused:
        return f"Err {OFFENCES[refused[1]]}" if refused[1] in OFFENCES else None
    if case["expected_stdout"].startswith("refused S"):
        return None
    return f"Ok ({inventory_term(read_json(text))[1]})"


def rows_of(cases):
    """The value of each inventory, and what it is read to."""
    found = {}
    for case in cases:
        text = bytes_of(case["inventory"]).decode(errors="replace")
        if len(text) > MOST_BYTES:
            continue
        try:
            value = data(read_json(text))
        except (json.JSONDecodeError, RecursionError):
            continue
        term = wanted(case, text)
        if term:
            found[value] = term
    return sorted(found.items())


def files(cases):
    """The text of each file of rows, by its name."""
    rows = [
        f"inventory_{number} : inventory_from {value} ≡ {term}\ninventory_{number} = refl\n"
        for number, (value, term) in enumerate(rows_of(cases))
    ]
    texts = {}
    for number, start in enumerate(range(0, len(rows), PER_FILE)):
        texts[f"Inventories{number + 1:02}"] = (
            "-- The inventories of cases, computed.\n" + IMPORTS + "\n" + "\n".join(rows[start : start + PER_FILE])
        )
    return texts
