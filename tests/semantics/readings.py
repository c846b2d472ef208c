# SPDX-License-Identifier: MIT OR Apache-2.0
"""The books of the cases, with what the definitions read them to, as rows.

What is wanted of one that is read is worked out by books.py, apart from the definitions, and of a refused one the case says it.
Books with a quote in some text are left out, since what is UTF-8 isn't computed, and so are long ones.
"""

import json
import re
import sys
from pathlib import Path

sys.path.insert(0, str(Path(__file__).resolve().parent.parent))

import books
from check import bytes_of
from books import book_term, by_bytes, data, read_json, registry_term
from expressions import expressions, parts, template

PER_FILE = 40
MOST_BYTES = 1500
MOST_BYTES_OF_PIECES = 8000
MOST_TEXT = 1000
IMPORTS = """use Rattle.std.specs.Prelude.{◌≡◌, refl, pos, negsuc, [], ◌∷◌, ◌++◌, true, false, Some, None, Ok, Err, codes}
use Rattle.pb_semantics.specs.Data.{Data, null, boolean, int, text, list, rec, opaque, no_items, item, no_fields, field}
use Rattle.pb_semantics.specs.Kind.{booleans, ints, texts, lists, recs, no_slots, slot}
use Rattle.pb_language.specs.Expression.{equal, less, at_most, more, at_least, is_failed, is_changed, is_skipped, named_host, this_host, item_host, group_member, literal, path, hostvars_alone, negation, conjunction, disjunction, comparison, membership, in_batch, defined, undefinable, path_status, value_status, path_or, value_or, length_of, joined_by, concatenation, list_of, record_of, variable, other, member, no_expressions, expression, no_parts, part}
use Rattle.pb_language.specs.Book.{not_given, not_well_formed, conditions_are, module_work, debug_work, set_fact_work, assert_work, fail_work, no_steps, task_step, block_step, flush_step, host_count, percentage}
use Rattle.pb_language.specs.BookForm.{book_from}
use Rattle.pb_language.specs.Builtins.{builtins}
"""


def opens(value):
    """Whether some text in the value may have a template."""
    if isinstance(value, dict):
        return any(map(opens, value.values()))
    if isinstance(value, list):
        return any(map(opens, value))
    return isinstance(value, str) and re.search(r"\{\{|\{%|\{#", value) is not None


def is_computed(value):
    """Whether no text in the value has a quote or is long."""
    if isinstance(value, dict):
        return all(map(is_computed, value.values()))
    if isinstance(value, list):
        return all(map(is_computed, value))
    return not isinstance(value, str) or (len(value) <= MOST_TEXT and not re.search("['\"]", value))


def text_of(source):
    """The text of a book that isn't too long; none of another."""
    most = MOST_BYTES if isinstance(source, str) else MOST_BYTES_OF_PIECES
    bytes_found = bytes_of(source)
    return bytes_found.decode() if len(bytes_found) <= most and bytes_found.isascii() else None


def value_term(value):
    """A value as an expression: itself, where no text in it may have a template."""
    if isinstance(value, (dict, list)) and not opens(value):
        return f"(literal {data(value)})"
    if isinstance(value, dict):
        return f"(record_of {parts([(k, value_term(value[k])) for k in by_bytes(value)])})"
    if isinstance(value, list):
        return f"(list_of {expressions([value_term(v) for v in value])})"
    return template(value)


def wanted(case, book):
    """What the book of a case is read to, as a term; none where the case doesn't say it."""
    printed = case["expected_stdout"]
    refused = re.fullmatch(r"refused P(\d\d) line (\d+) host -\n", printed)
    if refused:
        return f"Err (record {{ line = {int(refused[2])}; code = {int(refused[1])} }})" if refused[1] != "01" else None
    if re.match("refused [SI]", printed):
        return None
    kept, books.template = books.template, value_term
    try:
        return f"Ok ({book_term(book)})"
    finally:
        books.template = kept


def rows_of(cases):
    """The registry and the value of each book, and what it is read to."""
    found = {}
    for case in cases:
        try:
            book = read_json(text_of(case["book"]))
            signatures = json.loads(case["signatures"]) if case["signatures"] else None
        except (ValueError, TypeError):
            continue
        if not is_computed(book):
            continue
        term = wanted(case, book)
        if term:
            try:
                found[registry_term(signatures), data(book)] = term
            except (KeyError, TypeError, AttributeError):
                continue
    return sorted((registry, value, term) for (registry, value), term in found.items())


def files(cases):
    """The text of each file of rows, by its name."""
    rows = [
        f"book_{number} : book_from {registry} {value} ≡ {term}\nbook_{number} = refl\n"
        for number, (registry, value, term) in enumerate(rows_of(cases))
    ]
    texts = {}
    for number, start in enumerate(range(0, len(rows), PER_FILE)):
        texts[f"Readings{number + 1:02}"] = (
            "-- The books of cases as they are read, computed.\n" + IMPORTS + "\n" + "\n".join(rows[start : start + PER_FILE])
        )
    return texts
