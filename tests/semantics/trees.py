# SPDX-License-Identifier: MIT OR Apache-2.0
"""The texts of the cases' expressions, with the trees that the grammar gives them, as rows.

The trees are read by expressions.py, apart from the definitions. Texts with quotes are left out, since what is UTF-8 isn't
computed.
"""

import json
import re

from expressions import Unreadable, codes, expression, template

PER_FILE = 250
CONDITIONS = ("when", "changed_when", "failed_when", "that")
IMPORTS = """use Rattle.std.specs.Prelude.{◌≡◌, refl, pos, negsuc, [], ◌∷◌, true, false, Some, None, codes}
use Rattle.pb_semantics.specs.Data.{boolean, int, null, text}
use Rattle.pb_language.specs.Expression.{equal, less, at_most, more, at_least, is_failed, is_changed, is_skipped, named_host, this_host, item_host, group_member, literal, path, hostvars_alone, negation, conjunction, disjunction, comparison, membership, in_batch, defined, undefinable, path_status, value_status, path_or, value_or, length_of, joined_by, concatenation, list_of, variable, other, member, no_expressions, expression}
use Rattle.pb_language.specs.Grammar.{expression_of, template_of}
"""


def texts_in(value):
    """The expressions in a part of a book: conditions, and what stands in braces."""
    if isinstance(value, dict):
        for key, part in value.items():
            if key in CONDITIONS and isinstance(part, str):
                yield part
            yield from texts_in(part)
    elif isinstance(value, list):
        for part in value:
            yield from texts_in(part)
    elif isinstance(value, str):
        whole = re.fullmatch(r"\{\{((?:(?!\}\}).)*)\}\}", value, re.S)
        if whole:
            yield whole.group(1)


def templates_in(value):
    """The other texts in a part of a book that have a brace."""
    if isinstance(value, dict):
        for key, part in value.items():
            if key not in CONDITIONS:
                yield from templates_in(part)
    elif isinstance(value, list):
        for part in value:
            yield from templates_in(part)
    elif isinstance(value, str) and "{" in value:
        yield value


def tree_term(read, text):
    try:
        return f"Some {read(text)}"
    except (Unreadable, ValueError, KeyError, IndexError):
        return "None"


def is_computed(text):
    return text.isascii() and not re.search("['\"]", text) and len(text) <= 300


def rows_of(cases):
    expressions, templates = set(), set()
    for case in cases:
        try:
            book = json.loads(case["book"])
        except (ValueError, TypeError):
            continue
        expressions.update(texts_in(book))
        templates.update(templates_in(book))
    for reader, read, found in (("expression_of", expression, expressions), ("template_of", template, templates)):
        for text in sorted(filter(is_computed, found)):
            yield reader, codes(text), tree_term(read, text)


def files(cases):
    """The text of each file of rows, by its name."""
    rows = [f"text_{number} : {reader} {text} ≡ {tree}\ntext_{number} = refl\n" for number, (reader, text, tree) in enumerate(rows_of(cases))]
    texts = {}
    for number, start in enumerate(range(0, len(rows), PER_FILE)):
        texts[f"Trees{number + 1:02}"] = "-- The trees of expressions of cases, computed.\n" + IMPORTS + "\n" + "\n".join(rows[start : start + PER_FILE])
    return texts
