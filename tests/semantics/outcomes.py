# SPDX-License-Identifier: MIT OR Apache-2.0
"""Rows of what expressions come to, a value or why there is none, and of runs that get stuck."""

import json
from pathlib import Path

from books import answers_term, book_term, data, fields, inventory_term, listed, read_json, registry_term
from expressions import codes, expression, names, template

HERE = Path(__file__).resolve().parent
EXPRESSIONS_PER_FILE = 54
RUNS_PER_FILE = 12
DARK = float("nan")  # a number that may not be read

# what the host's own names are, and what other hosts have
MINE = {
    "n": 3, "t": "ab", "yes": True, "none_there": None, "l": [1, 2], "names": ["a", "b"], "m": {"k": 1, "in": {"x": "y"}},
    "r": {"changed": True, "failed": False}, "s": {"changed": False, "failed": False, "skipped": True},
    "odd": {"changed": True, "failed": "no"}, "strange": {"changed": True, "failed": False, "skipped": "yes"},
    "dark": DARK, "holds_dark": {"k": DARK}, "dark_list": [DARK],
}
HOSTS = {"a": {"v": 1}, "b": {"w": {"k": 2}}}
ITEMS = {"no_item": {}, "item_b": {"item": "b"}, "item_5": {"item": 5}, "item_dark": {"item": DARK}}

EXPRESSION_IMPORTS = """\
use Rattle.std.specs.Prelude.{◌≡◌, refl, pos, negsuc, List, [], ◌∷◌, true, false, Some, None, codes}
use Rattle.std.specs.Fmt.{digits}
use Rattle.pb_semantics.specs.Data.{null, boolean, int, text, list, rec, opaque, no_items, item, no_fields, field}
use Rattle.pb_language.specs.Expression.{equal, less, at_most, more, at_least, is_failed, is_changed, is_skipped, named_host, this_host, item_host, group_member, literal, path, hostvars_alone, negation, conjunction, disjunction, comparison, membership, in_batch, defined, undefinable, path_status, value_status, path_or, value_or, length_of, joined_by, concatenation, list_of, record_of, variable, other, member, no_expressions, expression, no_parts, part}
use Rattle.pb_language.specs.World.{World}
use Rattle.pb_language.specs.Evaluation.{undefined, no_field, wrong_sort, value, stuck, eval}
"""
RUN_IMPORTS = "use Rattle.pb_rows.specs.Recaps.{run_after}\n"


def world(name):
    hosts = [f"record {{ name = {codes(host)}; variables = {fields(found)} }}" for host, found in HOSTS.items()]
    groups = [f"record {{ name = {codes('g')}; hosts = {names(HOSTS)} }}"]
    return (
        f"abbrev {name} : World\n{name} = record {{ mine = {fields({**MINE, **ITEMS[name]})}; this = {codes('a')}; "
        f"hosts = {listed(hosts)}; batch = {names(['a'])}; groups = {listed(groups)} }}\n"
    )


def outcome_term(outcome):
    return f"stuck {outcome}" if isinstance(outcome, str) else f"value {data(outcome['value'])}"


def outcome_row(number, row):
    tree = expression(row["text"]) if "text" in row else template(row["template"])
    place = f"item_{row['item']}" if "item" in row else "no_item"
    said = json.dumps(row.get("text", row.get("template")), ensure_ascii=False)
    name = f"outcome_{number:03}"
    return f"-- {said}\n{name} : eval {place} {tree} ≡ {outcome_term(row['outcome'])}\nunfolding digits\n{name} = refl\n"


def recap_term(recap):
    counts = ["ok", "changed", "unreachable", "failed", "skipped", "rescued", "ignored"]
    return "record { " + "; ".join(f"{count} = {recap.get(count, 0)}" for count in counts) + " }"


def after_term(after):
    out = listed([str(is_out).lower() for is_out in after["out"]])
    recaps = listed([recap_term(recap) for recap in after["recaps"]])
    return f"record {{ is_stuck = {str(after['is_stuck']).lower()}; handed = {after['handed']}; out = {out}; recaps = {recaps} }}"


def run_row(number, row, verdict_term):
    name = f"stuck_{number:02}"
    hosts, inventory = inventory_term(row["inventory"])
    given = (
        f"abbrev {name}_book : Book\n{name}_book = {book_term(row['book'])}\n\n"
        f"abbrev {name}_inventory : Inventory\n{name}_inventory = {inventory}\n\n"
    )
    program = f"{registry_term(None)} {name}_inventory {name}_book"
    return (
        f"-- {name}: {row['note']}\n{given}{name}_judged : judged {program} ≡ {verdict_term(row['verdict'])}\n{name}_judged = refl\n\n"
        f"{name} : run_after {program} 1 {answers_term(row['answers'], hosts)} ≡ {after_term(row['after'])}\nunfolding digits\n{name} = refl\n"
    )


def rows_of(name):
    return [read_json(line) for line in (HERE / name).read_text().splitlines()]


def files(header, verdict_term):
    """The text of each file of rows, by its name."""
    texts = {}
    rows = [outcome_row(number, row) for number, row in enumerate(rows_of("outcomes.jsonl"))]
    worlds = "\n".join(world(name) for name in ITEMS)
    for number, start in enumerate(range(0, len(rows), EXPRESSIONS_PER_FILE)):
        chosen = "\n".join(rows[start : start + EXPRESSIONS_PER_FILE])
        texts[f"Outcomes{number + 1:02}"] = f"-- What expressions come to, computed.\n{EXPRESSION_IMPORTS}\n{worlds}\n{chosen}"
    runs = [run_row(number, row, verdict_term) for number, row in enumerate(rows_of("stuck.jsonl"))]
    for number, start in enumerate(range(0, len(runs), RUNS_PER_FILE)):
        chosen = "\n".join(runs[start : start + RUNS_PER_FILE])
        texts[f"Stuck{number + 1:02}"] = f"-- Runs of refused books that get stuck, computed.\n{header}{RUN_IMPORTS}\n{chosen}"
    return texts
