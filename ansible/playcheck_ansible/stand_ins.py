# SPDX-License-Identifier: MIT OR Apache-2.0
# Writes expressions with the profile's forms, as far as it can; the pass `stand_ins`.
from __future__ import annotations

import re
from functools import lru_cache
from typing import TYPE_CHECKING, List, Optional, Tuple

from .expression_parser import Unfit
from .expression_tree import (Calculation, Chain, Choice, Comparison, Denial, Filter, Index, Items, Literal, Lookup,
                              Method, Operations, Path, Test, Tree)
from .expressions import read_once
from .literal_operands import guarded, is_comparison, is_plain, is_replacement, is_separator, text_of
from .parts import (AND, OPERAND, OR, PLAIN, RELATION, Part, Writer, all_read, as_text, chained, denied, is_pattern,
                    literal_part)

if TYPE_CHECKING:
    from .finite import IsFinite

WORDS = {"true": True, "True": True, "false": False, "False": False, "none": None, "None": None}
# Filters that give a text of whatever they are given, of a text alone; with how many arguments.
TEXT_OF_ANY = {"lower": 0, "upper": 0, "string": 0, "trim": 0, "capitalize": 0, "title": 0, "replace": 2, "quote": 0,
               "to_json": 0, "to_nice_json": 0, "type_debug": 0}
TEXT_OF_TEXT = {"basename": 0, "dirname": 0, "b64encode": 0}
# Tests of a result by another name.
RESULT_TESTS = {"failed": "failed", "failure": "failed", "succeeded": "succeeded", "success": "succeeded",
                "successful": "succeeded", "changed": "changed", "change": "changed", "skipped": "skipped",
                "skip": "skipped"}
SORTS = ("boolean", "string", "number", "integer", "float", "mapping", "sequence")
# Methods of texts, with what they give.
METHODS = {"lower": "text", "upper": "text", "strip": "text", "lstrip": "text", "rstrip": "text", "title": "text",
           "capitalize": "text", "replace": "text", "startswith": "bool", "endswith": "bool", "find": "int",
           "split": "split"}
LONGEST = 4000
SUSPECT = re.compile(r"[|+*/%~(\[]|-\s|\bi[sf]\b")


def stand_ins(expression: str, is_loose: bool = False) -> str:
    """The expression with the profile's forms; `is_loose` where only what it reads counts, and not its kind."""
    return rewritten(expression, is_loose)[0]


@lru_cache(4096)
def rewritten(expression: str, is_loose: bool, finite: Optional[IsFinite] = None) -> Tuple[str, bool]:
    """The expression with the profile's forms, and whether its value is the same.

    `finite` answers whether what a path holds is no text as `inf`, of which `int` makes no number.
    """
    inside = re.fullmatch(r"\{\{(?!-)(.*)(?<!-)\}\}", expression, re.S)
    written = inside[1] if inside else expression
    tree = read_once(written).tree if SUSPECT.search(written) else None
    if tree is None:
        return expression, True
    writer = TreeWriter(finite)
    try:
        part = writer.part(tree)
        if part.text is None and is_loose:
            part = writer.stand_in("text", part.read())
        new = part.at(OR)
    except Unfit:
        return expression, True
    if len(new) > LONGEST or re.sub(r"\s", "", new) == re.sub(r"\s", "", written):
        return expression, True
    return "{{ " + new + " }}" if inside else new, writer.is_exact


class TreeWriter(Writer):
    """Writes the parts of a tree; what it can't write is Unfit, and then the expression stays as it is."""

    def __init__(self, finite: Optional[IsFinite] = None) -> None:
        super().__init__()
        self.finite = finite

    def part(self, tree: Tree) -> Part:
        if isinstance(tree, Path):
            return self.path(tree)
        if isinstance(tree, Operations):
            return self.operations(tree)
        if isinstance(tree, Literal):
            return of_literal(tree)
        if isinstance(tree, Chain):
            return chained(tree.word, self.parts(tree.parts), OR if tree.word == "or" else AND)
        if isinstance(tree, Comparison):
            return self.compared(self.part(tree.left), tree.sign, self.part(tree.right))
        if isinstance(tree, Denial):
            return denied(self.part(tree.of))
        if isinstance(tree, Calculation):
            return self.calculation(tree)
        if isinstance(tree, Items):
            return Part("[" + ", ".join(part.at(OR) for part in self.parts(tree.parts)) + "]")
        if isinstance(tree, Choice):
            one = self.part(tree.one)
            return self.chosen(self.part(tree.condition), one, self.part(tree.other))
        return self.lookup(tree)

    def parts(self, trees: Tuple[Tree, ...]) -> List[Part]:
        return [self.part(tree) for tree in trees]

    def calculation(self, tree: Calculation) -> Part:
        left = self.part(tree.first)
        for sign, right in tree.others:
            left = self.calculated(left, sign, self.part(right))
        return left

    def operations(self, tree: Operations) -> Part:
        part = self.part(tree.operand)
        for one in tree.behind:
            given = self.parts(one.arguments)
            part = self.filter(part, one.name, given) if isinstance(one, Filter) else self.test(part, one, given)
        return part

    def lookup(self, tree: Lookup) -> Part:
        """Of look-ups one of the environment gives a text whatever it is asked for."""
        parts = self.parts(tree.arguments)
        if len(parts) != 2 or not parts[0].literal or parts[0].literal[0] != "env":
            raise Unfit
        return self.stand_in("text", parts[1].read())

    def path(self, tree: Path) -> Part:
        if tree.name in WORDS or tree.name == "omit":
            if tree.steps:
                raise Unfit
            return word_part(tree.name)
        is_host = tree.name in ("hostvars", "groups")
        part = Part(tree.name, is_path=True)
        for step in tree.steps:
            if isinstance(step, Method):
                part = self.method(part, step)
            elif isinstance(step, Index):
                part = self.indexed(part, step, is_host)
            elif part.text is None or not part.is_path:
                raise Unfit
            else:
                part = Part(f"{part.text}.{step.name}", is_path=True)
        return part

    def indexed(self, part: Part, step: Index, is_host: bool) -> Part:
        if part.kind == "split" and step.written in ("0", "-1"):
            return self.stand_in("text", part.read())
        if not part.is_path or not (step.kind == "text" or is_host and step.kind in ("int", "name")):
            raise Unfit
        return Part(f"{part.text}[{step.written}]", is_path=True)

    def method(self, part: Part, step: Method) -> Part:
        given = self.parts(step.arguments)
        kind = METHODS.get(step.name)
        if kind is None or step.name == "split" and not is_separator(given) or any(one.kind != "text" for one in given):
            raise Unfit
        return self.stand_in(kind, (*as_text(part), *all_read(given)))

    def filter(self, part: Part, name: str, given: List[Part]) -> Part:
        if name in ("default", "d") and len(given) in (1, 2):
            return self.default(part, given)
        if name == "bool" and not given:
            return self.truth(part)
        if name == "mandatory" and not given:
            return part
        if name == "join":
            return Part(f"{part.at(OPERAND)} | join" + (f"({given[0].at(OR)})" if given else ""), "text", OPERAND)
        if name in ("length", "count") and not given:
            return self.stand_in("int", part.read()) if part.kind == "split" else \
                Part(f"{part.at(OPERAND)} | length", "int", OPERAND)
        if name in ("first", "last") and part.kind == "split" and not given:
            return self.stand_in("text", part.read())
        return self.known_filter(name, part, given)

    def default(self, part: Part, given: List[Part]) -> Part:
        if len(given) == 1:
            return self.defaulted(part, given[0], False)
        takes_falsy = given[1].literal[0] if given[1].literal else None
        if not isinstance(takes_falsy, bool):
            raise Unfit
        return self.defaulted(part, given[0], takes_falsy)

    def known_filter(self, name: str, part: Part, given: List[Part]) -> Part:
        every = all_read([part, *given])
        if TEXT_OF_ANY.get(name) == len(given) or name == "regex_replace" and is_replacement(given):
            return self.stand_in("text", every)
        if TEXT_OF_TEXT.get(name) == len(given):
            return self.stand_in("text", as_text(part))
        if name == "int" and all(one.kind == "int" for one in given) and self.is_finite(part):
            return self.stand_in("int", every)
        if name == "float" and not given:
            return self.stand_in("float", every)
        if name == "ternary" and len(given) == 2 and part.kind == "bool":
            one, other = given
            return self.stand_in(one.kind, every) if one.kind == other.kind else Part(None, "", PLAIN, every)
        raise Unfit

    def is_finite(self, part: Part) -> bool:
        """Whether `int` makes a number of what a part gives: of the text `inf`, or 1e999, it doesn't."""
        if self.finite is None or part.kind in ("int", "bool"):
            return True
        if part.literal:
            return not isinstance(part.literal[0], str) or is_plain(part.literal[0])
        if part.default:
            return all(map(self.is_finite, part.default))
        return part.is_path and part.text is not None and self.finite(part.text)

    def test(self, part: Part, test: Test, given: List[Part]) -> Part:
        plain = RESULT_TESTS.get(test.name)
        if plain is None and test.name in ("defined", "undefined") and part.is_path:
            plain = test.name
        if plain and not given:
            return Part(f"{part.at(OPERAND)} {'is not' if test.is_denied else 'is'} {plain}", "bool", RELATION)
        found = self.known_test(test.name, part, given)
        return denied(found) if test.is_denied else found

    def known_test(self, name: str, part: Part, given: List[Part]) -> Part:
        if name in ("none", "true", "false"):
            return guarded(part, f"{part.at(OPERAND)} == {name}")
        if name in SORTS and not given:
            return guarded(part, self.stand_in("bool", part.read()).at(OR))
        if name in ("match", "search", "regex") and given and is_pattern(given[0]) \
                or name in ("version", "version_compare") and is_comparison(given):
            return self.stand_in("bool", all_read([part, *given]))
        raise Unfit


def of_literal(tree: Literal) -> Part:
    word = tree.written
    if tree.kind == "text":
        return literal_part(text_of(word), word, "text")
    if tree.kind == "float":
        return Part(None, "float", literal=(float(word),))
    return literal_part(int(word), word, "int")


def word_part(name: str) -> Part:
    if name == "omit":
        return Part(None, "omit", literal=(None,))
    return literal_part(WORDS[name], name, "bool" if WORDS[name] is not None else "none")
