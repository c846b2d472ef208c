# SPDX-License-Identifier: MIT OR Apache-2.0
# Which values names have, where all that anything gives them is literal.
from __future__ import annotations

from typing import TYPE_CHECKING, Dict, Iterator, List, Optional, Protocol, Tuple

from .inventory import Inventory, is_opaque
from .names import KNOWN, MAGIC, given_names
from .nodes import Value, as_value, is_literal, pairs_in

if TYPE_CHECKING:
    from .books import Book


class KnownValues(Protocol):
    def known(self, name: str) -> Optional[List[Value]]:
        """All values that a name may have, or None where they aren't known."""


class Values:
    """The literal values that anything gives a name: None where another value is possible too."""

    def __init__(self, book: Book, inventory: Inventory) -> None:
        self.book, self.inventory = book, inventory
        self.of_names: Optional[Dict[str, Optional[List[Value]]]] = None  # found where it is first asked for
        # All that gives a name its value by `vars` and `set_fact`, and None for what registers it.
        self.written: Dict[str, List[Value]] = {}

    def find(self) -> Dict[str, Optional[List[Value]]]:
        found: Dict[str, Optional[List[Value]]] = {}
        for name, value, is_known in self.givings():
            self.written.setdefault(name, []).append(value)
            known = found.get(name, [])
            found[name] = [*known, value] if is_known and known is not None else None
        for play in self.book.read_plays():
            lost = [name for holder in play.containers() for name in holder.lost]
            for name in (*play.prompted, *lost):
                found[name] = None
                self.written.pop(name, None)
        return found

    def givings(self) -> Iterator[Tuple[str, Value, bool]]:
        """Each name with a value that it is given, and whether that is literal: of a result it is None."""
        for name, value in self.inventory.variables():
            yield name, value, not is_opaque(value)
        for holder in (holder for play in self.book.read_plays() for holder in play.holders()):
            for name, node in pairs_in(holder.words.get("vars")).items():
                yield name, as_value(node), is_literal(node)
        for task in self.book.tasks():
            facts = pairs_in(task.words.get("set_fact"))
            for name in given_names(task):
                part = facts.get(name)
                yield name, as_value(part) if part is not None else None, part is not None and is_literal(part)

    def known(self, name: str) -> Optional[List[Value]]:
        """All values that a name may have, or None where they aren't known; a name that nothing gives has none."""
        if self.of_names is None:
            self.of_names = self.find()
        is_outside = name in KNOWN or name in MAGIC or name.startswith("ansible_")
        return None if is_outside else self.of_names.get(name, [])
