# SPDX-License-Identifier: MIT OR Apache-2.0
# Where facts are gathered, and which of those that are always there a subset may leave out.
from __future__ import annotations

from typing import TYPE_CHECKING

from .kinds import evaluated_word, wrong_word
from .nodes import Mapping, Node, Scalar, as_node, has_template, texts_of

if TYPE_CHECKING:
    from .books import Play

# Subsets of facts that lie above the smallest one.
LARGE_SUBSETS = ("all", "hardware", "network", "virtual", "ohai", "facter")


def gathered_facts(play: Play) -> None:
    """Ansible gathers facts unless a play says that it doesn't."""
    if "gather_facts" not in play.words:
        play.words.put("gather_facts", as_node(True, play.place))
    node = play.words["gather_facts"]
    subset = play.words.get("gather_subset")
    if not isinstance(node, Scalar) or not isinstance(node.value, bool):
        play.words.put("gather_facts", as_node(True, node.place))
        play.evaluated += evaluated_word("gather_facts", node)
        play.reason = play.reason or wrong_word("gather_facts", node)
        leave_facts(play, "`gather_facts` is a template")
    elif subset is not None and leaves_facts_out(subset):
        leave_facts(play, "`gather_subset` leaves facts out that are else always there")


def leaves_facts_out(node: Node) -> bool:
    """Whether a `gather_subset` may leave facts out of those that are always there: the smallest subset has them."""
    words = [word.strip() for text in texts_of(node) for word in text.value.split(",")]
    return any(has_template(word) or word[:1] == "!" and word[1:] not in LARGE_SUBSETS for word in words)


def gathered_by_tasks(play: Play) -> None:
    """A task `setup` that leaves such facts out."""
    for task in play.tasks():
        node = task.words.get("setup")
        subset = node.get("gather_subset") if isinstance(node, Mapping) else None
        if subset is not None and leaves_facts_out(subset):
            leave_facts(play, f"the `gather_subset` on line {subset.place.line} leaves facts out")


def leave_facts(play: Play, reason: str) -> None:
    for name in ("ansible_facts", "ansible_hostname", "ansible_system"):
        play.lost[name] = reason
