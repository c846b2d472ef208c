# SPDX-License-Identifier: MIT OR Apache-2.0
# What a role gives: to its play, and to its own tasks and handlers.
from __future__ import annotations

from typing import TYPE_CHECKING, Dict, List

from .precedence import OF_NEEDED, OF_PLAY, OF_ROLE, Given, Source

if TYPE_CHECKING:
    from .contexts import Role
    from .nodes import Node


def needed_by(role: Role) -> List[Role]:
    """The roles that a role needs, with those that they need before them."""
    return [other for one in role.needed for other in [*needed_by(one), one]]


def exported(role: Role) -> Dict[str, Node]:
    """The variables of a role that others see: of those that it needs, beside its name, and its own."""
    found: Dict[str, Node] = {}
    for one in [*needed_by(role), role]:
        found.update(one.beside)
        found.update(one.variables)
    return found


def all_defaults(role: Role) -> Dict[str, Node]:
    found: Dict[str, Node] = {}
    for one in [*needed_by(role), role]:
        found.update(one.defaults)
    return found


def given_to_play(role: Role) -> List[Given]:
    """What the whole play sees of a role that it names, or that it imports."""
    return [Given(Source.ROLE_DEFAULTS, all_defaults(role), OF_PLAY), Given(Source.ROLE, exported(role), OF_PLAY)]


def given_to_tasks(role: Role) -> List[Given]:
    """What the tasks of a role see of it; those of the roles that it needs see it too, below their own."""
    of_needed: Dict[str, Node] = {}
    for one in needed_by(role):
        of_needed.update(one.defaults)
    own = {**role.beside, **role.variables}
    return [Given(Source.ROLE_DEFAULTS, of_needed, OF_NEEDED), Given(Source.ROLE_DEFAULTS, role.defaults, OF_ROLE),
            Given(Source.ROLE, {**exported(role), **own}, OF_ROLE),
            Given(Source.ROLE_PARAMETERS, role.parameters, OF_ROLE)]
