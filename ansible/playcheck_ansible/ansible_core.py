# SPDX-License-Identifier: MIT OR Apache-2.0
# Calls programs of ansible-core: nothing of the repository that is checked is run by them, unless an option says so.
from __future__ import annotations

import glob
import os
import tempfile
from typing import Dict, Iterable, Iterator, List, NamedTuple, Optional, Tuple

from .problems import Place, Problem
from .processes import on_path, run_within, without_relative

# Plugins that read inventories and run nothing.
READERS = "host_list,ini,yaml"
TRUST = "--trust-repository"
RUN = "--run-inventory"
CONFIGURATION = "ansible.cfg"


class Trust(NamedTuple):
    """What of the repository that is checked programs of ansible-core may run."""

    inventory: bool = False  # programs and plugins that give inventories
    repository: bool = False  # what ansible.cfg and the environment name: modules, plugins, collections
    folders: Tuple[str, ...] = ()  # the current one, and those of what is checked
    tops: Tuple[str, ...] = ()  # the same with the repositories round them

    def is_checked(self, path: str) -> bool:
        """Whether a path lies in what is checked."""
        real = os.path.realpath(path)
        return any(real == top or real.startswith(top.rstrip(os.sep) + os.sep) for top in self.tops)


def trust_of(inventory: bool, repository: bool, paths: Iterable[str]) -> Trust:
    folders = dict.fromkeys(path if os.path.isdir(path) else os.path.dirname(path) or "." for path in (".", *paths))
    return Trust(inventory, repository, tuple(folders), tuple(dict.fromkeys(map(top_of, folders))))


def top_of(folder: str) -> str:
    """The repository of git round a folder, or else the folder itself."""
    real = os.path.realpath(folder)
    return next((above for above in folders_above(real) if os.path.lexists(os.path.join(above, ".git"))), real)


def folders_above(folder: str) -> Iterator[str]:
    while True:
        yield folder
        if folder == os.path.dirname(folder):
            return
        folder = os.path.dirname(folder)


def passed_over(trust: Trust) -> Iterator[str]:
    """What Ansible would take from the current folder and from HOME, and isn't used."""
    if trust.repository:
        return
    if os.path.lexists(CONFIGURATION):
        yield f"{CONFIGURATION} isn't used; {TRUST} lets Ansible's programs take it"
    if is_home_checked(trust) and os.path.lexists(os.path.expanduser("~/.ansible")):
        yield f"~/.ansible isn't used, since it lies in what is checked; {TRUST} lets Ansible's programs take it"


def own_text(module: str, trust: Trust) -> str:
    """The text of a module in what is checked, where it has one that isn't used."""
    *collection, name = module.split(".")
    place = os.path.join("collections", "ansible_collections", *collection, "plugins", "modules")
    for folder in () if trust.repository else trust.folders:
        for inner in (place,) if collection else ("library", os.path.join("roles", "*", "library")):
            pattern = os.path.join(glob.escape(folder), inner, f"{name}.py")
            found = next(glob.iglob(pattern), None)
            if found:
                return os.path.normpath(found)
    return ""


def is_home_checked(trust: Trust) -> bool:
    home = os.environ.get("HOME", "")
    places = (home, os.path.join(home, ".ansible"), os.path.join(home, ".local"))
    return not os.path.isabs(home) or any(map(trust.is_checked, places))


def run_ansible(name: str, words: List[str], seconds: float, trust: Trust, place: Optional[Place] = None,
                plugins: str = READERS) -> Tuple[str, str, int]:
    """What a program of ansible-core prints on its two outputs, and its status; paths have to be absolute."""
    found = on_path(name)
    if not found:
        raise Problem(place, f"`{name}` isn't installed; it comes with ansible-core")
    given = {"ANSIBLE_INVENTORY_ANY_UNPARSED_IS_FAILED": "1"}
    if not trust.inventory:
        given["ANSIBLE_INVENTORY_ENABLED"] = plugins
    if trust.repository:
        return run_within([found, *words], seconds, place, {**os.environ, **given})
    try:
        with tempfile.TemporaryDirectory(prefix="playcheck-") as own:
            environment = {**own_environment(trust, own), **given}
            runs_inventory = trust.inventory and name == "ansible-inventory"
            return run_within([found, *words], seconds, place, environment, None if runs_inventory else own)
    except OSError as error:
        raise Problem(place, f"no folder for {name} can be made: {error.strerror}") from None


def own_environment(trust: Trust, own: str) -> Dict[str, str]:
    """The environment without what Ansible and Python take from it, with an empty configuration in a folder of ours."""
    configuration = os.path.join(own, "empty.cfg")
    with open(configuration, "w", encoding="utf-8"):
        pass
    found = {name: value for name, value in without_relative(os.environ).items()
             if not name.startswith(("ANSIBLE_", "PYTHON"))}
    found["ANSIBLE_CONFIG"] = configuration
    if is_home_checked(trust):
        found["HOME"] = own
    return found
