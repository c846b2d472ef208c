# SPDX-License-Identifier: GPL-3.0-or-later
# Tells, run by Ansible's own Python, the names that the installed Jinja, Python and Ansible have themselves.
import json
import keyword
import pkgutil

from ansible import context, modules
from ansible.inventory.manager import InventoryManager
from ansible.module_utils.common.collections import ImmutableDict
from ansible.parsing.dataloader import DataLoader
from ansible.playbook.play import Play
from ansible.playbook.role.include import RoleInclude
from ansible.template import Templar
from ansible.utils.vars import load_options_vars
from ansible.vars.manager import VariableManager

INNER = ("_include", "async_wrapper")  # modules that no task calls by itself
OPTIONS = {"forks": 5, "check": False, "diff": False, "inventory": ["h1,"], "skip_tags": [], "subset": "all",
           "tags": [], "verbosity": 0}


def main():
    context.CLIARGS = ImmutableDict(OPTIONS)
    loader = DataLoader()
    inventory = InventoryManager(loader, sources=["h1,"])
    manager = VariableManager(loader, inventory)
    play = Play().load({"hosts": "all", "gather_facts": False, "tasks": [{"debug": {}}]}, manager, loader)
    task = play.compile()[1].block[0] if len(play.compile()) > 1 else play.compile()[0].block[0]
    host = inventory.get_host("h1")
    magic = manager._get_magic_variables(play, host, task, True, True)
    found = {"globals": sorted(Templar(loader, variables={}).environment.globals),
             "set_over": sorted({*magic, *load_options_vars("2"), "environment", "vars"}),
             "modules": sorted(one.name for one in pkgutil.iter_modules(modules.__path__) if one.name not in INNER),
             "keywords": sorted(keyword.kwlist), "beside_roles": sorted(RoleInclude.fattributes)}
    print(json.dumps(found))


if __name__ == "__main__":
    main()
