# SPDX-License-Identifier: MIT OR Apache-2.0
# Random projects that give two names in many places: inventories, files, plays, roles, blocks, includes and facts.
from __future__ import annotations

import random
from typing import Any, Dict, List, Optional

Json = Dict[str, Any]
NAMES = ("x", "y")
NOWHERE = "nowhere"
HOSTS = ("h1", "h2")
GROUPS = ("web", "inner", "other")
ASKED = "/".join("{{ %s | default('%s') }}" % (name, NOWHERE) for name in NAMES)


class Project:
    """A project: `files` of its folder by name; with the values that Ansible gave, its probes assert them."""

    def __init__(self, seed: int, values: Optional[Dict[str, str]] = None) -> None:
        self.random, self.asserted = random.Random(seed), values
        self.count = self.probes = self.roles = 0
        self.density = self.random.choice([0.15, 0.3, 0.5])
        self.sets = self.random.random() < 0.25
        self.files: Dict[str, Any] = {}
        self.put_inventory()
        plays = [self.play() for _ in range(self.random.choice([1, 1, 2]))]
        self.files["b/book.yml"] = self.imported(plays) if self.chance(0.15) else plays

    def chance(self, share: float) -> bool:
        return self.random.random() < share

    def given(self, share: Optional[float] = None) -> Json:
        """Some of the names, each with a value that stands nowhere else."""
        found = {}
        for name in NAMES:
            if self.chance(self.density if share is None else share):
                self.count += 1
                found[name] = f"s{self.count}"
        return found

    def with_vars(self, step: Json, share: Optional[float] = None) -> Json:
        given = self.given(share)
        return {**step, "vars": given} if given else step

    def put_inventory(self) -> None:
        some = {name: self.given(0.15) for name in (*GROUPS, "all", *HOSTS)}
        web: Json = {"hosts": {"h1": None}, "vars": some["web"], "children": {"inner": {"vars": some["inner"]}}}
        if self.chance(0.5):
            web["children"]["inner"]["hosts"] = {"h1": None}
        other: Json = {"hosts": {"h1": None}, "vars": dict(some["other"])}
        if self.chance(0.2):
            other["vars"]["ansible_group_priority"] = 5
        self.files["hosts.yml"] = {"all": {"hosts": {host: some[host] or None for host in HOSTS}, "vars": some["all"],
                                           "children": {"web": web, "other": other}}}
        for folder in ("", "b/"):
            for name in ("all", *GROUPS):
                if self.chance(0.1):
                    self.files[f"{folder}group_vars/{name}.yml"] = self.given(0.5)
            if self.chance(0.1):
                self.files[f"{folder}host_vars/h1.yml"] = self.given(0.5)

    def imported(self, plays: List[Json]) -> List[Json]:
        self.files["b/plays.yml"] = plays
        return [self.with_vars({"import_playbook": "plays.yml"}, 0.7)]

    def play(self) -> Json:
        play: Json = self.with_vars({"hosts": "all", "gather_facts": False})
        if self.chance(0.25):
            name = f"file{len(self.files)}.yml"
            self.files[f"b/{name}"] = {**self.given(0.6), "other": 1}
            play["vars_files"] = [name]
        if self.chance(0.4):
            play["roles"] = [self.role_entry() for _ in range(self.random.choice([1, 2]))]
        play["tasks"] = self.tasks(0)
        return play

    def role_entry(self) -> Json:
        parameters = self.given(0.15)
        return {**self.with_vars({"role": self.role(1)}, 0.3), **parameters}

    def role(self, depth: int) -> str:
        """A new role with some of its parts."""
        self.roles += 1
        name = f"role{self.roles}"
        folder = f"b/roles/{name}"
        for part, share in (("defaults", 0.3), ("vars", 0.15)):
            given = self.given(share)
            if given:
                self.files[f"{folder}/{part}/main.yml"] = given
        if depth < 2 and self.chance(0.2):
            self.files[f"{folder}/meta/main.yml"] = {"dependencies": [
                {**self.with_vars({"role": self.role(2)}, 0.3), **self.given(0.1)}]}
        tasks = [self.with_vars(self.probe(), 0.1)]
        if self.chance(0.2):
            tasks.append({"debug": {"msg": "x"}, "changed_when": True, "notify": f"Handler of {name}"})
            handler = {**self.with_vars(self.probe(), 0.1), "listen": f"Handler of {name}"}
            self.files[f"{folder}/handlers/main.yml"] = [handler]
        self.files[f"{folder}/tasks/main.yml"] = tasks + (self.tasks(2) if self.chance(0.3) else [])
        return name

    def probe(self) -> Json:
        """A task that tells the values of the names, or asserts them."""
        self.probes += 1
        name = f"P{self.probes}"
        if self.asserted is None:
            return {"name": name, "debug": {"msg": ASKED}}
        told = self.asserted.get(name)
        values = dict(zip(NAMES, told.split("/"))) if told else {}
        that = [f"{one} | default('{NOWHERE}') == '{value}'" for one, value in values.items()]
        return {"name": name, "assert": {"that": that or ["true"]}, "ignore_errors": True}

    def tasks(self, depth: int) -> List[Json]:
        return [step for _ in range(self.random.choice([1, 2])) for step in (self.step(depth), self.probe())]

    def step(self, depth: int) -> Json:
        kind = self.random.random()
        if kind < 0.35 or depth > 1:
            return self.with_vars(self.probe())
        if kind < 0.5:
            return self.with_vars({"block": self.tasks(depth + 1)})
        if kind < 0.6 and self.sets:
            self.count += 1
            return {"set_fact": {self.random.choice(NAMES): f"s{self.count}"}}
        if kind < 0.78:
            name = f"tasks{len(self.files)}.yml"
            self.files[f"b/{name}"] = []
            self.files[f"b/{name}"] = self.tasks(2)
            return self.with_vars({self.random.choice(["include_tasks", "import_tasks"]): name})
        word = self.random.choice(["include_role", "import_role"])
        return self.with_vars({word: {"name": self.role(depth + 1)}})
