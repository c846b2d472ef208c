# SPDX-License-Identifier: MIT OR Apache-2.0
"""Turns books, inventories, signatures and answers into terms of the definitions."""

import json
import re

from expressions import codes, conditions, expressions, integer, names, parts, template

FIELDS = ["ansible_hostname", "ansible_system", "ansible_os_family", "ansible_distribution"]
RESERVED = set(
    "inventory_hostname groups group_names hostvars ansible_play_batch item ansible_failed_result ansible_facts "
    "ansible_hostname ansible_system ansible_os_family ansible_distribution ansible_processor_vcpus "
    "ansible_memtotal_mb and or not in is true false True False none None if else".split()
)
TASK_WORDS = set("name when loop register vars notify changed_when failed_when ignore_errors until retries listen".split())


def read_json(text):
    """A JSON text; `-0` is no whole number."""
    return json.loads(text, parse_int=lambda digits: -0.0 if digits == "-0" else int(digits))


def by_bytes(keys):
    return sorted(keys, key=lambda key: key.encode())


def is_opaque(value, templates):
    if isinstance(value, float):
        return True
    if isinstance(value, int) and not isinstance(value, bool) and not -(2**63) <= value < 2**63:
        return True
    return templates and isinstance(value, str) and re.search(r"\{\{|\{%|\{#", value) is not None


def data(value, templates=False):
    """A value as a term."""
    if is_opaque(value, templates):
        return "opaque"
    if value is None:
        return "null"
    if isinstance(value, bool):
        return f"(boolean {str(value).lower()})"
    if isinstance(value, int):
        return integer(value)
    if isinstance(value, str):
        return f"(text {codes(value)})"
    if isinstance(value, list):
        return "(list (" + "".join(f"item {data(v, templates)} (" for v in value) + "no_items" + ")" * len(value) + "))"
    return f"(rec {fields(value, templates)})"


def fields(record, templates=False):
    keys = by_bytes(record)
    return "(" + "".join(f"field {codes(k)} {data(record[k], templates)} (" for k in keys) + "no_fields" + ")" * len(keys) + ")"


def option(term):
    return "None" if term is None else f"(Some {term})"


def listed(terms):
    return "(" + "".join(f"{term} ∷ " for term in terms) + "[])"


def texts(value):
    return [] if value is None else [value] if isinstance(value, str) else value


class Lines:
    """Numbers the lines of a book."""

    def __init__(self):
        self.number = 0

    def next(self):
        self.number += 1
        return self.number


def module_of(task):
    keys = [k for k in task if k not in TASK_WORDS]
    name = keys[0]
    return name.removeprefix("ansible.builtin."), task[name]


def pairs(arguments):
    return parts([(k, template(arguments[k])) for k in by_bytes(arguments)])


def is_condition(value):
    values = value if isinstance(value, list) else [value]
    return all(isinstance(v, (bool, str)) for v in values)


def work(task):
    name, arguments = module_of(task)
    if isinstance(arguments, str):
        arguments = {"cmd": arguments}
    arguments = arguments or {}
    if name == "debug":
        return f"(debug_work {pairs(arguments)})"
    if name == "set_fact":
        return f"(set_fact_work {pairs(arguments)})"
    if name == "fail":
        return f"(fail_work {pairs(arguments)})"
    if name != "assert":
        return f"(module_work {codes(name)} {pairs(arguments)})"
    others = {k: v for k, v in arguments.items() if k != "that"}
    asserted = "not_given"
    if "that" in arguments:
        good = is_condition(arguments["that"])
        asserted = f"(conditions_are {expressions(conditions(arguments['that']))})" if good else "not_well_formed"
    return f"(assert_work {asserted} {pairs(others)})"


def attempts_term(task):
    """What has to hold, and the number of retries, 3 where it isn't given."""
    if "until" not in task:
        return "None"
    return f"(Some (record {{ until = {expressions(conditions(task['until']))}; retries = {task.get('retries', 3)} }}))"


def task_term(task, line):
    def listed_conditions(key):
        return option(expressions(conditions(task[key]))) if key in task else "None"

    loop = option(template(task["loop"])) if "loop" in task else "None"
    ignores = option(str(task["ignore_errors"]).lower()) if "ignore_errors" in task else "None"
    register = option(codes(task["register"])) if "register" in task else "None"
    return (
        f"(record {{ line = {line}; work = {work(task)}; condition = {expressions(conditions(task.get('when', [])))}; "
        f"loop = {loop}; register = {register}; vars = {pairs(task.get('vars', {}))}; "
        f"notify = {names(texts(task.get('notify')))}; changed_when = {listed_conditions('changed_when')}; "
        f"failed_when = {listed_conditions('failed_when')}; attempts = {attempts_term(task)}; ignore_errors = {ignores} }})"
    )


def steps(items, lines):
    """A list of tasks, blocks and flushes."""
    opened, closed = "(", ")"
    for item in items or []:
        line = lines.next()
        if "block" in item:
            ignores = option(str(item["ignore_errors"]).lower()) if "ignore_errors" in item else "None"
            block = (
                f"(record {{ line = {line}; condition = {expressions(conditions(item.get('when', [])))}; "
                f"vars = {pairs(item.get('vars', {}))}; ignore_errors = {ignores} }})"
            )
            inner = [steps(item.get(part), lines) for part in ("block", "rescue", "always")]
            opened += f"block_step {block} {' '.join(inner)} ("
        elif module_of(item)[0] == "meta":
            opened += f"flush_step {line} ("
        else:
            opened += f"task_step {task_term(item, line)} ("
        closed += ")"
    return opened + "no_steps" + closed


def handler_term(handler, lines):
    name = option(codes(handler["name"])) if "name" in handler else "None"
    return f"record {{ work = {task_term(handler, lines.next())}; name = {name}; topics = {names(texts(handler.get('listen')))} }}"


def cut_term(entry):
    return f"host_count {entry}" if isinstance(entry, int) else f"percentage {entry.removesuffix('%')}"


def words(pattern):
    found = pattern if isinstance(pattern, list) else [pattern]
    return [word.strip(" \t\n\r") for text in found for word in re.split("[:,]", text)]


def play_term(play, lines):
    line = lines.next()
    gathering = option(lines.next()) if play.get("gather_facts") else "None"
    serial = play.get("serial", [])
    sections = {name: steps(play.get(name), lines) for name in ("pre_tasks", "tasks", "post_tasks")}
    handlers = [handler_term(h, lines) for h in play.get("handlers", [])]
    return (
        f"record {{ line = {line}; pattern = {names(words(play['hosts']))}; gathering = {gathering}; "
        f"vars = {pairs(play.get('vars', {}))}; is_linear = {str(play.get('strategy') != 'free').lower()}; "
        f"serial = {listed([cut_term(c) for c in (serial if isinstance(serial, list) else [serial])])}; "
        f"pre_tasks = {sections['pre_tasks']}; tasks = {sections['tasks']}; post_tasks = {sections['post_tasks']}; "
        f"handlers = {listed(handlers)}; forces = {str(play.get('force_handlers', False)).lower()} }}"
    )


def book_term(book):
    lines = Lines()
    return listed([play_term(play, lines) for play in book])


class Groups:
    """The hosts, groups and variables of an inventory."""

    def __init__(self, inventory):
        self.meta = inventory.get("_meta", {}).get("hostvars", {}) or {}
        self.raw = {k: ({"hosts": v} if isinstance(v, list) else v) for k, v in inventory.items() if k != "_meta"}
        for group in list(self.raw.values()):
            for child in group.get("children", []):
                self.raw.setdefault(child, {})
        for name in ("all", "ungrouped"):
            self.raw.setdefault(name, {})
        self.hosts = []
        for name in by_bytes(self.raw):
            self.hosts = list(dict.fromkeys(self.hosts + self.raw[name].get("hosts", [])))
        self.members = {name: self.of(name) for name in self.raw if name not in ("all", "ungrouped")}
        self.members["all"] = self.hosts
        inside = {h for name in self.members if name != "all" for h in self.members[name]}
        self.members["ungrouped"] = [h for h in self.hosts if h not in inside]

    def of(self, name):
        children = [host for child in self.raw[name].get("children", []) for host in self.of(child)]
        return list(dict.fromkeys(self.raw[name].get("hosts", []) + children))

    def depth(self, name):
        if name == "all":
            return 0
        parents = [p for p in self.raw if name in self.raw[p].get("children", [])]
        depths = [self.depth(p) for p in parents if p != "all"]
        return 1 + max(depths, default=0)

    def variables(self, host):
        found = {}
        for name in sorted((n for n in self.raw if host in self.members[n]), key=lambda n: (self.depth(n), n.encode())):
            found.update(self.raw[name].get("vars", {}) or {})
        found.update(self.meta.get(host, {}) or {})
        return {k: v for k, v in found.items() if k not in RESERVED}


def inventory_term(inventory):
    groups = Groups(inventory)
    hosts = [f"record {{ name = {codes(h)}; variables = {fields(groups.variables(h), True)} }}" for h in groups.hosts]
    lists = [f"record {{ name = {codes(g)}; hosts = {names(groups.members[g])} }}" for g in by_bytes(groups.members)]
    return groups.hosts, f"record {{ hosts = {listed(hosts)}; groups = {listed(lists)} }}"


def kind_term(kind):
    if isinstance(kind, str):
        return {"bool": "booleans", "int": "ints", "text": "texts"}[kind]
    if "list" in kind:
        return f"(lists {kind_term(kind['list'])} {kind['max']})"
    return f"(recs {slots_term(kind['rec'])})"


def slots_term(shape):
    keys = by_bytes(shape)
    opened = "".join(f"slot {codes(k)} {str(shape[k]['always']).lower()} {kind_term(shape[k]['kind'])} (" for k in keys)
    return f"({opened}no_slots{')' * len(keys)})"


def module_term(module):
    params = [
        f"record {{ name = {codes(k)}; kind = {kind_term(p['kind'])}; required = {str(p['required']).lower()} }}"
        for k, p in module["params"].items()
    ]
    return (
        f"record {{ name = {codes(module['name'])}; params = {listed(params)}; ok = recs {slots_term(module['ok'])}; "
        f"failure = recs {slots_term(module['failure'])}; free = None }}"
    )


def registry_term(signatures):
    return "(builtins ++ " + listed([module_term(m) for m in signatures or []]) + ")"


def answer_term(answer):
    if answer.get("unreachable") is True:
        return "unreachable"
    return f"object {data(answer)}"


def answers_term(answers, hosts):
    return listed([listed([answer_term(a) for a in answers.get(host, [])]) for host in hosts])
