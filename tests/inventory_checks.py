# SPDX-License-Identifier: MIT OR Apache-2.0
# Puts inventories to the library that reads them, and compares: python3 tests/inventory_checks.py [PROGRAM]
#
# Those of examples/inventories have to say what Ansible says of them, but for the differences that are listed here. The
# cases that are of an inventory alone have to be read, or refused with their code.
import json
import os
import re
import subprocess
import sys
from pathlib import Path

from check import bytes_of
from expression_cases import answers_to

TESTS = Path(__file__).resolve().parent
PROGRAM = TESTS.parent / "crates/pb_probe/out/pb_probe"
EXAMPLES = TESTS.parent / "examples/inventories"
FILES = ["inventory.jsonl", "groups.jsonl", "json.jsonl", "limit.jsonl"]
BATCH = 6_000_000  # bytes that are put to one run of the program, if there is more than one inventory
SHOWN = 20

# The code of a refusal by the word for it.
CODES = {"not_json": "I01", "form": "I02", "host_name": "I03", "cycle": "I04", "limit": "I05"}
ACCEPTED = re.compile(r"^accepted budget \d+\n$")
REFUSED = re.compile(r"^refused (I\d\d) line 0 host -\n$")

# Hosts come as the groups list them, and the groups by the bytes of their names; Ansible goes by its source.
HOST_ORDER = {
    "flat": ["db1", "bastion", "monitor", "web1", "web2"],
    "nested": ["db1.eu", "db1.us", "bastion", "web1.us", "web2.eu", "web1.eu"],
    "meta": ["web2", "cache1", "db1", "db2", "web1"],
}

# The variables that are told otherwise than Ansible has them: what stands in their place, and why.
OPAQUE = {"opaque": True}
LEFT_OUT = object()
TEMPLATE = "a text with a template isn't looked into"
NUMBER = "a number that is no 64 bit integer isn't looked into"
FACT = "a fact comes from setup alone"
DIFFERENCES = {
    "flat": {},
    "nested": {"url": (OPAQUE, TEMPLATE), "load_limit": (OPAQUE, NUMBER)},
    "meta": {
        "source": (OPAQUE, TEMPLATE),
        "load_limit": (OPAQUE, NUMBER),
        "serial_number": (OPAQUE, NUMBER),
        "ansible_os_family": (LEFT_OUT, FACT),
    },
}


# What is to be said of the examples.


def text_of(name):
    return (EXAMPLES / name).read_text(encoding="utf-8")


def example_checks(name, told):
    """Each thing that is compared: its name, what is wanted, and what was told."""
    written = json.loads(text_of(f"{name}.json"))
    ansible = json.loads(text_of(f"{name}.expected.json"))
    hosts = {host["name"]: host for host in told["hosts"]}
    yield "the hosts", HOST_ORDER[name], [host["name"] for host in told["hosts"]]
    yield "Ansible's hosts", sorted(ansible["hosts"]), sorted(hosts)
    yield "the groups", sorted(ansible["groups"]), list(told["groups"])
    for group, members in ansible["groups"].items():
        yield f"group {group}", *in_one_order(group, members, told["groups"].get(group), written)
    for host, variables in ansible["hosts"].items():
        own = hosts.get(host, {})
        yield f"groups of {host}", groups_of(host, ansible["groups"]), own.get("groups")
        yield f"variables of {host}", as_told(name, variables), own.get("vars")
    for variable in DIFFERENCES[name]:
        yield f"{variable} is some host's", True, any(variable in own for own in ansible["hosts"].values())


def in_one_order(group, wanted, found, written):
    """A group's hosts as both list them, and sorted where it has children: Ansible's order isn't settled there."""
    if written.get(group, {}).get("children") and found is not None:
        return sorted(wanted), sorted(found)
    return wanted, found


def groups_of(host, groups):
    return sorted(name for name, members in groups.items() if host in members and name != "all")


def as_told(name, variables):
    """The variables that Ansible has, with what stands here in the place of some."""
    different = DIFFERENCES[name]
    found = {key: different[key][0] if key in different else value for key, value in variables.items()}
    return {key: value for key, value in found.items() if value is not LEFT_OUT}


def example_failures(program):
    """How many things were compared, and what is to be said of those that differ."""
    names = list(HOST_ORDER)
    answers = answers_to(program, [{"inventory": text_of(f"{name}.json")} for name in names])
    every = [(name, *check) for name, answer in zip(names, answers) for check in example_checks(name, answer)]
    return len(every), [
        f"{name}: {what}\n  wanted: {wanted}\n  got: {found}" for name, what, wanted, found in every if not same(wanted, found)
    ]


def same(wanted, found):
    """Whether they are the same JSON: true isn't 1."""
    return json.dumps(wanted, sort_keys=True) == json.dumps(found, sort_keys=True)


# What is to be said of the cases.


def wanted_of(case):
    """The code of the refusal of the case's inventory, or `accepted`; none where the case is of more than an inventory."""
    if case["book"] != "[]" or case["signatures"] is not None or case["answers"] is not None:
        return None
    if match := REFUSED.match(case["expected_stdout"]):
        return match[1]
    return "accepted" if ACCEPTED.match(case["expected_stdout"]) else None


def found_of(answer):
    if "hosts" in answer and "groups" in answer:
        return "accepted"
    return CODES.get(answer.get("fault"), f"{answer}"[:200])


def cases():
    for name in FILES:
        with open(TESTS / "cases" / name, encoding="utf-8") as lines:
            yield from (case for case in map(json.loads, lines) if wanted_of(case) is not None)


def batches(chosen):
    """The cases with their questions, as many together as one run takes."""
    batch, size = [], 0
    for case in chosen:
        text = bytes_of(case["inventory"]).decode()
        if batch and size + len(text) > BATCH:
            yield batch
            batch, size = [], 0
        batch.append((case, {"inventory": text}))
        size += len(text)
    yield batch


def case_failures(program):
    """How many cases were put, and what is to be said of those that aren't answered as they are wanted."""
    wrong, count = [], 0
    for batch in batches(cases()):
        answers = answers_to(program, [question for _, question in batch])
        for (case, _), answer in zip(batch, answers):
            count += 1
            wanted, found = wanted_of(case), found_of(answer)
            if found != wanted:
                wrong.append(f"{case['id']}\n  wanted: {wanted}\n  got: {found}")
    return count, wrong


def main():
    program = os.path.abspath(sys.argv[1] if len(sys.argv) > 1 else PROGRAM)
    count, wrong = 0, []
    for play in [example_failures, case_failures]:
        try:
            played, failures = play(program)
        except (OSError, subprocess.SubprocessError, RuntimeError, ValueError, KeyError, TypeError) as fault:
            played, failures = 1, [f"{play.__name__}: {fault!r}"]
        count += played
        wrong += failures
        if not played:
            count, wrong = count + 1, wrong + [f"{play.__name__}: nothing was played"]
    for said in wrong[:SHOWN]:
        print(f"FAILED: {said}")
    for name, different in DIFFERENCES.items():
        for variable, (_, reason) in different.items():
            print(f"otherwise than Ansible: {variable} of {name}, {reason}")
    print(f"{count - len(wrong)} passed, {len(wrong)} failed")
    return 1 if wrong else 0


if __name__ == "__main__":
    sys.exit(main())
