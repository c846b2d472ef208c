# SPDX-License-Identifier: MIT OR Apache-2.0
# Plays the cases of expressions through the libraries' public calls: python3 tests/expression_cases.py [PROGRAM]
import json
import os
import re
import subprocess
import sys
from pathlib import Path

TESTS = Path(__file__).resolve().parent
PROGRAM = TESTS.parent / "crates/pb_probe/out/pb_probe"
FILES = ["expr.jsonl", "template.jsonl"]
TIMEOUT = 60
SHOWN = 20

# The cases that ask for more than an expression, by their names.
NO_SUCH_NAME = "a name of a host or a group that no inventory has is looked for in the texts by a rule of the book"
LEFT_OUT = {"expr-145": NO_SUCH_NAME, "expr-148": NO_SUCH_NAME, "expr-149": NO_SUCH_NAME}

# Forms of expressions, each with variables under which it is true, or with the code of its refusal.
RESULT = {"changed": True, "failed": False, "skipped": True}
FORMS = [
    ("2 < 3", {}, "ok"),
    ("not 3 < 3", {}, "ok"),
    ("3 <= 3", {}, "ok"),
    ("not 2 > 3", {}, "ok"),
    ("-1 >= -2", {}, "ok"),
    ("[1] == [1]", {}, "ok"),
    ("'a' < 'b'", {}, "V04"),
    ("[1, 2] | join(', ') == '1, 2'", {}, "ok"),
    ("[true, false] | join('') == 'TrueFalse'", {}, "ok"),
    ("[] | join(', ') == ''", {}, "ok"),
    ("[1, 2] | length == 2", {}, "ok"),
    ("'\u00e4b' | length == 2", {}, "ok"),
    ("r | length == 1", {"r": {"x": 1}}, "ok"),
    ("1 | length == 1", {}, "V04"),
    ("a.b | default('z') == 'z'", {}, "ok"),
    ("a.b | default('z') == 'z'", {"a": {"c": 1}}, "ok"),
    ("a.b | default('z') == 'z'", {"a": 7}, "ok"),
    ("a.b | default('z') == 'y'", {"a": {"b": "y"}}, "ok"),
    ("1 | default(2) == 1", {}, "ok"),
    ("t is changed and t is not failed and t is skipped", {"t": RESULT}, "ok"),
    ("(t | default(t)) is changed", {"t": RESULT}, "ok"),
    ("t is not skipped", {"t": {"changed": True, "failed": False}}, "ok"),
]

# The code of a refusal by what is said of the text.
CODES = {
    "undefined": "V01",
    "undefined_there": "V02",
    "missing_field": "V03",
    "wrong_kind": "V04",
    "unknown_name": "V06",
}
UNREADABLE = ("E01", "E02")
TRUTHS = ("bool", "never")
HOST = "h1"

RECAP = re.compile(r"^h1 : ok=(\d+) changed=\d+ unreachable=0 failed=(\d+) skipped=(\d+) rescued=0 ignored=(\d+)\n$")
REFUSED = re.compile(r"^refused ([A-Z]\d\d) line (\d+) host \S+\n$")
ACCEPTED = re.compile(r"^accepted budget \d+\n$")


class Unplayable(Exception):
    """A case is of another form than those that this script plays."""


# What a case asks.


def question_of(case):
    """The question that the last task of the case's book asks, and the word under which its text stands."""
    play, = json.loads(case["book"])
    only(play, "hosts", "tasks")
    *before, last = play["tasks"]
    question = {"host": HOST, "known": known_in(case), "registered": {}, "values": {}, "set": []}
    answers = answers_of(case)
    for task in before:
        set_up(question, task, answers)
    word, question["text"] = asked_in(last)
    question["template"] = word == "msg"
    return question, word


def only(record, *names):
    if not set(record) <= set(names):
        raise Unplayable(str(record))


def known_in(case):
    """What is known of the one host before its first task: its variables, and the names that every host has."""
    inventory = json.loads(case["inventory"])
    only(inventory, "all")
    only(inventory["all"], "hosts", "vars")
    if inventory["all"]["hosts"] != [HOST]:
        raise Unplayable(str(inventory))
    hosts = [HOST]
    groups = {"all": hosts, "ungrouped": hosts}
    names = {"inventory_hostname": HOST, "group_names": ["ungrouped"], "groups": groups, "ansible_play_batch": hosts}
    return inventory["all"].get("vars", {}) | names


def answers_of(case):
    """The answers of the one host, in their order; none where the case only checks."""
    if case["answers"] is None:
        return None
    return iter(json.loads(case["answers"]).get(HOST, []))


def set_up(question, task, answers):
    """A task before the last one, as what it leaves to the text."""
    if "set_fact" in task:
        only(task, "set_fact")
        (name, text), = task["set_fact"].items()
        question["set"].append({"name": name, "text": text})
        return
    only(task, "command", "register")
    name = task["register"]
    question["registered"][name] = "command"
    if answers is not None:
        question["values"][name] = {"failed": False} | next(answers)


def asked_in(task):
    if "debug" in task:
        only(task, "debug")
        return "msg", task["debug"]["msg"]
    if "assert" in task:
        only(task, "assert", "ignore_errors")
        return "that", task["assert"]["that"]
    only(task, "ping", "when")
    return "when", task["when"]


# What a case wants.


def wanted_of(case, tasks):
    """The code of a refusal of the last of the tasks, `accepted`, or what became of that task in the run."""
    said = case["expected_stdout"]
    if match := REFUSED.match(said):
        if int(match[2]) != tasks + 1:  # the play is on line 1 and its tasks follow
            raise Unplayable(said)
        return match[1]
    if ACCEPTED.match(said):
        return "accepted"
    match = RECAP.match(said)
    if not match:
        raise Unplayable(said)
    ok, failed, skipped, ignored = map(int, match.groups())
    if ok != tasks or failed or skipped or ignored > 1:
        raise Unplayable(said)
    return "ignored" if ignored else "ok"


def found_of(answer, word, runs):
    """The same of what was answered to the text under that word, where the case runs its book or only checks it."""
    if answer.get("refused") in UNREADABLE:
        return "P07"
    if "fault" in answer:
        return CODES[answer["fault"]]
    kind = answer["kind"]
    if kind == "any" or (word != "msg" and kind not in TRUTHS):
        return "V04"
    if not runs:
        return "accepted"
    return outcome_of(answer, word)


def outcome_of(answer, word):
    """What becomes of the task where the text has that value; a false condition fails an assert that goes on."""
    if "value" not in answer:
        return "no value"
    if word == "msg":
        return "ok"
    return "ok" if answer["value"] is True else "ignored"


# Playing them.


def cases():
    for name in FILES:
        with open(TESTS / "cases" / name, encoding="utf-8") as lines:
            yield from map(json.loads, lines)
    for number, form in enumerate(FORMS, 1):
        yield form_case(f"form-{number:02}", *form)


def form_case(name, text, variables, wanted):
    """A case of one `assert` of that text, which holds or is refused with that code."""
    recap = f"{HOST} : ok=1 changed=0 unreachable=0 failed=0 skipped=0 rescued=0 ignored=0\n"
    return {
        "id": name,
        "book": json.dumps([{"hosts": "all", "tasks": [{"assert": {"that": text}}]}]),
        "inventory": json.dumps({"all": {"hosts": [HOST], "vars": variables}}),
        "answers": "{}",
        "expected_stdout": recap if wanted == "ok" else f"refused {wanted} line 2 host {HOST}\n",
    }


def answers_to(program, questions):
    """One run of the program with all questions: the answer to each."""
    asked = json.dumps(questions).encode()
    run = subprocess.run([program], input=asked, capture_output=True, timeout=TIMEOUT, check=True)
    answers = [json.loads(line) for line in run.stdout.decode().splitlines()]
    if len(answers) != len(questions):
        raise RuntimeError(f"{len(questions)} questions, {len(answers)} answers")
    return answers


def read(case):
    """The question of the case, the word under which its text stands, and what is wanted."""
    question, word = question_of(case)
    return question, word, wanted_of(case, len(json.loads(case["book"])[0]["tasks"]))


def failures_of(program, chosen):
    """What is to be said of each of these cases that can't be played or isn't as it is wanted."""
    readable = []
    for case in chosen:
        try:
            readable.append((case, *read(case)))
        except (Unplayable, ValueError, KeyError, TypeError) as fault:
            yield f"{case['id']}\n  can't be played: {fault!r}"
    answers = answers_to(program, [question for _, question, _, _ in readable])
    for (case, _, word, wanted), answer in zip(readable, answers):
        found = found_of(answer, word, case["answers"] is not None)
        if found != wanted:
            yield f"{case['id']}\n  wanted: {wanted}\n  got: {found}, of {answer}"


def main():
    program = os.path.abspath(sys.argv[1] if len(sys.argv) > 1 else PROGRAM)
    every = list(cases())
    chosen = [case for case in every if case["id"] not in LEFT_OUT]
    gone = [f"{name} isn't there" for name in LEFT_OUT if name not in {case["id"] for case in every}]
    try:
        wrong = list(failures_of(program, chosen))
    except (OSError, subprocess.SubprocessError, RuntimeError, ValueError) as fault:  # a program that can't be run
        wrong = [repr(fault)] * len(chosen)
    for said in (gone + wrong)[:SHOWN]:
        print(f"FAILED: {said}")
    for name, reason in LEFT_OUT.items():
        print(f"left out: {name}, {reason}")
    failed = len(gone) + len(wrong)
    print(f"{len(chosen) - len(wrong)} passed, {failed} failed")
    return 1 if failed or not chosen else 0


if __name__ == "__main__":
    sys.exit(main())
