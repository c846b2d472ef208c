# SPDX-License-Identifier: MIT OR Apache-2.0
# Runs the cases of tests/cases, the refusals of refusals.jsonl, the books of forks.jsonl, the hosts of alike.jsonl, the texts
# of others.jsonl, the worked rows of tests/semantics, and the checks of program_checks.py:
# python3 tests/run_cases.py [PROGRAM]
import json
import os
import sys
from concurrent.futures import ThreadPoolExecutor
from pathlib import Path

sys.dont_write_bytecode = True

from check import Check, exactly
from program_checks import program_checks

TESTS = Path(__file__).resolve().parent
PROGRAM = TESTS.parent / "crates/pb_cli/out/pb_cli"
SHOWN = 20


def checks_of(case):
    """The check that a line of a case file describes, or one for each number of forks where it lists some."""
    forks = case["forks"]
    if not isinstance(forks, list):
        return [check_of(case)]
    return [check_of(case | {"id": f"{case['id']}-{number}", "forks": number}) for number in forks]


def check_of(case):
    """One of them: `run` where it has answers, else `check`."""
    files = {"book.json": case["book"], "inventory.json": case["inventory"]}
    words = ["check", "book.json", "-i", "inventory.json"]
    if case["signatures"] is not None:
        files["signatures.json"] = case["signatures"]
        words += ["-s", "signatures.json"]
    if case["answers"] is not None:
        files["answers.json"] = case["answers"]
        words[0] = "run"
        words += ["-f", str(case["forks"]), "--answers", "answers.json"]
    return Check(case["id"], words, exactly(case["expected_stdout"], case["expected_status"]), files)


def cases():
    others = ["refusals.jsonl", "forks.jsonl", "alike.jsonl", "others.jsonl", "semantics/rows.jsonl"]
    for path in [*sorted((TESTS / "cases").glob("*.jsonl")), *(TESTS / name for name in others)]:
        with open(path, encoding="utf-8") as lines:
            for line in lines:
                yield from checks_of(json.loads(line))


def failure_of(program, check):
    """What is to be said of a check that goes wrong; of another nothing."""
    try:
        outcome = check.run(program)
        wanted = check.judge(outcome)
    except Exception as fault:  # also a program that can't be run, and one that takes too long
        return f"{check.id}\n  got: {fault!r}"
    return f"{check.id}\n  wanted: {wanted}\n  got: {outcome}" if wanted else ""


def run_all(program, checks):
    with ThreadPoolExecutor(os.cpu_count() or 1) as pool:
        return list(pool.map(lambda check: failure_of(program, check), checks))


def main():
    program = os.path.abspath(sys.argv[1] if len(sys.argv) > 1 else PROGRAM)
    designed = list(cases())
    results = run_all(program, designed + program_checks(TESTS.parent))
    failures = [said for said in results if said]
    for said in failures[:SHOWN]:
        print(f"FAILED: {said}")
    if len(failures) > SHOWN:
        print(f"and {len(failures) - SHOWN} more")
    failed = len(failures)
    if not designed:
        print("FAILED: there is no case in tests/cases")
        failed += 1
    print(f"{results.count('')} passed, {failed} failed")
    return 1 if failed else 0


if __name__ == "__main__":
    sys.exit(main())
