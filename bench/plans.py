# SPDX-License-Identifier: MIT OR Apache-2.0
# Measures what plans cost beside verdicts, and prints each figure with its bar: python3 bench/plans.py [PROGRAM [PROBE]]
import json
import os
import shlex
import sys
import tempfile

sys.dont_write_bytecode = True

from measure import PROGRAM, TOP, at_most, in_rounds, ms, write
from steps import LARGE, task
from verdicts import book, calls, inventory, most_tasks

PROBE = TOP / "crates/pb_probe/out/pb_probe"
REPEATS = 20


def books():
    """Books of as many lines as there may be, or one less: each with its hosts and its budget."""
    plain = [{"hosts": "all", "tasks": [task(number) for number in range(LARGE)]}]
    blocks = book(most_tasks())
    return {
        "one list of tasks": (plain, {"all": {"hosts": ["h1"]}}, LARGE // 2),
        "blocks, and nine names of `vars`": (blocks, inventory(1), calls(most_tasks(), 1)),
    }


def asked(probe, path, question):
    """The words that put the question to the program, whose answer is how much the plan has."""
    with open(path, "w", encoding="utf-8") as file:
        json.dump([question], file)
    return ["/bin/sh", "-c", f"exec {shlex.quote(probe)} < {shlex.quote(path)}"], None


def commands(program, probe, folder):
    """For each book its `check`, the answer about its plan, and that with the plan made so often more."""
    words = {}
    for number, (name, (plays, hosts, budget)) in enumerate(books().items()):
        path, listed = write(folder, f"book{number}.json", plays), write(folder, f"hosts{number}.json", hosts)
        words[name, "check"] = ([program, "check", path, "-i", listed], f"accepted budget {budget}\n")
        question = {"plan": json.dumps(plays), "hosts": json.dumps(hosts)}
        words[name, "once"] = asked(probe, f"{folder}/once{number}.json", question)
        words[name, "again"] = asked(probe, f"{folder}/again{number}.json", question | {"repeat": {"plan": REPEATS}})
    return words


def main():
    given = [os.path.abspath(word) for word in sys.argv[1:]] + [str(PROGRAM), str(PROBE)][len(sys.argv) - 1 :]
    for program in given:
        if not os.access(program, os.X_OK):
            sys.exit(f"{program} isn't there; ./prove builds it")
    with tempfile.TemporaryDirectory() as folder:
        found = in_rounds(commands(*given, folder))
    for name in books():
        plan = (found[name, "again"].seconds - found[name, "once"].seconds) / REPEATS
        check = found[name, "check"].seconds
        at_most(f"a plan over `check`, {name}", plan / check, 0.1, f"{ms(plan)} over {ms(check)}")


if __name__ == "__main__":
    main()
