# SPDX-License-Identifier: MIT OR Apache-2.0
# Measures the libraries' calls on texts, and prints each figure: python3 bench/expressions.py [PROGRAM]
import json
import os
import shlex
import sys
import tempfile
from pathlib import Path
from statistics import median

sys.dont_write_bytecode = True

from measure import TIMED_LOAD, at_most, in_rounds, ms
from steps import task

TOP = Path(__file__).resolve().parent.parent
PROGRAM = TOP / "crates/pb_probe/out/pb_probe"
LONG = 4096  # bytes of the longest text that a book may have
READS = 1024  # of such a text: 4 MB
REPEATS = {"read": READS, "kind": 2000, "value": 2000}
CALLS = {"read": "parse_template", "kind": "kind_of", "value": "eval"}
LINES = {"stdout": "a", "stderr": "", "stdout_lines": ["a"], "stderr_lines": []}
OUT = LINES | {"changed": True, "failed": False, "rc": 0}
VALUES = {"out": OUT} | {f"n{number:03}": number for number in range(LONG // 20)}


# The texts, each of some steps.


def message(length):
    """A template of conditions and defaults; a step is one `{{ .. }}`."""
    piece = "{{ out.rc == 0 and 'a' in out.stdout_lines or not out.changed }} {{ out.stdout | default('x') }}, "
    count = length // len(piece)
    return (piece * count).ljust(length), 2 * count


def condition(length):
    """A condition of comparisons; a step is one of them."""
    return joined(length, lambda number: "out.rc == 0")


def tests(length):
    """A condition of tests, each of another name that holds something and isn't known; a step is one of them."""
    return joined(length, lambda number: f"n{number:03} is defined")


def joined(length, operand):
    count = (length + len(" and ")) // (len(operand(0)) + len(" and "))
    return " and ".join(map(operand, range(count))).ljust(length), count


TEXTS = {
    "message": (message, ["read", "kind", "value"]),
    "condition": (condition, ["kind", "value"]),
    "condition of tests": (tests, ["kind", "value"]),
}


# What is run.


def write(folder, name, value):
    path = os.path.join(folder, name)
    with open(path, "w") as file:
        json.dump(value, file)
    return path


def asked(program, folder, name, text, repeat):
    """The words that put the text to the program, with these steps again."""
    question = {"text": text, "template": name == "message", "registered": {"out": "command"}, "values": VALUES}
    path = write(folder, f"{name}-{len(text)}-{'-'.join(repeat)}.json", [question | {"repeat": repeat}])
    return ["/bin/sh", "-c", f"exec {shlex.quote(program)} < {shlex.quote(path)}"], None


def tasks_of(length):
    """A list of tasks that has as many bytes, and some of one task."""
    tasks, size = [], 0
    while size < length:
        tasks.append(task(len(tasks)))
        size += len(json.dumps(tasks[-1])) + len(", ")
    return tasks


def commands(program, folder):
    """The words of each command: each text of each length with each step again, and with none."""
    loaded = write(folder, "tasks.json", tasks_of(LONG * READS))
    words = {"load": ([sys.executable, "-c", TIMED_LOAD, loaded], None)}
    for name, (text_of, steps) in TEXTS.items():
        for length in [LONG // 2, LONG]:
            text, _ = text_of(length)
            words[name, length, ""] = asked(program, folder, name, text, {})
            for step in steps:
                words[name, length, step] = asked(program, folder, name, text, {step: REPEATS[step]})
    return words


# The figures.


def seconds(found, name, length, step):
    """What the repeats of the step take: the time with them less the time without."""
    return found[name, length, step].seconds - found[name, length, ""].seconds


def compare(name, large, small, most):
    if large <= 0 or small <= 0:
        print(f"{name}: too short to be measured")
        return
    at_most(name, large / small, most, f"{ms(large)} over {ms(small)}")


def reading(found):
    load = median(float(printed) for printed in found["load"].printed)
    compare("parse_template of 4 MB over json.load of as much", seconds(found, "message", LONG, "read"), load, 3)


def speed(found, name, step):
    _, count = TEXTS[name][0](LONG)
    taken = seconds(found, name, LONG, step)
    rate = f"{count * REPEATS[step] / taken:,.0f} steps per second" if taken > 0 else "too short to be measured"
    print(f"{CALLS[step]} of a {name} of {LONG:,} bytes: {rate} ({count} steps); no bar")


def growth(found, name, step):
    large, small = seconds(found, name, LONG, step), seconds(found, name, LONG // 2, step)
    compare(f"{CALLS[step]} of a {name} of {LONG:,} bytes over {LONG // 2:,}", large, small, 2.2)


def main():
    program = os.path.abspath(sys.argv[1] if len(sys.argv) > 1 else PROGRAM)
    if not os.access(program, os.X_OK):
        sys.exit(f"{program} isn't there; ./test builds it")
    with tempfile.TemporaryDirectory() as folder:
        found = in_rounds(commands(program, folder))
    reading(found)
    for name, (_, steps) in TEXTS.items():
        for step in steps:
            speed(found, name, step)
            growth(found, name, step)


if __name__ == "__main__":
    main()
