# SPDX-License-Identifier: MIT OR Apache-2.0
# Measures the reading of a large whole book and prints each figure with its bar: python3 bench/books.py [PROGRAM]
import os
import sys
import tempfile

sys.dont_write_bytecode = True

from measure import LOAD, TIMED_LOAD, against_json_load, at_most, in_rounds, ms, program_of, write

# Blocks of a rescue and an always part, so that 64 handlers and 503 blocks of 8 lines make 4,089 lines of at most 4,096.
LARGE, SMALL = 503, 251
HANDLERS = 64
WORDS = "installs the package, writes what it needs and looks whether it runs; " * 12
# The play is on line 1 and the first block on line 2; its first task reads `ready`, which nothing sets.
VERDICT = "refused V01 line 3 host web1\n"


def calling(number):
    """A call of a module with most of the keywords that a task can have."""
    return {
        "name": f"Call {number}",
        "command": {"cmd": f"{WORDS} {{{{ package_{number % 9} }}}} {number}", "creates": "/tmp/{{ item }}"},
        "loop": [f"item {place} of {number}" for place in range(6)],
        "when": [f"place_{number % 7} is defined", "not (stopped | default(false))"],
        "register": f"result_{number}",
        "notify": [f"handler {number % HANDLERS}"],
        "vars": {"depth": {"rows": [number, {"text": "{{ inventory_hostname }}"}]}},
    }


def telling(number):
    return {"name": f"Tell {number}", "debug": {"msg": f"{WORDS} {number} of {{{{ result_{number}.results | length }}}}"}}


def block(number):
    return {
        "name": f"Block {number}",
        "block": [calling(number), telling(number), calling(number + 1)],
        "rescue": [telling(number), calling(number + 2)],
        "always": [telling(number), calling(number + 3)],
        "when": "ready",
    }


def handler(number):
    return {"name": f"handler {number}", "service": {"name": f"{WORDS} {number}", "state": "restarted"}}


def book(blocks):
    handlers = [handler(number) for number in range(HANDLERS)]
    return [{"hosts": "all", "tasks": [block(number) for number in range(blocks)], "handlers": handlers}]


def commands(program, folder):
    """The words of each command that is measured, what it has to print and the status that it has to end with."""
    hosts = write(folder, "hosts.json", {"all": {"hosts": ["web1"]}})
    large = write(folder, "large.json", book(LARGE))
    small = write(folder, "small.json", book(SMALL))
    print(f"a book of {os.path.getsize(large):,} bytes, and one of {os.path.getsize(small):,}")
    return {
        "python": ([sys.executable, "-c", LOAD, large],),
        "load": ([sys.executable, "-c", TIMED_LOAD, large],),
        "small": ([program, "check", small, "-i", hosts], VERDICT, 1),
        "check": ([program, "check", large, "-i", hosts], VERDICT, 1),
    }


def main():
    program = program_of(sys.argv[1:])
    with tempfile.TemporaryDirectory() as folder:
        found = in_rounds(commands(program, folder))
    against_json_load(found, "a whole book", 4)
    large, small = found["check"].seconds, found["small"].seconds
    at_most(f"a book of {LARGE} blocks over {SMALL}", large / small, 2.2, f"{ms(large)} over {ms(small)}")


if __name__ == "__main__":
    main()
