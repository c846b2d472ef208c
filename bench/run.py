# SPDX-License-Identifier: MIT OR Apache-2.0
# Measures the program on a large book and its runs, and prints each figure with its bar: python3 bench/run.py [PROGRAM]
import subprocess
import sys
import tempfile

sys.dont_write_bytecode = True

from measure import LOAD, TIMED_LOAD, TOP, against_json_load, at_most, in_rounds, line, ms, program_of, write
from steps import LARGE, book, inventory, print_figures, task

SMALL = 1023


# The figures.


def start_up(found):
    empty, nothing = found["empty"].seconds, found["nothing"].seconds
    print(f"start-up over /bin/true: {empty / nothing:.2f} times ({ms(empty)} over {ms(nothing)}); no bar")


def launcher(found):
    """What ./playcheck takes over the program itself, which it picks by its stamp."""
    if "launcher" not in found:
        print("launcher: not measured, since no program here is of these sources")
        return
    through, alone = found["launcher"].seconds, found["empty"].seconds
    detail = f"{ms(through)} less {ms(alone)}, {through / alone:.2f} times"
    line("launcher over the program", f"{ms(through - alone)} ({detail})", "at most 5 ms", through - alone <= 0.005)


def growth(found):
    large, small = found["check"].seconds, found["small"].seconds
    at_most(f"check of {LARGE:,} tasks over {SMALL:,}", large / small, 5, f"{ms(large)} over {ms(small)}")


def has_program():
    """Whether ./playcheck has a program to run, so that it doesn't build one."""
    asked = 'top=$1; . "$top/sources.sh"; is_built || is_ready'
    return subprocess.run(["bash", "-c", asked, "bash", str(TOP)]).returncode == 0


def commands(program, folder):
    """The words of each command that is measured, and what it has to print where that is known."""
    hosts = write(folder, "inventory.json", inventory(1))
    empty = write(folder, "empty.json", [])
    large, small = (write(folder, f"book{tasks}.json", book([task(n) for n in range(tasks)])) for tasks in (LARGE, SMALL))
    words = ["check", empty, "-i", hosts]
    through = {"launcher": ([str(TOP / "playcheck"), *words], "accepted budget 0\n")} if has_program() else {}
    return through | {
        "nothing": (["/bin/true"], None),
        "empty": ([program, *words], "accepted budget 0\n"),
        "python": ([sys.executable, "-c", LOAD, large], None),
        "load": ([sys.executable, "-c", TIMED_LOAD, large], None),
        "small": ([program, "check", small, "-i", hosts], f"accepted budget {(SMALL + 1) // 2}\n"),
        "check": ([program, "check", large, "-i", hosts], f"accepted budget {LARGE // 2}\n"),
    }


def main():
    program = program_of(sys.argv[1:])
    with tempfile.TemporaryDirectory() as folder:
        found = in_rounds(commands(program, folder))
        start_up(found)
        launcher(found)
        against_json_load(found)
        growth(found)
        print_figures(program, folder)


if __name__ == "__main__":
    main()
