# SPDX-License-Identifier: MIT OR Apache-2.0
# Instructions of one task of a run, its Start and its Give, of loops of twice the items, and of tasks that read one large register:
# python3 bench/one_task.py [PROGRAM]. Wants valgrind; the same in each run, whatever else the machine does.
import sys
import tempfile

sys.dont_write_bytecode = True

from measure import Profile, at_most, can_count, instructions, line, memory_of, program_of
from steps import ANSWER, CALLED, MOST_ITEMS, Scene, asking, book, conditional, loop, printing, recap

TASKS = 1000  # and twice as many
ITEMS = 4096  # and twice as many
READERS = 100
BEYOND = 4000  # instructions of a Start and a Give
MEMORY = 1024  # KiB that readers of one register may take

# Whatever a function of these names takes until it returns.
PARTS = {
    "the plan": "pb_executor::run::Run::open",
    "Start": "pb_executor::run::Run::take",
    "Give": "pb_executor::run::Run::give",
    "evaluation": "pb_eval::",
    "admission": "pb_sig::admission::",
}


def count_text(count):
    return f"{count:,.0f}"


# A Start and a Give.


def conditionals(folder, tasks):
    """So many commands with a condition that holds and a register, on one host, and the same answers for any number of them."""
    plays = book([conditional(number) for number in range(tasks)])
    return Scene(folder, f"tasks_{tasks}", plays, 1, [ANSWER] * 2 * TASKS, tasks, recap(1, tasks, tasks))


def parts_of(program, scene):
    """A run's instructions beyond its check's, and those of its parts."""
    run = Profile(*scene.run(program))
    parts = {part: run.entering(name) for part, name in PARTS.items()}
    return parts | {"beyond check": run.whole - instructions(*scene.check(program))}


def print_task(program, folder):
    few, many = (parts_of(program, conditionals(folder, tasks)) for tasks in (TASKS, 2 * TASKS))
    each = {part: (many[part] - few[part]) / TASKS for part in few}
    if not all(each[part] > 0 for part in PARTS):
        print(f"a Start and a Give: not measured, since the program has not all of these: {', '.join(PARTS.values())}")
        return
    both = each["Start"] + each["Give"]
    beyond = both - each["evaluation"] - each["admission"]
    shown = ", ".join(f"{part} {count_text(count)}" for part, count in each.items())
    print(f"one more command with a condition and a register, instructions: {shown}; no bar")
    detail = f"{count_text(both)}, of these evaluation {count_text(each['evaluation'])}, admission {count_text(each['admission'])}"
    told = f"{count_text(beyond)} ({detail})"
    line("its Start and its Give beyond evaluation and admission", told, f"at most {count_text(BEYOND)}", beyond <= BEYOND)


# Loops.


def alone(program, scene):
    """A run's instructions beyond its check's and beyond the reading of its answers."""
    whole = instructions(*scene.run(program)) - instructions(*scene.check(program))
    return whole - instructions(*scene.reading(program)) + instructions(*scene.start(program))


def print_loops(program, folder):
    small, large = (alone(program, loop(folder, f"items_{items}", items, CALLED)) for items in (ITEMS, 2 * ITEMS))
    detail = f"{count_text(large)} over {count_text(small)}"
    told = f"a command looped over {2 * ITEMS:,} items over one over {ITEMS:,}, beyond check and reading, instructions"
    at_most(told, large / small, 2.2, detail)


# Readers.


def readers(folder, count):
    """So many tasks that read one register of many lines, its whole text."""
    plays = asking(*[{"debug": {"msg": "{{ read.stdout }}"}}] * count)
    return Scene(folder, f"readers_{count}", plays, 1, [printing(MOST_ITEMS)], 1, recap(1, 1 + count, 1))


def print_readers(program, folder):
    none, one, many = (readers(folder, count) for count in (0, 1, READERS))
    beyond = [instructions(*it.run(program)) - instructions(*it.check(program)) for it in (none, one, many)]
    first, each = beyond[1] - beyond[0], (beyond[2] - beyond[0]) / READERS
    size = len(printing(MOST_ITEMS)["stdout"])
    detail = f"{count_text(each)} over {count_text(first)} of one alone"
    at_most(f"each of {READERS} tasks that read a register of {size:,} bytes, instructions", each / first, 1.1, detail)
    more = memory_of(*many.run(program)) - memory_of(*one.run(program))
    line(f"{READERS} of them, memory", f"{more:,} KiB more than one", f"at most {MEMORY:,} KiB", more <= MEMORY)


def main():
    program = program_of(sys.argv[1:])
    if not can_count():
        sys.exit("valgrind isn't here")
    with tempfile.TemporaryDirectory() as folder:
        print_task(program, folder)
        print_loops(program, folder)
        print_readers(program, folder)


if __name__ == "__main__":
    main()
