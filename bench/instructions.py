# SPDX-License-Identifier: MIT OR Apache-2.0
# Compares the instructions of four checks with those that bench/instructions lists: python3 bench/instructions.py [PROGRAM].
# With --record it writes the list anew.
import sys
import tempfile
from pathlib import Path

sys.dont_write_bytecode = True

from measure import instructions, program_of
from verdicts import CLASSES, GROUPS, HOSTS, TASKS, book, check, with_another

LIST = Path(__file__).with_name("instructions")
MOST_CHANGE = 0.1  # of what is listed, more or less


def checks(program, folder):
    return {
        "one host": check(program, folder, "one", TASKS, 1),
        "hosts that look alike": check(program, folder, "alike", TASKS, HOSTS),
        "hosts in classes": check(program, folder, "classes", TASKS, HOSTS, CLASSES),
        "hosts of which a text reads another": check(program, folder, "others", TASKS, GROUPS, 1, with_another(book(TASKS))),
    }


def counted(program):
    with tempfile.TemporaryDirectory() as folder:
        return {name: instructions(*words) for name, words in checks(program, folder).items()}


def listed():
    lines = LIST.read_text(encoding="utf-8").splitlines()
    return {name: int(count) for count, name in (line.split(" ", 1) for line in lines)}


def record(found):
    LIST.write_text("".join(f"{count} {name}\n" for name, count in found.items()), encoding="utf-8")


def compare(found, wanted):
    """Says of each check by how much it changed; how many changed by more than is let pass."""
    failed = 0
    for name in sorted(found.keys() | wanted.keys()):
        if name not in found or name not in wanted:
            print(f"{name}: not in both lists")
            failed += 1
            continue
        change = found[name] / wanted[name] - 1
        is_wide = abs(change) > MOST_CHANGE
        failed += is_wide
        print(f"{name}: {found[name]:,} instructions, {change:+.1%}{' FAILED' if is_wide else ''}")
    return failed


def main():
    words = [word for word in sys.argv[1:] if word != "--record"]
    found = counted(program_of(words))
    if "--record" in sys.argv:
        record(found)
    failed = compare(found, listed())
    print(f"{len(found) - min(failed, len(found))} passed, {failed} failed")
    sys.exit(failed > 0)


if __name__ == "__main__":
    main()
