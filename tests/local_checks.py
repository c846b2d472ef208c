# SPDX-License-Identifier: MIT OR Apache-2.0
# Checks of examples/local and examples/ssh: python3 tests/local_checks.py [PROGRAM]. Each row calls one module, as
# docs/LANGUAGE.md has its arguments and results, once with its arguments as a word and once with them on standard
# input, and compares the answer, and all that stands in the folder and beside it (local_room.py). With PROGRAM the
# example is run too (`run --modules`), whose recaps examples/local/README.md works out.
import os
import sys
from concurrent.futures import ThreadPoolExecutor
from typing import Iterator, Optional, Tuple

sys.dont_write_bytecode = True

import local_facts
import local_own
import local_runs
import local_ssh
import local_sshd
from local_room import WAYS, WORD, Check, failure_of, gives_away, of_row
from local_rows import ROWS
from tree_copies import has_no_more_rights


def checks(program: Optional[str]) -> Iterator[Tuple[str, str, Check]]:
    """Each check by its name, with the way in which modules get their arguments."""
    for way in WAYS:
        for name, module, *row in ROWS:
            yield f"{module}: {name}", way, lambda room, row=(module, *row): of_row(room, *row)  # type: ignore[misc]
        runs = local_runs.checks(program, way) if program else iter(())
        for found in (local_facts.checks(), local_own.checks(way), local_ssh.checks(), local_sshd.checks(), runs):
            yield from ((name, way, check) for name, check in found)
    yield "the page", WORD, local_runs.page_shows


def main() -> int:
    program = os.path.abspath(sys.argv[1]) if len(sys.argv) > 1 else None
    for name, reason in (("the checks over the real ssh", local_sshd.missing()),
                         ("what may not be read or written", "" if has_no_more_rights() else "no setpriv is here"),
                         ("an owner and a group", "" if gives_away() else "only root gives a file away")):
        if reason:
            print(f"skipped: {name}: {reason}")
    rows = list(checks(program))
    failed = 0
    with ThreadPoolExecutor(max(2, (os.cpu_count() or 1) // 2)) as pool:
        for (name, way, _), said in zip(rows, pool.map(lambda row: failure_of(row[2], row[1]), rows)):
            failed += bool(said)
            if said:
                print(f"FAILED: {name}, arguments by {way}: {said}")
    print(f"{len(rows) - failed} passed, {failed} failed")
    return 1 if failed else 0


if __name__ == "__main__":
    sys.exit(main())
