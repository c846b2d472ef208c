# SPDX-License-Identifier: MIT OR Apache-2.0
# Tries what a repository that isn't trusted may do to a check: python3 tests/stranger_checks.py PROGRAM [--quick].
import os
import sys
from pathlib import Path
from typing import Callable, Iterator, List, Tuple

from ansible_tools import fork_commands
from stranger_bounds import wrong_kinds_of_files, wrong_limits, wrong_outputs, wrong_slow_files
from stranger_inventories import Skipped, wrong_faults, wrong_ini, wrong_words
from stranger_names import wrong_locale, wrong_names, wrong_tasks
from stranger_unread import wrong_plays, wrong_run_inventories, wrong_unread
from stranger_ways import missing_ansible, not_taken_back, wrong_pipelines, wrong_ways


def wrong_options() -> Iterator[str]:
    if missing_ansible():
        raise Skipped(f"options that let programs be run: {missing_ansible()}")
    yield from not_taken_back()
    yield from wrong_run_inventories()


SEARCHES: Tuple[Callable[[], Iterator[str]], ...] = (
    wrong_ways, wrong_pipelines, wrong_options, wrong_ini, wrong_words, wrong_faults, wrong_unread, wrong_plays,
    wrong_slow_files, wrong_limits, wrong_kinds_of_files, wrong_outputs,
    wrong_tasks, wrong_names, wrong_locale)
# Those that cost little in forks of one process.
QUICK = (wrong_words, wrong_faults, wrong_unread, wrong_plays, wrong_tasks, wrong_names)


def main() -> int:
    os.environ["PLAYCHECK"] = str(Path(sys.argv[1]).resolve())
    failed, skipped = 0, []
    is_quick = "--quick" in sys.argv[2:]
    if is_quick:
        fork_commands()
    searches = QUICK if is_quick else SEARCHES
    for search in searches:
        try:
            found: List[str] = list(search())
        except Skipped as reason:
            skipped.append(str(reason))
            continue
        for wrong in found:
            print(f"FAILED: {search.__name__}: {wrong}", flush=True)
        failed += bool(found)
    for reason in skipped:
        print(f"skipped: {reason}")
    told = f" ({len(skipped)} skipped)" if skipped else ""
    print(f"{len(searches) - failed - len(skipped)} passed, {failed} failed{told}")
    return 1 if failed else 0


if __name__ == "__main__":
    sys.exit(main())
