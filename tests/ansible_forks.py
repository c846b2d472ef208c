# SPDX-License-Identifier: MIT OR Apache-2.0
# Runs commands of the front end in forks of one process that has read all its modules: many small ones cost little so.
import gc
import importlib
import os
import subprocess
import sys
import tempfile
import traceback
from pathlib import Path
from typing import Dict, Sequence

TOP = Path(__file__).resolve().parent.parent
FRONT_END = TOP / "ansible" / "playcheck_ansible"
SECONDS = 20  # of the processor's time, of one command


def read_modules() -> None:
    """Reads all modules of the front end; a fork then has them."""
    sys.dont_write_bytecode = True
    sys.path.insert(0, str(FRONT_END.parent))
    for path in sorted(FRONT_END.glob("[a-z]*.py")):
        importlib.import_module(f"playcheck_ansible.{path.stem}")
    gc.freeze()


def run_forked(words: Sequence[str], folder: "str | Path", given: Dict[str, str]) -> "subprocess.CompletedProcess[str]":
    """What a command comes to in a folder, with these variables of the environment."""
    with tempfile.TemporaryFile() as said, tempfile.TemporaryFile() as told:
        sys.stdout.flush()
        child = os.fork()
        if child == 0:
            try:
                for number, file in enumerate((os.open(os.devnull, os.O_RDONLY), said.fileno(), told.fileno())):
                    os.dup2(file, number)
                os._exit(status_of(words, folder, given))
            finally:
                os._exit(1)
        status = os.waitstatus_to_exitcode(os.waitpid(child, 0)[1])
        texts = []
        for file in (said, told):
            file.seek(0)
            texts.append(file.read().decode(errors="replace"))
    return subprocess.CompletedProcess([*words], status, *texts)


def status_of(words: Sequence[str], folder: "str | Path", given: Dict[str, str]) -> int:
    """Runs the command in this process, as its script does."""
    from playcheck_ansible import limits
    from playcheck_ansible.command import run

    limits.SECONDS = SECONDS
    os.chdir(folder)
    os.environ.update(given)
    sys.argv = ["playcheck-ansible", *words]
    sys.stdout, sys.stderr = open(1, "w", encoding="utf-8"), open(2, "w", encoding="utf-8", errors="backslashreplace")
    try:
        status = run([*words])
    except SystemExit as end:
        status = end.code if isinstance(end.code, int) else 1
    except BaseException:
        traceback.print_exc()
        status = 1
    sys.stdout.flush()
    sys.stderr.flush()
    return status if isinstance(status, int) else 0 if status is None else 1
