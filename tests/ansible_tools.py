# SPDX-License-Identifier: MIT OR Apache-2.0
# The front end as the tests run it: with no program of ansible-core on the PATH but those that a test puts there.
import os
import shutil
import subprocess
import sys
import tempfile
from pathlib import Path
from typing import Dict, Sequence, Set

from ansible_forks import read_modules, run_forked

TOP = Path(__file__).resolve().parent.parent
TOOL = TOP / "playcheck-ansible"
SECONDS = 30
WAITED = 300  # in seconds, for what may take SECONDS of the processor's time: a machine may have more to do
NEEDED = ("bash", "cat", "dirname", "env", "find", "readlink", "sh", "sleep")
FOLDER = tempfile.TemporaryDirectory(prefix="playcheck-tools-")
FORKED: Set[int] = set()  # of this process; see fork_commands


def fork_commands() -> None:
    """From now on each command is run in a fork of this process."""
    read_modules()
    FORKED.add(os.getpid())


def is_forked() -> bool:
    return bool(FORKED)


def make_tools() -> str:
    """A folder with the few programs that the front end and the tests' own programs need."""
    for name in NEEDED:
        found = shutil.which(name)
        if found and not os.path.exists(os.path.join(FOLDER.name, name)):
            os.symlink(found, os.path.join(FOLDER.name, name))
    python = Path(FOLDER.name, "python3")
    python.write_text(f'#!/bin/sh\nexec "{sys.executable}" "$@"\n')
    python.chmod(0o755)
    return FOLDER.name


def run_tool(words: Sequence[str], folder: "str | Path",
             program_folder: "str | Path | None" = None, given: Dict[str, str] = {}) -> "subprocess.CompletedProcess[str]":
    """Runs the front end in a folder, with variables that are given; a further one has programs of ansible-core."""
    path = os.pathsep.join(str(one) for one in (program_folder, make_tools()) if one)
    if is_forked():
        return run_forked(words, folder, {"PATH": path, **given})
    return subprocess.run([TOOL, *words], cwd=folder, capture_output=True, text=True, check=False, timeout=WAITED,
                          stdin=subprocess.DEVNULL, env={**os.environ, "PATH": path, **given})
