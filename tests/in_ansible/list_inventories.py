# SPDX-License-Identifier: GPL-3.0-or-later
# Runs `ansible-inventory --list --export` on many files in one process: a line of JSON for each, null where refused.
import json
import os
import sys
import tempfile

from ansible.cli.inventory import InventoryCLI


def listed(path: str) -> object:
    """What the command prints of a file, in a process of its own that has all of ansible-core loaded."""
    with tempfile.TemporaryFile("w+") as said:
        child = os.fork()
        if child == 0:
            os.dup2(said.fileno(), 1)
            os.dup2(os.open(os.devnull, os.O_WRONLY), 2)
            status = 1
            try:
                InventoryCLI.cli_executor(["ansible-inventory", "-i", path, "--list", "--export"])
            except SystemExit as end:
                status = end.code if isinstance(end.code, int) else 1
            finally:
                sys.stdout.flush()
                os._exit(status)
        status = os.waitpid(child, 0)[1]
        said.seek(0)
        return json.load(said) if status == 0 else None


for one in sys.argv[1:]:
    print(json.dumps(listed(one)), flush=True)
