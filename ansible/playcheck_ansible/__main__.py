# SPDX-License-Identifier: MIT OR Apache-2.0
# The command playcheck-ansible, as a clone and a package start it, and python3 -m playcheck_ansible.
import gc
import sys


def run() -> int:
    gc.set_threshold(100_000)  # a run is short, and needs nearly all that it makes to its end
    try:
        import yaml  # noqa: F401
    except ImportError:
        sys.stderr.write("playcheck-ansible: PyYAML isn't installed (Debian's package is python3-yaml)\n")
        return 64
    from .command import run as run_command

    return run_command(sys.argv[1:])


if __name__ == "__main__":
    sys.exit(run())
