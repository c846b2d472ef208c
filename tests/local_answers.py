# SPDX-License-Identifier: MIT OR Apache-2.0
# What the modules of examples/local answer, as docs/LANGUAGE.md has their results and examples/local/README.md their
# failures.
from typing import Any, Dict, Sequence

Answer = Dict[str, Any]


def failed(message: str, changed: bool = False) -> Answer:
    return {"changed": changed, "failed": True, "msg": message}


def ran(stdout: Sequence[str] = (), stderr: Sequence[str] = (), changed: bool = True, rc: int = 0) -> Answer:
    """The answer of a program that wrote these lines."""
    return {
        "changed": changed,
        "rc": rc,
        "stdout": "\n".join(stdout),
        "stderr": "\n".join(stderr),
        "stdout_lines": list(stdout),
        "stderr_lines": list(stderr),
    }


def ended(rc: int, stdout: Sequence[str] = (), stderr: Sequence[str] = ()) -> Answer:
    return {**ran(stdout, stderr, rc=rc), "failed": True, "msg": "non-zero return code"}


def not_started(message: str) -> Answer:
    return {**ran(changed=False, rc=256), "failed": True, "msg": message}


def wrote_too_much() -> Answer:
    return {**ran(), "failed": True, "msg": "it wrote too much"}


def stands(isdir: bool, isreg: bool, size: int, mode: str) -> Answer:
    return {"changed": False, "stat": {"exists": True, "isdir": isdir, "isreg": isreg, "size": size, "mode": mode}}


def copied(dest: str, changed: bool) -> Answer:
    return {"changed": changed, "dest": dest}


def filed(path: str, state: str, changed: bool) -> Answer:
    return {"changed": changed, "path": path, "state": state}


def leads_out(path: str) -> str:
    return f"it leads out of the folder: {path}"


MISSING: Answer = {"changed": False, "stat": {"exists": False}}
PONG: Answer = {"changed": False, "ping": "pong"}
NO_JSON = "the arguments can't be read"
TOO_LONG = "the arguments are too long"
TOO_LONG_A_PATH = "a path is longer than 4095 bytes"
LONGEST_WORD = 131071  # bytes of a word with which Linux starts a program
NO_ROOT = "PLAYCHECK_ROOT is no folder's whole path"
ONE_SOURCE = "one of src and content is wanted, and not both"
NO_MODE = "mode is not an octal mode"
NO_STATE = "state is neither absent, directory, file nor touch"
ODD = "it's \"odd\" \\ $HOME `x`\n\tö\n"
