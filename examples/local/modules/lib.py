# SPDX-License-Identifier: MIT OR Apache-2.0
# What the modules of this folder do with JSON: python3 -IS lib.py COMMAND ..
#   read MODULE: prints the arguments for `eval` in a shell, or what tells a failure and ends it
#   run FOLDER: runs a program there, and prints the answer of `command` and `shell`
#   say: prints that answer for a program that wasn't run
# The arguments as JSON, the program's words with a NUL behind each, and the text that is said come on standard input,
# since everybody on this machine can see the words of a command line.
import json
import os
import re
import shlex
import subprocess
import sys
import threading

MOST_LINES = 65536
MOST_BYTES = 1048576  # of arguments, of an answer, and of what a program writes
MOST_PATH = 4095  # bytes of a path, by Linux
NOT_STARTED = 256  # no program ends with it

PLAIN, PATH, MODE, TEXTS = "a text", "a path", "an octal mode", "a list of texts"
OF_PROGRAM = {"cmd": PLAIN, "chdir": PATH, "creates": PATH, "removes": PATH}
PARAMETERS = {
    "ping": {"data": PLAIN},
    "command": OF_PROGRAM,
    "shell": OF_PROGRAM,
    "stat": {"path": PATH},
    "copy": {"dest": PATH, "src": PATH, "content": PLAIN, "mode": MODE},
    "file": {"path": PATH, "state": PLAIN, "mode": MODE, "owner": PLAIN, "group": PLAIN},
    "setup": {"gather_subset": TEXTS},
}
REQUIRED = {"command": "cmd", "shell": "cmd", "stat": "path", "copy": "dest", "file": "path"}


class Fault(Exception):
    """Why a module fails before it does anything."""


# The arguments.


def arguments_of(module, text):
    if len(text) > MOST_BYTES:
        raise Fault("the arguments are too long")
    try:
        given = json.loads(text.decode())
    except (ValueError, RecursionError):
        raise Fault("the arguments can't be read") from None
    given = {} if given is None else given
    if not isinstance(given, dict):
        raise Fault("the arguments are no object")
    for name, value in given.items():
        check(PARAMETERS[module].get(name), name, value)
    wanted = REQUIRED.get(module)
    if wanted and wanted not in given:
        raise Fault(f"{wanted} is missing")
    return given


def check(kind, name, value):
    if kind is None:
        raise Fault(f"{name if is_text(name) else 'an argument'} is no argument of this module")
    is_kind = is_list(value) if kind == TEXTS else is_text(value)
    if not is_kind or (kind == MODE and not re.fullmatch("[0-7]{3,4}", value)):
        raise Fault(f"{name} is not {kind}")


def is_text(value):
    """Whether a shell can hold it: no NUL, no half of a pair."""
    return isinstance(value, str) and not re.search("[\0\ud800-\udfff]", value)


def is_list(value):
    return isinstance(value, list) and all(is_text(item) for item in value)


# Places.


def root():
    named = os.environ.get("PLAYCHECK_ROOT", "")
    if not os.path.isabs(named) or not os.path.isdir(named):
        raise Fault("PLAYCHECK_ROOT is no folder's whole path")
    return os.path.realpath(named)


def places(top, path):
    """Where a path leads below that folder, with all links followed, and with all but the last."""
    if len(path.encode()) > MOST_PATH:
        raise Fault(f"a path is longer than {MOST_PATH} bytes")
    folder, name = os.path.split(path.strip("/"))
    above = os.path.realpath(os.path.join(top, folder))
    followed = os.path.realpath(os.path.join(above, name))
    kept = followed if name in ("", ".", "..") else os.path.join(above, name)
    if not is_inside(top, followed) or not is_inside(top, kept):
        raise Fault(f"it leads out of the folder: {path}")
    return followed, kept


def is_inside(top, place):
    return place == top or place.startswith(top.rstrip("/") + "/")


# What a shell is told.


def assignments(module, given):
    top = root() if PATH in PARAMETERS[module].values() else ""
    yield f"root={shlex.quote(top)}"
    for name, kind in PARAMETERS[module].items():
        # Also of the environment, where no argument is to stand either.
        yield f"unset {name} {name}_json {name}_at {name}_link"
        if name not in given or kind == TEXTS:
            continue
        text = given[name].zfill(4) if kind == MODE else given[name]
        yield f"{name}={shlex.quote(text)} {name}_json={shlex.quote(inner_json(text))}"
        if kind == PATH:
            followed, kept = places(top, text)
            yield f"{name}_at={shlex.quote(followed)} {name}_link={shlex.quote(kept)}"
    if module in PROGRAMS:
        yield f"set -- {shlex.join(PROGRAMS[module](given['cmd']))}"


def inner_json(text):
    """The text as it stands between the quotes of JSON."""
    return json.dumps(text, ensure_ascii=False)[1:-1]


def words_of(line):
    try:
        words = shlex.split(line)
    except ValueError:
        raise Fault("cmd has a quote that isn't closed") from None
    if not words:
        raise Fault("cmd names no program")
    return words


# The words of the program that each runs.
PROGRAMS = {"command": words_of, "shell": lambda line: ["/bin/sh", "-c", line]}


def read(module, text):
    try:
        return "\n".join(assignments(module, arguments_of(module, text)))
    except Fault as fault:
        answer = not_started(str(fault)) if module in PROGRAMS else failure(str(fault))
        return f"printf '%s\\n' {shlex.quote(json_of(answer))}; exit"


# Answers.


def json_of(answer):
    return json.dumps(answer, ensure_ascii=False)


def failure(message):
    return {"changed": False, "failed": True, "msg": message}


def program_answer(changed, rc, stdout="", stderr=""):
    """The fields of `command` and `shell`, without the ends of line behind each output."""
    out, err = stdout.rstrip("\r\n"), stderr.rstrip("\r\n")
    lines = {"stdout_lines": out.splitlines(), "stderr_lines": err.splitlines()}
    return {"changed": changed, "rc": rc, "stdout": out, "stderr": err, **lines}


def not_started(message):
    return {**program_answer(False, NOT_STARTED), "failed": True, "msg": message}


def ended(rc, stdout, stderr):
    """The answer of a program that ran: what it wrote, where that fits into an answer."""
    answer = program_answer(True, rc, stdout.decode(errors="replace"), stderr.decode(errors="replace"))
    if rc != 0:
        answer.update(failed=True, msg="non-zero return code")
    if max(len(stdout), len(stderr)) > MOST_BYTES or not fits(answer):
        return {**program_answer(True, rc), "failed": True, "msg": "it wrote too much"}
    return answer


def fits(answer):
    lines = max(len(answer["stdout_lines"]), len(answer["stderr_lines"]))
    return lines <= MOST_LINES and len(json_of(answer).encode()) < MOST_BYTES


def run(folder, words):
    if not os.path.isdir(folder):
        return not_started("chdir is no folder")
    pipe = subprocess.PIPE
    try:
        child = subprocess.Popen(words, cwd=folder, stdin=subprocess.DEVNULL, stdout=pipe, stderr=pipe)
    except OSError as fault:
        return not_started(f"{words[0].decode()} can't be started: {fault.strerror}")
    return ended(*outputs_of(child))


def outputs_of(child):
    """The status and both outputs, of too long a one its beginning: a pipe that is closed ends who writes on."""
    written = {}

    def take(name):
        with getattr(child, name) as pipe:
            written[name] = pipe.read(MOST_BYTES + 1)

    with child:
        beside = threading.Thread(target=take, args=("stderr",))
        beside.start()
        take("stdout")
        beside.join()
    return child.returncode, written["stdout"], written["stderr"]


def main():
    command, *words = sys.argv[1:]
    given = sys.stdin.buffer.read(MOST_BYTES + 1 if command == "read" else -1)
    if command == "read":
        said = read(*words, given)
    elif command == "run":
        said = json_of(run(*words, given.split(b"\0")[:-1]))
    else:
        said = json_of(program_answer(False, 0, given.decode()))
    sys.stdout.buffer.write(said.encode() + b"\n")


if __name__ == "__main__":
    main()
