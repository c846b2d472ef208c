# SPDX-License-Identifier: MIT OR Apache-2.0
# Small files and odd ones that would take long, much, or what isn't theirs: each comes to an end, with its own words.
import os
import subprocess
import sys
import tempfile
import time
from pathlib import Path
from typing import Dict, Iterator, List, Tuple

from ansible_tools import TOOL, TOP, WAITED
from check import Check, Outcome, outcome_of
from stranger_ways import HOSTS, NOTHING_JUDGED

MOST = 5  # seconds of the processor's time that a small file may take
PLAY = "- hosts: all\n  gather_facts: false\n"
PING = "  tasks: [{ping: }]\n"
LAYERS = 40


def message(expression: str) -> str:
    return PLAY + f'  tasks:\n    - debug: {{msg: "{expression}"}}\n'


def layered_groups() -> str:
    """Groups that each name both groups of the next layer: as many ways lead down as two to the power of the layers."""
    lines = ["[a0]\nweb1\n"]
    for layer in range(LAYERS):
        for letter in "ab":
            lines.append(f"[{letter}{layer}:children]\na{layer + 1}\nb{layer + 1}\n[{letter}{layer + 1}]\n")
    return "".join(lines)


def slow_files() -> Iterator[Tuple[str, Dict[str, str], List[str], str, int]]:
    """Files that took long, their words, and what is said of them with which status."""
    slow = "not judged: a regular expression in the play's `hosts` takes more than 1 second of the processor's time"
    repeated = '- hosts: "~(w+e*b*)*1*x$"\n' + PING
    yield "a regular expression", {"site.yml": repeated}, ["-i", "w" * 30 + ","], slow, NOTHING_JUDGED
    fitting = '- hosts: "~w.b[0-9]$"\n' + PING
    yield "a pattern that fits", {"site.yml": fitting}, ["-i", "web1,"], "1 of 1 tasks judged", 0
    yield "no regular expression", {"site.yml": '- hosts: "~(("\n' + PING}, ["-i", "web1,"], "V06 play", 1
    yield "brackets", {"site.yml": f'- hosts: "{"[" * 20_000}"\n{PING}'}, [], "V06 play", 1
    yield "stars", {"site.yml": f'- hosts: "{"*w" * 16}x"\n{PING}'}, ["-i", "w" * 60 + ","], "0 of 1 tasks judged", NOTHING_JUDGED
    number = "1" + ":1" * 200_000
    yield "base 60", {"site.yml": PLAY + f"  vars: {{a: {number}}}\n" + PING}, [], "is no int", 64
    many = "".join(f"    n{index}: {'1' + ':1' * 2000}\n" for index in range(200))
    yield "many numbers to the base 60", {"site.yml": PLAY + "  vars:\n" + many + PING}, [], "tasks judged", 0
    for text in ("'\\\\" * 60_000, "'\\\\\\\"\\\\" * 40_000):
        yield "open quotes", {"site.yml": message("{{ a == " + text + " }}")}, [], "0 of 1 tasks judged", NOTHING_JUDGED
    undefined = "".join(f'    - debug: {{msg: "{{{{ nope{index} }}}}"}}\n' for index in range(800))
    told = "not asked: the program is asked for 50 refusals at most, and there may be more"
    yield "many refusals", {"site.yml": PLAY + "  tasks:\n" + undefined}, ["--all"], told, 1
    yield "layers of groups", {"site.yml": '- hosts: "a0:!b9"\n' + PING, "hosts.ini": layered_groups()}, \
        ["-i", "hosts.ini"], "1 of 1 tasks judged", 0


def wrong_slow_files() -> Iterator[str]:
    for name, files, words, told, status in slow_files():
        words = words if "-i" in words else [*words, "-i", "hosts.yml"]
        outcome = outcome_of(TOOL, Check(name, ["check", "site.yml", *words], None, {**HOSTS, **files}), WAITED)
        said = (outcome.stdout + outcome.stderr).decode()
        if told not in said or outcome.status != status or outcome.seconds > MOST:
            yield f"{name}: wanted {told!r} and status {status}, found {short(outcome)}"


def short(outcome: Outcome) -> str:
    return f"{str(outcome)[:600]}"


def run_python(text: str, folder: str, *words: str) -> "subprocess.CompletedProcess[str]":
    """Runs the front end in a folder, with something in it changed first."""
    script = (f"import sys; sys.path.insert(0, {str(TOP / 'ansible')!r})\n"
              f"from playcheck_ansible import command, limits, processes\n{text}\nsys.exit(command.run(sys.argv[1:]))")
    return subprocess.run([sys.executable, "-c", script, *words], cwd=folder, capture_output=True, text=True,
                          check=False, timeout=WAITED, stdin=subprocess.DEVNULL)


def wrong_limits() -> Iterator[str]:
    """The limits of a whole check and a fault of the front end itself: a status of their own, and one line."""
    near = "".join(f"    abcdefghij{index}: 1\n" for index in range(4000))
    reads = "".join(f'    - debug: {{msg: "{{{{ abcdefghik{index} }}}}"}}\n' for index in range(200))
    long = f"{PLAY}  vars:\n{near}  tasks:\n{reads}"
    large = PLAY + "  tasks:\n" + "    - ping:\n" * 130_000
    time_told = "site.yml: a check may take 60 seconds of the processor's time, and this one takes more"
    memory_told = "site.yml: a check may take 1 GB of memory, and this one wants more"
    endless = "#!/bin/sh\nwhile :; do :; done\n"
    fault = "internal error: ZeroDivisionError: integer division or modulo by zero (<string>:3)"
    slow_program = "limits.SECONDS = 1; import os; os.environ['PLAYCHECK'] = './x'"
    stops = "def stop(words): raise KeyboardInterrupt\ncommand.COMMANDS['check'] = stop"
    cases = [("time", long, "limits.SECONDS = 1", time_told, 3),
             ("memory", large, "limits.BYTES = 150_000_000", memory_told, 3),
             ("time of the program", PLAY + PING, slow_program, time_told, 3),
             ("a fault", PLAY, "command.COMMANDS['check'] = lambda words: 1 // 0", fault, 70),
             ("an interruption", PLAY, stops, "", 130)]
    for name, book, change, told, status in cases:
        with tempfile.TemporaryDirectory() as folder:
            for file, text in {**HOSTS, "site.yml": book, "x": endless}.items():
                Path(folder, file).write_text(text)
            Path(folder, "x").chmod(0o755)
            done = run_python(change, folder, "check", "--all", "site.yml", "-i", "hosts.yml")
        wanted = f"playcheck-ansible: {told}\n" if told else ""
        if done.returncode != status or not done.stderr.endswith(wanted) or done.stderr.count("\n") > 1:
            yield f"{name}: wanted {told!r} and status {status}, found {done.returncode}, {done.stderr[-600:]}"


def wrong_kinds_of_files() -> Iterator[str]:
    """What is no file isn't waited for, and is told; a pipe that the caller has opened is read."""
    no_file = "this is a pipe or a device, and no file"
    files = PLAY + "  vars_files: [#]\n" + PING
    cases = [("ff", "-i hosts.yml", "", f"ff: {no_file}"), ("site.yml", "-i ff", "", f"ff: {no_file}"),
             ("site.yml", "-i hosts.yml -e @ff", "", f"ff: {no_file}"),
             ("site.yml", "-i /dev/zero", "", "/dev/zero: " + no_file),
             ("site.yml", "-i hosts.yml -s ff", "", f"ff: {no_file}"), (".", "-i hosts.yml", "", "1 of 1 tasks judged"),
             ("site.yml", "-i hosts.yml", files.replace("#", "ff"), "a file of variables isn't there"),
             ("site.yml", "-i hosts.yml", files.replace("#", "/dev/zero"), "tasks judged"),
             ("site.yml", "-i hosts.yml", PLAY + "  tasks: [{import_tasks: ff}]\n", "ff isn't there"),
             ("site.yml", "-i hosts.yml", PLAY + "- import_playbook: ff\n", f"ff: {no_file}"),
             ("site.yml", "-i <(printf 'web1\\n')", "", "1 of 1 tasks judged")]
    for book, words, text, told in cases:
        with tempfile.TemporaryDirectory() as folder:
            os.mkfifo(Path(folder, "ff"))
            os.symlink("ff", Path(folder, "linked.yml"))
            Path(folder, "hosts.yml").write_text(HOSTS["hosts.yml"])
            Path(folder, "site.yml").write_text(text or PLAY + PING)
            done = subprocess.run(["bash", "-c", f"exec {TOOL} check {book} {words}"], cwd=folder, capture_output=True,
                                  text=True, check=False, timeout=WAITED, stdin=subprocess.DEVNULL)
        if told not in done.stdout + done.stderr or "Traceback" in done.stderr:
            yield f"{book} {words} {text!r}: wanted {told!r}, found {done}"


def wrong_outputs() -> Iterator[str]:
    """Programs that print without an end, outputs that can't be written, and links in the place of what is written."""
    sys.path.insert(0, str(TOP / "ansible"))
    from playcheck_ansible.problems import Problem
    from playcheck_ansible.processes import run_within

    start = time.monotonic()
    try:
        run_within(["yes"], WAITED)
        yield "a program without an end: no problem is told"
    except Problem as problem:
        if str(problem) != "yes printed more than 67,108,864 bytes" or time.monotonic() - start > WAITED:
            yield f"a program without an end: {problem}"
    with tempfile.TemporaryDirectory() as folder:
        for name, text in {**HOSTS, "site.yml": PLAY + PING, "kept": "kept"}.items():
            Path(folder, name).write_text(text)
        Path(folder, "out").mkdir()
        os.symlink("../kept", Path(folder, "out", "book.json"))
        done = subprocess.run([TOOL, "convert", "site.yml", "-i", "hosts.yml", "-o", "out"], cwd=folder, check=False,
                              capture_output=True, text=True, timeout=WAITED)
        written = Path(folder, "out", "book.json")
        if done.returncode or Path(folder, "kept").read_text() != "kept" or written.is_symlink():
            yield f"a link in the place of book.json: {done}"
        if sorted(os.listdir(Path(folder, "out"))) != ["book.json", "inventory.json", "lines.json", "signatures.json"]:
            yield f"what convert leaves: {os.listdir(Path(folder, 'out'))}"
        for where, told in ((">/dev/full", "No space left on device"), (">&-", "Bad file descriptor")):
            words = f"exec {TOOL} check site.yml -i hosts.yml {where}"
            done = subprocess.run(["bash", "-c", words], cwd=folder, capture_output=True, text=True, check=False,
                                  timeout=WAITED)
            wanted = f"playcheck-ansible: the output can't be written: {told}\n"
            if (done.returncode, done.stderr) != (64, wanted):
                yield f"{where}: {done}"
