# SPDX-License-Identifier: MIT OR Apache-2.0
# Hostile files: each has to get a named answer, in bounded time and memory: python3 tests/hostile_checks.py [PROGRAM]
#
# Every change of one byte in four files, every beginning of a large book, and the named files of hostile_files.py. A file for
# which the memory is too little, and which is told so by name, has to get its answer with more.
import json
import math
import os
import re
import resource
import subprocess
import sys
from concurrent.futures import ProcessPoolExecutor
from dataclasses import dataclass, field
from itertools import islice
from pathlib import Path

sys.dont_write_bytecode = True

from check import TIMES, Outcome, bytes_of, outcome_of, short
from hostile_files import NO_JSON, accepted, hostile, hostile_files, refused, silent

TESTS = Path(__file__).resolve().parent
PROGRAM = TESTS.parent / "crates/pb_cli/out/pb_cli"

WORKERS = 2
MOST_SECONDS = 3  # of the processor's time, since other work may take its turns
PATIENCE = 12  # seconds after which a run is ended
MOST_MEMORY = 512 * 1024 * 1024  # of address space
AMPLE_MEMORY = 2 * 1024 * 1024 * 1024
WANT_OF_MEMORY = (3, b"", b"playcheck: want of memory\n")
MOST_OUTPUT = 16 * 1024 * 1024
MOST_FAILURES = 20  # of a worker, which then tries no more
SHOWN = 700  # bytes of a file


# What is wanted of a changed file.

# The answers of `check` and their status. Files as a whole, and V11, have line 0; V01 to V04 name a host.
LINE = rb"(0|[1-9]\d{0,3})"
HOST = rb"(?!-\n)[A-Za-z0-9._-]{1,253}"  # none of these files has a host `-`
VERDICTS = [
    (0, rb"accepted budget (0|[1-9]\d*)\n"),
    (1, rb"refused (S0[1-5]|I0[1-5]|P01|V11) line 0 host -\n"),
    (1, rb"refused (P0[2-9]|V0[5-9]|V1[023]) line " + LINE + rb" host -\n"),
    (1, rb"refused V0[1-4] line " + LINE + rb" host " + HOST + rb"\n"),
]

# The first letters of the codes that a change of this file can lead to, where the others are sound.
LETTERS = {"book": "PV", "inventory": "IV", "signatures": "SPV"}


def verdict_on(place):
    """Wants some verdict that such a file can lead to, though not that it is no JSON."""

    def judge(outcome):
        if not any(outcome.status == status and re.fullmatch(said, outcome.stdout) for status, said in VERDICTS):
            return "a verdict with its status"
        code = outcome.stdout.split()[1].decode()
        if outcome.status == 1 and (code == NO_JSON[place] or code[0] not in LETTERS[place]):
            return f"a verdict that the {place} can lead to, and not {NO_JSON[place]}"
        return ""

    return silent(judge)


def is_json(content):
    """Whether the language has it as JSON: half a pair of escapes, and a number past every float, make it none."""
    try:
        value = json.loads(content.decode(), parse_float=finite, parse_constant=finite)
        json.dumps(value, ensure_ascii=False).encode()
        return True
    except ValueError:
        return False


def finite(text):
    if not math.isfinite(float(text)):
        raise ValueError(text)
    return float(text)


# One byte changed.

BOOK = """[{"hosts":"web","name":"\\ud83d\\ude00","vars":{"port":80,"low":-1},"serial":["50%",1],"tasks":[
{"block":[{"command":"ls é","register":"out","when":["port == 80"]},
{"debug":{"msg":"{{ item }} of\\n{{ out.rc }}"},"loop":["a","b"],"when":"out is not skipped"}],
"rescue":[{"probe":{"path":"/x","depth":[2]},"notify":"again","until":true,"retries":5}],
"always":[{"ansible.builtin.ping":null,"ignore_errors":true}]}],
"handlers":[{"name":"again","service":{"name":"web","enabled":true}}]}]"""
INVENTORY = """{"web":{"hosts":["h1","h.2"],"vars":{"port":8080,"rate":1.5e1},"children":["old"]},
"old":["h3"],"spare":{"hosts":[]},"all":{"vars":{"note":"\\u00e9 {{ x }}"},"children":["ungrouped"]},"ungrouped":{},
"_meta":{"hostvars":{"h1":{"deep":[1,-2,{"k":null}],"on":true},"h.2":{"note":"none"},
"h-9":{"rate":0.1}},"other":[]}}"""
SIGNATURES = """[{"name":"probe","params":{"path":{"kind":"text","required":true},
"depth":{"kind":{"list":"int","max":9},"required":false}},"ok":{"changed":{"kind":"bool","always":true},
"at":{"kind":{"rec":{"x":{"kind":"int","always":false}}},"always":true}},
"failure":{"changed":{"kind":"bool","always":true},"msg":{"kind":"text","always":true}}}]"""
WHOLE = {"book": BOOK.encode(), "inventory": INVENTORY.encode(), "signatures": SIGNATURES.encode()}
CALLS_OF_A_HOST = 9  # the command, six attempts of the probe, the ping and the handler
HOSTS = 3

# A book of forms that have been judged from the first on.
PLAIN_BOOK = """[{"hosts":"all","tasks":[
{"command":{"cmd":"ls","creates":"/x"},"register":"out","when":"'h1' in [inventory_hostname]"},
{"set_fact":{"count":7,"deep":{"list":[1,-2],"flag":"{{ out.changed }}"}}},{"debug":{"msg":"{{ out }}"}},
{"name":"é","ping":null,"when":"not (deep.list == [] or count == 8 and deep.flag)"}]}]"""
PLAIN = {"book": PLAIN_BOOK.encode()}
PLAIN_CALLS = 2

# One byte of each sort: signs of JSON, a digit, a letter that numbers and escapes may have, a blank, and others.
REPLACEMENTS = b'"\\{}[]:,7e \x00\x1f\x7f\x80\xff'


def changes():
    yield hostile("the whole files", accepted(CALLS_OF_A_HOST * HOSTS), **WHOLE)
    yield hostile("the plain book", accepted(PLAIN_CALLS), **PLAIN)
    for name, files in [("whole", WHOLE), ("plain", PLAIN)]:
        for place, content in files.items():
            for at, new in byte_changes(content):
                changed = content[:at] + new + content[at + 1 :]
                judge = verdict_on(place) if is_json(changed) else refused(NO_JSON[place])
                yield hostile(f"{name} {place}, {new!r} for byte {at}", judge, **{**files, place: changed})


def byte_changes(content):
    """Each place, and what stands there instead of its byte: nothing, the byte twice, or another one."""
    for at, byte in enumerate(content):
        yield at, b""
        yield at, bytes([byte, byte])
        yield from ((at, bytes([other])) for other in REPLACEMENTS if other != byte)


# Beginnings.


def beginnings():
    """Each proper prefix of the longest book of the cases that is given as a text, and of the whole files above."""
    for place, content in [("book", max(books(), key=len)), *WHOLE.items()]:
        for size in range(len(content)):
            name = f"the first {size} of {len(content)} bytes of a file as {place}"
            yield hostile(name, refused(NO_JSON[place]), **{place: content[:size]})


def books():
    for path in (TESTS / "cases").glob("*.jsonl"):
        for line in path.read_text(encoding="utf-8").splitlines():
            book = json.loads(line)["book"]
            if isinstance(book, str) and book.endswith("]"):
                yield book.encode()


# The runs.


def all_checks():
    yield from hostile_files()
    yield from changes()
    yield from beginnings()


@dataclass
class Found:
    tried: int = 0
    untried: int = 0
    large: int = 0  # that want more than the memory
    failures: list = field(default_factory=list)


def limit_worker():
    """Limits what a worker, and so each program that it runs, may take."""
    resource.setrlimit(resource.RLIMIT_AS, (MOST_MEMORY, AMPLE_MEMORY))
    resource.setrlimit(resource.RLIMIT_FSIZE, (MOST_OUTPUT, MOST_OUTPUT))


def found_by(worker, program):
    """What a worker finds at its share of the checks."""
    found = Found()
    for check in islice(all_checks(), worker, None, WORKERS):
        if len(found.failures) == MOST_FAILURES:
            found.untried += 1
            continue
        found.tried += 1
        outcome, wanted = tried(program, check)
        if wanted and wants_memory(outcome):
            found.large += 1
            outcome, wanted = tried_with_more(program, check)
        if wanted:
            found.failures.append(f"{check.id}\n  wanted: {wanted}\n  got: {outcome}\n  of: {files_of(check)}")
    return found


def wants_memory(outcome):
    return isinstance(outcome, Outcome) and (outcome.status, outcome.stdout, outcome.stderr) == WANT_OF_MEMORY


def tried_with_more(program, check):
    resource.setrlimit(resource.RLIMIT_AS, (AMPLE_MEMORY, AMPLE_MEMORY))
    try:
        return tried(program, check)
    finally:
        resource.setrlimit(resource.RLIMIT_AS, (MOST_MEMORY, AMPLE_MEMORY))


def tried(program, check):
    """What comes of it, and what was wanted instead; tried again where it took long, as others may have slowed it."""
    for _ in range(TIMES):
        try:
            outcome = outcome_of(program, check, PATIENCE)
        except subprocess.TimeoutExpired:
            return "none", f"an answer within {PATIENCE} s"
        except OSError as fault:  # also a program that can't be run
            return repr(fault), "an answer"
        wanted = check.judge(outcome)
        if wanted or outcome.seconds <= MOST_SECONDS:
            return outcome, wanted
    return outcome, f"an answer within {MOST_SECONDS} s of the processor's time"


def files_of(check):
    return ", ".join(f"{name} {short(bytes_of(content), SHOWN)}" for name, content in check.files.items())


def main():
    program = os.path.abspath(sys.argv[1] if len(sys.argv) > 1 else PROGRAM)
    with ProcessPoolExecutor(WORKERS, initializer=limit_worker) as pool:
        found = list(pool.map(found_by, range(WORKERS), [program] * WORKERS))
    failures = [said for share in found for said in share.failures]
    untried = sum(share.untried for share in found)
    for said in failures:
        print(f"FAILED: hostile, {said}")
    if untried:
        print(f"FAILED: hostile, {untried} more aren't tried")
    print(f"told to want more memory, and answered with more: {sum(share.large for share in found)}")
    failed = len(failures) + untried
    print(f"{sum(share.tried for share in found) - len(failures)} passed, {failed} failed")
    return 1 if failed else 0


if __name__ == "__main__":
    sys.exit(main())
