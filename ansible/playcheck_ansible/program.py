# SPDX-License-Identifier: MIT OR Apache-2.0
# Calls the ready program with a book, an inventory and signatures, and reads its answer.
from __future__ import annotations

import json
import os
import re
import signal
import subprocess
from dataclasses import dataclass

from .limits import ALLOWANCE, OutOfTime
from .places import program
from .problems import Problem
from .processes import without_relative

REFUSED = re.compile(r"refused ([A-Z]\d\d) line (\d+) host (\S+)\n")
ACCEPTED = re.compile(r"accepted budget (\d+)\n")
NO_MEMORY = 3


@dataclass
class Answer:
    code: str = ""  # empty where the book is accepted
    line: int = 0
    host: str = ""
    budget: int = 0


class Asker:
    """Asks the program about books, with one inventory and one file of signatures, which are files in memory alone."""

    def __init__(self, inventory: object, signatures: object) -> None:
        self.files = [file_in_memory("inventory", inventory), file_in_memory("signatures", signatures)]

    def __enter__(self) -> Asker:
        return self

    def __exit__(self, *_: object) -> None:
        for file in self.files:
            os.close(file)

    def ask(self, book: object) -> Answer:
        inventory, signatures = (f"/proc/self/fd/{file}" for file in self.files)
        words = [program(), "check", "-", "-i", inventory, "-s", signatures]
        ALLOWANCE.ask()
        try:
            done = subprocess.run(words, input=json.dumps(book), capture_output=True, text=True, check=False,
                                  pass_fds=self.files, env=without_relative(os.environ))
        except OSError as error:
            raise Problem(None, f"{words[0]} can't be run: {error.strerror}") from None
        return answer_of(done, words[0])


def file_in_memory(name: str, value: object) -> int:
    number = os.memfd_create(name)
    with open(number, "w", encoding="utf-8", closefd=False) as file:
        file.write(json.dumps(value))
    return number


def answer_of(done: subprocess.CompletedProcess[str], name: str) -> Answer:
    refused, accepted = REFUSED.fullmatch(done.stdout), ACCEPTED.fullmatch(done.stdout)
    if done.returncode == 0 and accepted:
        return Answer(budget=int(accepted[1]))
    if done.returncode == 1 and refused:
        return Answer(refused[1], int(refused[2]), refused[3])
    if done.returncode == -signal.SIGXCPU:
        raise OutOfTime
    told = done.stderr.strip() or done.stdout.strip()[:200] or "it printed nothing"
    status = done.returncode if done.returncode in (NO_MEMORY, 64) else 64
    raise Problem(None, f"{name} ended with status {done.returncode}: {told}", status)
