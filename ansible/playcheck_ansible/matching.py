# SPDX-License-Identifier: MIT OR Apache-2.0
# Matches names by regular expressions in a process of its own with a second for it: Python's matcher may never end.
from __future__ import annotations

import json
import subprocess
import sys
from functools import lru_cache
from typing import List, Optional, Tuple

from .limits import ALLOWANCE
from .problems import Problem

SECONDS = 1  # of the processor's time
WAITED = 60
MATCHER = f"""
import json, re, resource, sys
resource.setrlimit(resource.RLIMIT_CPU, ({SECONDS}, {SECONDS + 1}))
pattern, names = json.load(sys.stdin)
try:
    match = re.compile(pattern).match
    print(json.dumps([name for name in names if match(name)]))
except Exception:
    print("null")
"""


class SlowPattern(Exception):
    """A regular expression takes longer than it may."""

    def __str__(self) -> str:
        return f"a regular expression in the play's `hosts` takes more than {SECONDS} second of the processor's time"


@lru_cache(256)
def matching(pattern: str, names: Tuple[str, ...]) -> Optional[List[str]]:
    """The names that begin with what a regular expression matches, or None where it is none."""
    ALLOWANCE.ask()
    try:
        done = subprocess.run([sys.executable, "-I", "-S", "-c", MATCHER], input=json.dumps([pattern, names]),
                              capture_output=True, text=True, check=False, timeout=WAITED)
    except subprocess.TimeoutExpired:
        raise SlowPattern from None
    except OSError as error:
        raise Problem(None, f"{sys.executable} can't be run: {error.strerror}") from None
    if done.returncode:
        raise SlowPattern
    found: Optional[List[str]] = json.loads(done.stdout)
    return found
