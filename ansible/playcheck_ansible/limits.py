# SPDX-License-Identifier: MIT OR Apache-2.0
# What the check of a book may take of the processor's time and of memory: past that it ends, and says so.
import math
import resource
import signal

SECONDS = 60
BYTES = 1_073_741_824
TIME = f"a check may take {SECONDS} seconds of the processor's time, and this one takes more"
MEMORY = f"a check may take {BYTES // 2**30} GB of memory, and this one wants more"


class OutOfTime(BaseException):
    """The time is used up; no `except Exception` takes it for something else."""


class Allowance:
    """The time of a check: that of this process, and of the programs that it has called."""

    def __init__(self) -> None:
        self.is_set = False
        self.start = 0.0

    def set(self) -> None:
        """Sets the limits of this process, which the programs that it calls have too."""
        self.is_set = True
        signal.signal(signal.SIGXCPU, end)
        self.begin()

    def begin(self) -> None:
        """From now on the time counts, as at the start of each book."""
        if self.is_set:
            self.start = used()
            lower(resource.RLIMIT_AS, BYTES)
            lower(resource.RLIMIT_CPU, math.ceil(used(resource.RUSAGE_SELF)) + SECONDS)

    def ask(self) -> None:
        """Ends the check where the time is used up; asked before each program is called."""
        if self.is_set and used() - self.start > SECONDS:
            raise OutOfTime


ALLOWANCE = Allowance()
CALLERS = {kind: resource.getrlimit(kind) for kind in (resource.RLIMIT_AS, resource.RLIMIT_CPU)}


def lower(kind: int, most: int) -> None:
    """Sets a limit, but no higher one than whoever started this process has set."""
    given = [limit for limit in CALLERS[kind] if limit != resource.RLIM_INFINITY]
    resource.setrlimit(kind, (min([most, *given]), CALLERS[kind][1]))


def used(*kinds: int) -> float:
    """The seconds of the processor's time that this process and its children have used."""
    found = (resource.getrusage(kind) for kind in kinds or (resource.RUSAGE_SELF, resource.RUSAGE_CHILDREN))
    return sum(one.ru_utime + one.ru_stime for one in found)


def end(number: int, frame: object) -> None:
    raise OutOfTime


def reason_of(error: BaseException) -> str:
    """Why a check ended; to say that there is no more memory takes some, which the limit leaves no room for."""
    if isinstance(error, OutOfTime):
        return TIME
    resource.setrlimit(resource.RLIMIT_AS, CALLERS[resource.RLIMIT_AS])
    return MEMORY
