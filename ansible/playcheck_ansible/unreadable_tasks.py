# SPDX-License-Identifier: MIT OR Apache-2.0
# Finds the tasks that the program can't read, asked in small books: whether it reads a task rests on the task's line alone.
from __future__ import annotations

from itertools import groupby
from typing import Callable, List, Optional, Tuple

from .books import Play, Task
from .lines import Line, Numbered
from .program import Answer

PART = 32  # tasks that are asked at once


# What the program says of some tasks of a play alone, with the lines that it was given; and whether a refusal on one of
# them leaves its task.
AsksPart = Callable[[Play, List[Task]], Tuple[Numbered, Answer]]
IsLeft = Callable[[Answer, Optional[Line]], bool]


def leave_unreadable(lines: List[Optional[Line]], ask: AsksPart, is_left: IsLeft) -> None:
    """Leaves the tasks on these lines that have a form outside the profile, up to one that is refused as a mistake."""
    found = {id(line.step): (line.play, line.step) for line in lines
             if line is not None and line.play is not None and isinstance(line.step, Task)}
    for _, group in groupby(found.values(), key=lambda pair: id(pair[0])):
        of_play = list(group)
        for start in range(0, len(of_play), PART):
            if not leave_in(of_play[0][0], [task for _, task in of_play[start:start + PART]], ask, is_left):
                return


def leave_in(play: Play, tasks: List[Task], ask: AsksPart, is_left: IsLeft) -> bool:
    """The same of a few tasks of a play, whether there is no mistake: from a refused one on they are asked again."""
    while True:
        numbered, answer = ask(play, tasks)
        line = numbered.line(answer.line)
        if not answer.code.startswith("P"):
            return True
        if line is None or not isinstance(line.step, Task) or not is_left(answer, line):
            return False
        tasks = tasks[next(index for index, task in enumerate(tasks) if task is line.step):]
