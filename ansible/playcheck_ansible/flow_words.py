# SPDX-License-Identifier: MIT OR Apache-2.0
# The passes over words of a task that change its flow, and over those that change neither flow nor variables.
from __future__ import annotations

from typing import TYPE_CHECKING, Callable, Dict

from .kinds import evaluated_word, wrong_word
from .nodes import Scalar, as_node, as_value, is_literal
from .values import as_int

if TYPE_CHECKING:
    from .books import Task

# Words that change neither the flow nor the variables.
PASSED = ("tags", "become", "become_exe", "become_flags", "become_method", "become_user", "environment", "no_log",
          "connection", "collections", "delegate_to", "throttle", "timeout", "delay", "diff", "debugger", "port",
          "remote_user")
# Words that change the flow, unless they are false.
FLOW = ("run_once", "any_errors_fatal", "ignore_unreachable", "delegate_facts", "check_mode", "async", "poll",
        "module_defaults", "max_fail_percentage")


def flow_words(task: Task) -> None:
    """Words that change the flow, which the profile lacks: with them a task isn't judged."""
    for key in FLOW:
        node = task.words.get(key)
        if node is None:
            continue
        is_off = isinstance(node, Scalar) and node.value in (False, None)
        if is_off and key != "poll" or key in ONLY_BY_RESULT and not ONLY_BY_RESULT[key](task):
            pass_over(task, key)
        else:
            task.leave(f"`{key}` changes the flow", node.place)
            return


def checks_alone(task: Task) -> bool:
    """In the check mode a module may be skipped, which its register would say."""
    return "register" in task.words


def runs_for_all(task: Task) -> bool:
    """Of a task that is run for one host, the others get the result: it hangs on that host's condition and values.

    Where that host is unreachable the others get a result without fields, and read it where the play goes on. In no
    order each host runs the task, and each result is that of all. A template in the place of the truth value is
    evaluated before the task's condition.
    """
    loops = any(key == "loop" or key.startswith("with_") for key in task.words.pairs)
    facts = task.words.get("set_fact")
    judging = task.judging
    hangs = judging.is_below_condition or "when" in task.words or loops or judging.is_outlived or judging.is_free
    return ("register" in task.words and hangs
            or facts is not None and not is_literal(facts) or not is_literal(task.words["run_once"]))


def is_left_running(task: Task) -> bool:
    """A task that isn't waited for registers the number of its job; a template may say so."""
    poll = as_value(as_int(task.words.get("poll") or as_node(None, task.place)))
    is_waited_for = poll is None or isinstance(poll, int) and poll > 0
    return "register" in task.words and not is_waited_for


def is_never(task: Task) -> bool:
    return False


ONLY_BY_RESULT: Dict[str, Callable[[Task], bool]] = {
    "check_mode": checks_alone, "run_once": runs_for_all, "async": is_left_running, "poll": is_never}


def pass_over(task: Task, key: str) -> None:
    """Takes a word away, whose templates and kind are asked; those of a handler can't be."""
    node = task.words.pairs.pop(key)
    wrong = wrong_word(key, node)
    if task.is_handler and not is_literal(node):
        task.leave(f"`{key}` of a handler holds a template", node.place)
    elif wrong or key == "debugger" and not is_literal(node):
        task.leave(wrong or "`debugger` is a template", node.place)
    else:
        task.evaluated += evaluated_word(key, node)


def passed_words(task: Task) -> None:
    """Words that change neither the flow nor variables: their templates are asked, and they are passed over."""
    for key in PASSED:
        if key in task.words:
            pass_over(task, key)
