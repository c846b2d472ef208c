# SPDX-License-Identifier: MIT OR Apache-2.0
# Random tasks as people write them: calls, messages, facts, assertions, blocks, includes and roles.
from __future__ import annotations

import copy
import random
from typing import Any, Callable, Dict, List, Optional, Tuple

from .scope import Read, Register, Scope
from .vocabulary import ARGUMENTS, FIELDS

Json = Dict[str, Any]
PLAIN_WORDS: Json = {"become": False, "throttle": 1, "timeout": 30, "delegate_to": "localhost", "no_log": False,
                     "diff": True}


class TaskMaker:
    """Makes tasks, and keeps what is known behind them in its scope; files of includes and roles go to `files`."""

    def __init__(self, source: random.Random, scope: Scope) -> None:
        self.source, self.scope = source, scope
        self.count = 0
        self.files: Dict[str, Any] = {}
        self.handlers: List[str] = []
        self.role_handlers: List[str] = []
        self.modules = source.choice([["command"], ["command", "shell", "stat"], list(FIELDS)])

    def chance(self, share: float) -> bool:
        return self.source.random() < share

    def number(self) -> int:
        self.count += 1
        return self.count

    def tasks(self, count: int, depth: int = 0) -> List[Json]:
        return [self.task(depth) for _ in range(count)]

    def task(self, depth: int) -> Json:
        shares: List[Tuple[Callable[[int], Json], int]] = [
            (self.call, 11), (self.message, 4), (self.fact, 3), (self.assertion, 1), (self.results, 1)]
        if depth < 2:
            shares += [(self.block, 3), (self.include, 2), (self.role, 1)]
        maker, = self.source.choices([one for one, _ in shares], [share for _, share in shares])
        return maker(depth)

    def name(self) -> str:
        return f"T{self.number()}"

    def common(self, task: Json, read: Optional[Read]) -> bool:
        """Puts a condition and words that change nothing; whether the task may be skipped."""
        guard = read.guard if read else ""
        if guard:
            task["when"] = guard if self.chance(0.7) else [guard, self.scope.condition()]
        elif self.chance(0.3):
            task["when"] = self.scope.condition()
        if self.chance(0.1):
            self.word(task)
        return "when" in task

    def word(self, task: Json) -> None:
        """A word that is passed over, of a fitting kind or now and then of any."""
        word, kinds = self.source.choice([("become", ("bool",)), ("throttle", ("int",)), ("timeout", ("int",)),
                                          ("delegate_to", ("text",)), ("no_log", ("bool",)), ("diff", ("bool",))])
        found = self.scope.guarded(*(kinds if not self.scope.is_risky() else ()))
        is_read = self.chance(0.5) and not found.guard and not self.scope.is_exact
        task[word] = f"{{{{ {found.text} }}}}" if is_read else PLAIN_WORDS[word]

    def arguments(self, module: str, text: str) -> Any:
        form = copy.deepcopy(ARGUMENTS[module])
        if isinstance(form, dict):
            return {name: text if part == "{}" else part for name, part in form.items()}
        return text if form else None

    def call(self, depth: int) -> Json:
        task: Json = {"name": self.name()}
        module = self.source.choice(self.modules)
        is_loop = self.chance(0.15)
        outer = self.scope.item
        if is_loop:
            task["loop"], self.scope.item = self.source.choice([(["a", "b"], [("", "text")]), ([1, 2], [("", "int")])])
        read = self.scope.template() if self.chance(0.4) else None
        task[module] = self.arguments(module, read.text if read else "/x")
        may_skip = self.common(task, read)
        self.scope.item = outer
        ignored = self.chance(0.3)
        if ignored:
            task["ignore_errors"] = True
        if self.chance(0.75):
            task["register"] = register = f"r{self.count}"
            made = Register(module, may_skip, ignored, is_loop)
            made = made if is_loop else self.judged(task, register, made)
            self.scope.registers[register] = made
        if self.chance(0.06) and not self.scope.is_exact:
            task["run_once"] = True
        if self.chance(0.25) and self.handlers + self.role_handlers:
            task["notify"] = self.source.choice(self.handlers + self.role_handlers)
        return task

    def judged(self, task: Json, register: str, made: Register) -> Register:
        """Puts conditions about a task's own result."""
        own = Scope(self.source, self.scope.risk, {}, {register: Register(made.module, False, True, False)},
                    is_exact=self.scope.is_exact)
        if self.chance(0.15):
            task["changed_when"] = own.condition()
        if self.chance(0.15):
            task["failed_when"] = self.source.choice([own.condition(), False])
            made = Register(made.module, made.may_skip, True, False)
        if self.chance(0.1):
            task.update(until=own.condition(), retries=self.source.choice([1, 2]), delay=0)
        return made

    def message(self, depth: int) -> Json:
        read = self.scope.template()
        task: Json = {"name": self.name(), "debug": {"msg": read.text}}
        if self.chance(0.2):
            task["debug"] = {"var": read.text.replace("{{", "").split("}}")[0].strip()} if self.chance(0.3) else \
                {"msg": [read.text]}
        self.common(task, read)
        return task

    def results(self, depth: int) -> Json:
        """A task that reads the results of a loop."""
        loops = [name for name, one in self.scope.registers.items() if one.is_loop]
        if not loops:
            return self.message(depth)
        field = self.source.choice([".changed", ".rc", ".item"] if self.scope.is_risky() else [".changed"])
        return {"name": self.name(), "debug": {"msg": f"x {{{{ item{field} }}}}"},
                "loop": f"{{{{ {self.source.choice(loops)}.results | default([]) }}}}"}

    def fact(self, depth: int) -> Json:
        read = self.scope.value()
        name = f"f{self.number()}" if self.chance(0.8) or not self.scope.variables else "f0"
        task: Json = {"name": self.name()}
        kind = read.kind
        if self.chance(0.25):
            kind, value = self.source.choice([("text", "w"), ("int", 5), ("bool", True), ("list", ["a", "c"])])
            task["set_fact"], read = {name: value}, Read("", kind)
        elif kind in ("text", "int"):
            task["set_fact"], kind = {name: f"n{{{{ {read.text} }}}}"}, "text"
        else:
            task["set_fact"] = {name: f"{{{{ {read.text} }}}}"}
        self.scope.variables[name] = (kind, not self.common(task, read) and not {"run_once", "throttle"} & set(task))
        return task

    def assertion(self, depth: int) -> Json:
        that = [self.scope.condition() for _ in range(self.source.choice([1, 2]))]
        return {"name": self.name(), "assert": {"that": that, "fail_msg": "WRITTEN"}}

    def inner(self, count: int, depth: int, keeps: bool) -> List[Json]:
        """Tasks that may be left out or left early: behind them what they set is only perhaps there."""
        variables, registers = dict(self.scope.variables), dict(self.scope.registers)
        made = self.tasks(count, depth)
        if not keeps and not self.scope.is_risky():
            self.scope.variables, self.scope.registers = variables, registers
        return made

    def block(self, depth: int) -> Json:
        block: Json = {"name": self.name()}
        if self.chance(0.2):
            block["when"] = self.scope.condition()
        if self.chance(0.1):
            block["ignore_errors"] = True
        parts = self.source.choice([("rescue",), ("always",), ("rescue", "always"), ()])
        block["block"] = self.inner(self.source.choice([1, 2]), depth + 1, not parts and "when" not in block)
        for part in parts:
            block[part] = self.inner(1, depth + 1, False)
        return block

    def include(self, depth: int) -> Json:
        name = f"tasks{self.number()}.yml"
        word = "import_tasks" if self.scope.is_exact else self.source.choice(["include_tasks", "import_tasks"])
        task: Json = {"name": self.name(), word: name}
        if self.chance(0.3):
            task["when"] = self.scope.condition()
        if self.chance(0.1) and not self.scope.is_exact:
            task["run_once"] = True
        self.files[name] = self.inner(self.source.choice([1, 2]), 2, "when" not in task and "run_once" not in task)
        return task

    def role(self, depth: int) -> Json:
        name = f"role{self.number()}"
        handler = f"Handler of {name}"
        word = "import_role" if self.scope.is_exact else self.source.choice(["include_role", "import_role"])
        task: Json = {"name": self.name(), word: {"name": name}}
        if self.chance(0.3):
            task["when"] = self.scope.condition()
        self.files[f"roles/{name}/defaults/main.yml"] = {f"d{self.count}": "d"}
        self.files[f"roles/{name}/handlers/main.yml"] = [{"name": handler, "ping": None}]
        self.role_handlers.append(handler)
        self.files[f"roles/{name}/tasks/main.yml"] = self.inner(1, 2, "when" not in task)
        return task
