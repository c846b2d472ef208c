# SPDX-License-Identifier: MIT OR Apache-2.0
# The shape of the front end: small modules and functions, and no module that needs itself by way of others.
import ast
from graphlib import CycleError, TopologicalSorter
from pathlib import Path
from typing import Dict, Iterator, Set

TOP = Path(__file__).resolve().parent.parent
PACKAGE = TOP / "ansible" / "playcheck_ansible"
MODULE_LINES = 300
FUNCTION_LINES = 40


def large_parts(folder: Path = PACKAGE) -> Iterator[str]:
    for path in sorted(folder.glob("*.py")):
        text = path.read_text(encoding="utf-8")
        if text.count("\n") > MODULE_LINES:
            yield f"{path.name}: {text.count(chr(10))} lines"
        for node in ast.walk(ast.parse(text)):
            if isinstance(node, ast.FunctionDef):
                count = (node.end_lineno or 0) - node.lineno + 1
                if count >= FUNCTION_LINES:
                    yield f"{path.name}:{node.lineno}: {node.name} has {count} lines"


def needed(path: Path) -> Set[str]:
    """The modules of its package that a module names at its start, those for its types too."""
    waiting = list(ast.parse(path.read_text(encoding="utf-8")).body)
    found: Set[str] = set()
    while waiting:
        node = waiting.pop()
        if isinstance(node, ast.ImportFrom) and node.level == 1:
            found |= {node.module} if node.module else {one.name for one in node.names}
        elif isinstance(node, ast.If):
            waiting += node.body
    return found


def import_cycles(folder: Path = PACKAGE) -> Iterator[str]:
    needs: Dict[str, Set[str]] = {path.stem: needed(path) for path in folder.glob("*.py")}
    try:
        TopologicalSorter(needs).prepare()
    except CycleError as error:
        yield " needs ".join(reversed(error.args[1]))
