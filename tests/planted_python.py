# SPDX-License-Identifier: MIT OR Apache-2.0
# Bugs for Python, by the forms of its syntax tree; what isn't touched stays as it is written.
import ast
from typing import Iterator, List, Optional, Union

from planted_edit import Edit

OTHER = {ast.Eq: ast.NotEq, ast.NotEq: ast.Eq, ast.Lt: ast.LtE, ast.LtE: ast.Lt, ast.Gt: ast.GtE, ast.GtE: ast.Gt,
         ast.In: ast.NotIn, ast.NotIn: ast.In, ast.Is: ast.IsNot, ast.IsNot: ast.Is}
REVERSE = {ast.Add: ast.Sub, ast.Sub: ast.Add, ast.Mult: ast.Add}
# Fields of a tree that say nothing of what a program does.
PASSED_OVER = ("annotation", "returns", "decorator_list", "bases")
Node = Union[ast.expr, ast.stmt]


class Lines:
    """Where a place of the tree, a line and a column in bytes, stands in the text."""

    def __init__(self, text: str) -> None:
        self.lines = text.splitlines(keepends=True)
        self.starts = [0]
        for line in self.lines:
            self.starts.append(self.starts[-1] + len(line))

    def place(self, line: int, column: int) -> int:
        return self.starts[line - 1] + len(self.lines[line - 1].encode()[:column].decode())

    def edit(self, node: Node, new: str, sort: str) -> Edit:
        start = self.place(node.lineno, node.col_offset)
        return Edit(start, self.place(node.end_lineno or node.lineno, node.end_col_offset or 0), new, sort)


def edits(text: str) -> List[Edit]:
    lines = Lines(text)
    return [edit for node in walk(ast.parse(text)) for edit in edits_of(lines, node)]


def walk(node: ast.AST) -> Iterator[ast.AST]:
    """The nodes that a bug may stand in: no annotation, no text of a format, no description."""
    if isinstance(node, ast.JoinedStr):
        return
    yield node
    for name, value in ast.iter_fields(node):
        if name in PASSED_OVER:
            continue
        for inner in value if isinstance(value, list) else [value]:
            is_text = isinstance(inner, ast.Expr) and isinstance(inner.value, ast.Constant)
            if isinstance(inner, ast.AST) and not is_text:
                yield from walk(inner)


def edits_of(lines: Lines, node: ast.AST) -> Iterator[Edit]:
    if isinstance(node, ast.expr):
        for new, sort in [*of_logic(node), *of_constants(node), *of_collections(node)]:
            yield lines.edit(node, f"({ast.unparse(new)})", sort)
    if isinstance(node, (ast.If, ast.IfExp, ast.While)):
        for value in (True, False):
            yield lines.edit(node.test, repr(value), f"a condition that is {'always' if value else 'never'} so")
    if isinstance(node, ast.stmt) and is_dropped(node):
        yield lines.edit(node, "pass", "a statement less")
    if isinstance(node, ast.Return) and node.value is not None:
        yield lines.edit(node, "return None", "nothing returned")


def is_dropped(node: ast.stmt) -> bool:
    """Whether a statement without which the others still have all their names."""
    if isinstance(node, ast.Assign):
        return any(isinstance(target, (ast.Attribute, ast.Subscript)) for target in node.targets)
    return isinstance(node, (ast.Expr, ast.AugAssign, ast.Continue, ast.Break, ast.Raise))


Change = Iterator["tuple[ast.expr, str]"]


def of_logic(node: ast.expr) -> Change:
    if isinstance(node, ast.Compare):
        yield ast.Compare(node.left, [OTHER[type(node.ops[0])](), *node.ops[1:]], node.comparators), "another comparison"
    if isinstance(node, ast.BoolOp):
        yield ast.BoolOp(ast.Or() if isinstance(node.op, ast.And) else ast.And(), node.values), "and for or"
        for values in (node.values[1:], node.values[:-1]):
            yield (values[0] if len(values) == 1 else ast.BoolOp(node.op, values)), "an operand less"
    if isinstance(node, ast.UnaryOp) and isinstance(node.op, ast.Not):
        yield node.operand, "not"
    if isinstance(node, ast.BinOp) and type(node.op) in REVERSE:
        yield ast.BinOp(node.left, REVERSE[type(node.op)](), node.right), "another operator"
    if isinstance(node, ast.IfExp):
        yield ast.IfExp(node.test, node.orelse, node.body), "the other branch"
    if isinstance(node, ast.Call) and len(node.args) > 1 and not any(isinstance(it, ast.Starred) for it in node.args[:2]):
        yield ast.Call(node.func, [node.args[1], node.args[0], *node.args[2:]], node.keywords), "arguments changed about"
    if isinstance(node, ast.Call) and node.keywords:
        yield ast.Call(node.func, node.args, node.keywords[1:]), "an argument less"


def of_constants(node: ast.expr) -> Change:
    value = node.value if isinstance(node, ast.Constant) else None
    if isinstance(value, bool):
        yield ast.Constant(not value), "the other truth"
    elif isinstance(value, int):
        yield ast.Constant(value + 1), "a number more"
        yield ast.Constant(value - 1), "a number less"
    elif isinstance(value, str):
        yield ast.Constant(f"{value}X"), "another text"
    elif isinstance(value, bytes):
        yield ast.Constant(value + b"X"), "another text"


def of_collections(node: ast.expr) -> Change:
    if isinstance(node, (ast.List, ast.Tuple, ast.Set)) and isinstance(getattr(node, "ctx", ast.Load()), ast.Load):
        for number in range(len(node.elts)) if len(node.elts) > 1 else ():
            less: ast.expr = type(node)(elts=[*node.elts[:number], *node.elts[number + 1 :]], ctx=ast.Load())
            yield less, "an item less"
    if isinstance(node, ast.Dict):
        for number in range(len(node.keys)):
            keys: List[Optional[ast.expr]] = [*node.keys[:number], *node.keys[number + 1 :]]
            yield ast.Dict(keys, [*node.values[:number], *node.values[number + 1 :]]), "an item less"
    if isinstance(node, (ast.ListComp, ast.SetComp, ast.GeneratorExp)) and node.generators[0].ifs:
        first = node.generators[0]
        bare = ast.comprehension(first.target, first.iter, first.ifs[1:], first.is_async)
        yield type(node)(node.elt, [bare, *node.generators[1:]]), "a condition less"


def is_read(text: str) -> bool:
    try:
        compile(text, "planted", "exec")
    except SyntaxError:
        return False
    return True
