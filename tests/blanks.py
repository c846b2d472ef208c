# SPDX-License-Identifier: MIT OR Apache-2.0
# A crate in which some functions alone keep their bodies, and the proofs of the others are left open.
#
# A function is proved against the contracts of what it calls, and not against their bodies. So what is tried of some functions
# needs no other body: each is `loop {}`, and its proof a hole, which the prover takes by its statement.
import re
import shutil
from pathlib import Path

FUNCTION = re.compile(r"^( *)(?:pub(?:\(crate\))? )?fn (\w+)", re.M)
CYCLE = re.compile(r"^ *#\[cycle\((\w+)\)\]$")
TYPE = re.compile(r"^(?:pub(?:\(crate\))? )?(?:struct|enum) (\w+)", re.M)
BLOCK = re.compile(r"^(?:pub(?:\(crate\))? )?(impl|trait)\b(.*)$")


class Function:
    """A function of a file, by its lines: from `first` on its body, up to `end`; none of a trait or of its impls."""

    def __init__(self, path, cycle, attribute, first, end):
        self.path, self.cycle, self.attribute, self.first, self.end = path, cycle, attribute, first, end


class Blanks:
    """The functions of a crate, and its texts without the bodies of most."""

    def __init__(self, folder):
        self.folder, self.files = Path(folder), {}
        texts = {path: path.read_text(encoding="utf-8") for path in sorted(self.folder.glob("src/**/*.rt"))}
        homes = {name: module_of(folder, path) for path, text in texts.items() for name in TYPE.findall(text)}
        for path, text in texts.items():
            lines = text.split("\n")
            self.files[f"{path.relative_to(folder)}"] = lines, list(functions_in(lines, module_of(folder, path), homes))

    def without(self, kept):
        """The texts in which the functions at those paths, and what is in a cycle with one, alone have bodies; the paths of
        the others, and their cycles."""
        every = [it for _, functions in self.files.values() for it in functions]
        cycles = {it.cycle for it in every if it.cycle and "::".join(it.path) in kept}
        texts, left, gone = {}, [], set()
        for file, (lines, functions) in self.files.items():
            lines = list(lines)
            for it in reversed(functions):
                if "::".join(it.path) in kept or it.cycle in cycles:
                    continue
                margin = re.match(" *", lines[it.end])[0]
                lines[it.first : it.end] = [f"{margin}    loop {{}}"]
                if it.cycle:
                    del lines[it.attribute]
                    gone.add(it.cycle)
                left.append(it.path)
            texts[file] = "\n".join(lines)
        return texts, left, gone


def module_of(folder, path):
    inside = path.relative_to(Path(folder) / "src").with_suffix("")
    return [] if inside.parts in (("lib",), ("main",)) else [it for it in inside.parts if it != "mod"]


def functions_in(lines, module, homes):
    """Those of a file that is laid out as `rt fmt` does."""
    owner, is_open, cycle, attribute = module, True, None, None
    for number, line in enumerate(lines):
        block, function, named = BLOCK.match(line), FUNCTION.match(line), CYCLE.match(line)
        if line == "}":
            owner, is_open = module, True
        elif block:
            name = owner_in(block[2]) if block[1] == "impl" else None
            owner, is_open = ([*homes[name], name], True) if name in homes else (None, False)
        elif named:
            cycle, attribute = named[1], number
        elif function:
            if is_open:
                body = body_at(lines, number, function[1])
                if body:
                    yield Function([*owner, function[2]], cycle, attribute, *body)
            cycle, attribute = None, None


def owner_in(header):
    """The type of an `impl` that is of no trait."""
    depth, at = 0, 0
    if header.startswith("<"):
        for at, letter in enumerate(header):
            depth += {"<": 1, ">": -1}.get(letter, 0)
            if depth == 0:
                break
        at += 1
    rest = header[at:]
    return None if " for " in rest else re.match(r"\s*(\w*)", rest)[1]


def body_at(lines, number, margin):
    """The lines of the body; none where it stands on one line."""
    first = next(at for at in range(number, len(lines)) if is_opening(lines[at], margin, at == number) or lines[at].endswith(";"))
    if lines[first].endswith(";") or lines[first].endswith("{}"):
        return None
    end = next(at for at in range(first + 1, len(lines)) if lines[at] == margin + "}")
    return first + 1, end


def is_opening(line, margin, is_first):
    own = is_first or line.startswith(margin + ")") or line in (margin + "{", margin + "{}")
    return own and line.endswith(("{", "{}"))


def leave_open(room, crate, paths, cycles):
    """Leaves the proofs of these functions open in the copy of a crate."""
    for cycle in cycles:
        for folder in list(Path(room).glob(f"proofs/**/+{cycle}")):
            shutil.rmtree(folder)
    for path in paths:
        folder = Path(room, "proofs", *path)
        for name in ("Answers.antt", "Invariants.antt", "Proof.antt"):
            (folder / name).unlink(missing_ok=True)
        folder.mkdir(parents=True, exist_ok=True)
        proof = f"use Rattle.{crate}.proofs.{'.'.join(path)}.Statement.{{statement}}\n\n"
        proof += f"pub {path[-1]}_spec : {{M : Type 1}} → statement M\n{path[-1]}_spec = ?\n"
        (folder / "Proof.antt").write_text(proof, encoding="utf-8")
