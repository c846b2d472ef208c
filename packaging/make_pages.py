# SPDX-License-Identifier: MIT OR Apache-2.0
# Writes the completions and the pages of the manual anew, out of what both commands say of themselves:
# python3 packaging/make_pages.py PROGRAM [--check], which with --check only sees that the files are these.
import sys
from pathlib import Path

sys.dont_write_bytecode = True

import completions
import manual
from words import TOP, codes, front_end, the_program


def made_pages(program: str) -> dict[Path, str]:
    """Each file with what has to stand in it."""
    tools = (the_program(program), front_end())
    pages = {
        "completion/playcheck.bash": completions.bash(tools, codes()),
        "completion/_playcheck": completions.zsh(tools, codes()),
        "completion/playcheck.fish": completions.fish(tools, codes()),
    }
    for tool, prose in zip(tools, (manual.PROGRAM, manual.FRONT_END)):
        pages[f"docs/man/{tool.name}.1"] = manual.page(tool, prose)
    return {TOP / name: text for name, text in pages.items()}


def main() -> int:
    pages = made_pages(sys.argv[1])
    others = [path for path, text in pages.items() if not path.is_file() or path.read_text(encoding="utf-8") != text]
    if "--check" in sys.argv[2:]:
        for path in others:
            print(f"FAILED: {path.relative_to(TOP)} isn't what packaging/make_pages.py writes")
        print(f"{len(pages) - len(others)} passed, {len(others)} failed")
        return 1 if others else 0
    for path in others:
        path.parent.mkdir(exist_ok=True)
        path.write_text(pages[path], encoding="utf-8")
        print(path.relative_to(TOP))
    return 0


if __name__ == "__main__":
    sys.exit(main())
