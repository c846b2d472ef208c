# SPDX-License-Identifier: MIT OR Apache-2.0
# Where the program and the pages stand that the front end asks and shows: in a clone, and where a package put them.
import os

from .problems import Problem
from .processes import on_path

FOLDER = os.path.dirname(os.path.realpath(__file__))
# In a clone it is ansible/playcheck_ansible; a package brings the pages in a folder of this one.
CLONE = os.path.dirname(os.path.dirname(FOLDER))
PAGES = os.path.join(FOLDER, "pages")
# How far above this folder a package's `bin` may be: PREFIX/lib/python3.N/site-packages/playcheck_ansible.
LEVELS = 4


def page(name: str) -> str:
    """The path of a page of docs/."""
    return os.path.join(PAGES if os.path.isdir(PAGES) else os.path.join(CLONE, "docs"), name)


def program() -> str:
    """The program: the one that PLAYCHECK names, a path or a name on the PATH, a clone's launcher, or the nearest above."""
    named = os.environ.get("PLAYCHECK")
    if named:
        return named if os.sep in named else on_path(named) or named
    if not os.path.isdir(PAGES):
        return os.path.join(CLONE, "playcheck")
    above = FOLDER
    for _ in range(LEVELS):
        above = os.path.dirname(above)
        found = os.path.join(above, "bin", "playcheck")
        if os.path.isfile(found):
            return found
    raise Problem(None, "the program playcheck isn't where this package was put; PLAYCHECK may name it")
