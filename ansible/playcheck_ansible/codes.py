# SPDX-License-Identifier: MIT OR Apache-2.0
# The titles of the codes, as the pages have them (a test compares), and the section of a code.
import re

from .places import page
from .problems import Problem

PAGE = "REFUSALS.md"
# The page of the codes that the front end itself tells.
OWN_PAGE = "FROM_ANSIBLE.md"
TITLES = {
    "S01": "the signatures aren't JSON",
    "S02": "the signatures have another form",
    "S03": "a signature breaks a law",
    "S04": "the name of a module is taken",
    "S05": "the signatures pass a limit",
    "I01": "the inventory isn't JSON",
    "I02": "the inventory has another form",
    "I03": "a host has a name that none can have",
    "I04": "a group is below itself",
    "I05": "the inventory passes a limit",
    "P01": "the playbook isn't JSON",
    "P02": "no list of plays, or a play without `hosts`",
    "P03": "a keyword that the language lacks",
    "P04": "a value that hasn't the form which its keyword wants",
    "P05": "a task with no module or several",
    "P06": "a module that isn't known",
    "P07": "an expression that can't be read",
    "P08": "the playbook passes a limit",
    "P09": "a second handler of a name",
    "V01": "a variable that is perhaps undefined",
    "V02": "a variable of another host that is perhaps undefined",
    "V03": "a field that is perhaps missing",
    "V04": "a value of the wrong kind",
    "V05": "a text that notifies nothing",
    "V06": "an unknown host or group",
    "V07": "an unknown or missing parameter",
    "V08": "a name that is reserved or given twice",
    "V09": "a result that is judged by what other hosts have",
    "V10": "a chain of names of `vars`",
    "V11": "kinds that don't settle",
    "V12": "a handler that notifies itself or an earlier one",
    "V13": "too many steps",
    "A01": "the answers aren't JSON",
    "A02": "the answers have another form",
    "A03": "the answers are too long",
}
OWN_TITLES = {
    "A-alias": "a parameter that is given by two names",
    "A-choice": "a value that is none of the parameter's choices",
    "A-name": "a name that no variable can have",
    "A-required": "a parameter that has to be there",
}


def section_of(code: str) -> str:
    """The section of a page on a code."""
    path = page(OWN_PAGE if code.startswith("A-") else PAGE)
    try:
        with open(path, encoding="utf-8") as file:
            text = file.read()
    except OSError as error:
        raise Problem(None, f"{path} can't be read: {error.strerror}") from None
    found = re.search(rf"^### {re.escape(code)}: .*?(?=^##|\Z)", text, re.M | re.S | re.I)
    if not found:
        raise Problem(None, f"there is no code {code}; there are {' '.join([*TITLES, *OWN_TITLES])}")
    return found[0].rstrip() + "\n"
