# SPDX-License-Identifier: MIT OR Apache-2.0
# Names of hosts in inventories as Ansible reads them: with ports, and with ranges as web[01:10].
from __future__ import annotations

import re
import string
from typing import List, Optional, Tuple

MOST_HOSTS = 1024
MOST_RANGES = 16
LONGEST = 1024
LETTERS = string.ascii_letters
# What may stand before a port: names with ranges, and addresses of IP of version 6, which are told by how they begin.
RANGE = r"\[(?:[a-z]:[a-z]|[0-9]+:[0-9]+)(?::[0-9]+)?\]"
LABEL = rf"(?:\w|{RANGE})(?:[\w-]|{RANGE})*(?<![_-])"
HOST_NAME = re.compile(rf"{LABEL}(?:\.{LABEL})*", re.I)
PIECE = r"(?:[0-9a-f]{1,4}|\[[0-9a-f]+:[0-9a-f]+(?::[0-9]+)?\])"
QUAD = rf"(?:{PIECE}\.){{3}}{PIECE}"
ADDRESS = re.compile(rf"(?:{PIECE}:){{7}}{PIECE}|(?:{PIECE}:){{1,6}}:|::|(?:0:){{6}}{QUAD}|(?:0:){{5}}ffff:{QUAD}$",
                     re.I)
IN_BRACKETS = re.compile(r"\[(.+)\]:([0-9]+)")
WITH_PORT = re.compile(r"((?:[^:\[\]]|\[[^\]]*\])*):([0-9]+)")


class NameFault(ValueError):
    """A name of hosts that can't be read, with the reason."""


def host_names(pattern: str) -> Tuple[List[str], Optional[int]]:
    """The hosts that a name with ranges stands for, and their port where it has one."""
    if len(pattern) > LONGEST:
        raise NameFault(f"a host's name has more than {LONGEST:,} letters")
    name, port = divided_port(pattern)
    return expanded(name), port


def divided_port(pattern: str) -> Tuple[str, Optional[int]]:
    """A name and its port; where no name stands before the port, the whole is the name."""
    name, port = pattern, None
    for form in (IN_BRACKETS, WITH_PORT):
        found = form.fullmatch(name)
        if found:
            name, port = found[1], int(found[2])
    if port is not None and (HOST_NAME.fullmatch(name) or ADDRESS.match(name)):
        return name, port
    return pattern, None


def expanded(name: str) -> List[str]:
    """The hosts of a name with ranges: the first range is put in first."""
    if name.count("[") > MOST_RANGES:
        raise NameFault(f"{name} has more than {MOST_RANGES} ranges")
    names = [name]
    while names and "[" in names[0]:
        begin, end = names[0].find("["), names[0].find("]")
        if end < begin or "|" in names[0]:
            raise NameFault(f"the range of {name} can't be read")
        found: List[str] = []
        for one in names:
            begin, end = one.find("["), one.find("]")
            found += [one[:begin] + part + one[end + 1:] for part in parts_of(one[begin + 1:end], name)]
            if len(found) > MOST_HOSTS:
                raise NameFault(f"the ranges of {name} have more than {MOST_HOSTS} hosts")
        names = found
    return names


def parts_of(bounds: str, name: str) -> List[str]:
    """What a range stands for: numbers, with zeros before them where its begin has some, or letters."""
    begin, end, step = bounds_of(bounds, name)
    try:
        if begin in LETTERS and end in LETTERS:
            first, last = LETTERS.index(begin), LETTERS.index(end)
            if first > last:
                raise NameFault(f"the range of {name} ends before it begins")
            return list(LETTERS[first:last + 1:int(step)])
        numbers = range(int(begin), int(end) + 1, int(step))
    except NameFault:
        raise
    except ValueError:
        raise NameFault(f"the range of {name} can't be read") from None
    if len(numbers) > MOST_HOSTS:
        raise NameFault(f"the range of {name} has more than {MOST_HOSTS} hosts")
    width = len(begin) if len(begin) > 1 and begin.startswith("0") else 0
    if width and width != len(end):
        raise NameFault(f"the range of {name} begins and ends with numbers of another length")
    return [str(number).zfill(width) for number in numbers]


def bounds_of(bounds: str, name: str) -> Tuple[str, str, str]:
    parts = bounds.split(":")
    if len(parts) not in (2, 3):
        raise NameFault(f"the range of {name} isn't begin:end or begin:end:step")
    if not parts[1]:
        raise NameFault(f"the range of {name} has no end")
    return parts[0] or "0", parts[1], parts[2] if len(parts) == 3 else "1"
