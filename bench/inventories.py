# SPDX-License-Identifier: MIT OR Apache-2.0
# Measures the reading of large inventories and prints each figure with its bar: python3 bench/inventories.py [PROGRAM]
import os
import sys
import tempfile

sys.dont_write_bytecode = True

from measure import LOAD, TIMED_LOAD, against_json_load, at_most, in_rounds, ms, program_of, write

LARGE, SMALL = 1024, 256  # hosts, of which 1,024 are the most that an inventory may have
VARIABLES = 40  # of each host
TOGETHER = 16  # hosts of a group
VERDICT = "accepted budget 0\n"  # on the empty book


def variables(host):
    return {f"v{number:02}": f"value {number} of {host}" for number in range(VARIABLES)}


def inventory(count):
    """Hosts in groups of 16, each the child of one of 8 regions, and variables of all of them."""
    hosts = [f"web{number:04}" for number in range(count)]
    rows = [hosts[first : first + TOGETHER] for first in range(0, count, TOGETHER)]
    groups = {f"row{number:02}": {"hosts": row, "vars": {"row": number}} for number, row in enumerate(rows)}
    names = list(groups)
    regions = {f"region{region}": {"children": names[region::8], "vars": {"region": region}} for region in range(8)}
    known = {"_meta": {"hostvars": {host: variables(host) for host in hosts}}}
    return known | regions | groups | {"all": {"children": list(regions)}}


def commands(program, folder):
    """The words of each command that is measured, what it has to print and the status that it has to end with."""
    book = write(folder, "book.json", [])
    large = write(folder, "large.json", inventory(LARGE))
    small = write(folder, "small.json", inventory(SMALL))
    return {
        "python": ([sys.executable, "-c", LOAD, large],),
        "load": ([sys.executable, "-c", TIMED_LOAD, large],),
        "small": ([program, "check", book, "-i", small], VERDICT, 0),
        "check": ([program, "check", book, "-i", large], VERDICT, 0),
    }


def main():
    program = program_of(sys.argv[1:])
    with tempfile.TemporaryDirectory() as folder:
        found = in_rounds(commands(program, folder))
    against_json_load(found, f"an inventory of {LARGE:,} hosts")
    large, small = found["check"].seconds, found["small"].seconds
    at_most(f"an inventory of {LARGE:,} hosts over {SMALL:,}", large / small, 5, f"{ms(large)} over {ms(small)}")


if __name__ == "__main__":
    main()
