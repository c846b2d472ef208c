# SPDX-License-Identifier: MIT OR Apache-2.0
# A board takes no seat of a board that was opened with other blanks, since a seat has the ledgers of its board in its type: the
# prover's front end refuses a program that puts one to it, for that type, and passes the same program with the board's own:
# python3 tests/seat_checks.py
#
# It is asked over the libraries that were built last, and proves nothing.
import os
import re
import subprocess
import sys
import tempfile
from pathlib import Path

sys.dont_write_bytecode = True

from wrong_programs import kit

TOP = Path(__file__).resolve().parent.parent
PLACE = "pb_pool_tests"  # the crate in whose place the program stands, with its libraries

# Two boards, each opened with blanks of its own. SEATS are those of one of them, and are put to the first.
PROGRAM = """// Seats that are put to a board.
#![tactic(auto)]
use pb_executor::Run;
use pb_finish::Answer;
use pb_jobs::Job;
use pb_pool::{Board, Rule};
use std::alloc::Global;
use std::sync::Wait;
use std::sync::ledger::{Blank, Ledger};

pub fn puts<'c, C: Ledger, G: Ledger, D: Ledger, H: Ledger, P: Rule, R: Wait>(
    rt: &R,
    alloc: Global,
    blanks: (Blank, Blank, Blank, Blank),
    runs: (Run<'c>, Run<'c>),
    job: Job,
    answers: Vec<Answer>,
) {
    let (calls, gives, other_calls, other_gives) = blanks;
    let (run, other_run) = runs;
    let Ok((board, own)) = Board::<'c, C, G, P>::open(alloc, calls, gives, run, 2) else {
        return;
    };
    let Ok((_, other)) = Board::<'c, D, H, P>::open(alloc, other_calls, other_gives, other_run, 2) else {
        return;
    };
    let mut seats = SEATS;
    let Some(mut seat) = seats.pop() else {
        return;
    };
    let _taken = board.take(rt, &mut seat);
    let _given = board.give(rt, &mut seat, job, answers);
    let _closed = board.close(seats);
}
"""

# What is put to the board in each of these lines, and what is found in its place.
ONE = ("&mut Seat<C, G>", "&mut Seat<D, H>")
ALL = ("Vec<Seat<C, G>>", "Vec<Seat<D, H>>")
CALLS = {"board.take(": ONE, "board.give(": ONE, "board.close(": ALL}

# What is said of each line, by its number: src/lib.rt:LINE:COLUMN: error..
SAID = re.compile(r"^src/lib\.rt:(\d+):\d+: (error.*)$", re.M)


def asked(rt, crate, text):
    """The front end's status, and what it says is wrong with the program, by its lines."""
    with tempfile.TemporaryDirectory() as room:
        Path(room, "src").mkdir()
        Path(room, "src/lib.rt").write_text(text, encoding="utf-8")
        words = ["check", *crate.words(["--jobs", "1", "--only", ""], keeps=False)]
        how = {"stdin": subprocess.DEVNULL, "stdout": subprocess.PIPE, "stderr": subprocess.STDOUT, "text": True}
        done = subprocess.run([*rt.rtlib.guarded(), rt.rtlib.RATTLE, *words], cwd=room, check=False, **how)
    found = {text.splitlines()[int(line) - 1].strip(): what for line, what in SAID.findall(done.stdout)}
    return done.returncode, found, done.stdout


def failures(rt, crate):
    """What is to be said of the board's own seats, and of those of the other board at each call."""
    status, _, output = asked(rt, crate, PROGRAM.replace("SEATS", "own"))
    if status:
        yield f"the board's own seats: refused\n{output}"
    status, found, output = asked(rt, crate, PROGRAM.replace("SEATS", "other"))
    for call, (wanted, got) in CALLS.items():
        said = f"error[mismatched-types]: expected `{wanted}`, found `{got}`"
        if status == 0 or [what for line, what in found.items() if call in line] != [said]:
            yield f"{call}..) with a seat of another board: wanted {said}\n{output}"


def main():
    rt = kit()
    os.chdir(TOP)
    rt.rtlib.guarded()
    crate = next(it for it in rt.rtlib.crates_below(os.getcwd()) if it.name == PLACE)
    missing = [it.name for it in crate.below() if not os.path.isdir(it.rlib)]
    said = [f"{', '.join(missing)}: not built"] if missing else list(failures(rt, crate))
    for text in said:
        print(f"FAILED: seats: {text}")
    print(f"{0 if missing else 1 + len(CALLS) - len(said)} passed, {len(said)} failed")
    return 1 if said else 0


if __name__ == "__main__":
    sys.exit(main())
