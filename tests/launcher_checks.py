# SPDX-License-Identifier: MIT OR Apache-2.0
# Checks of ./playcheck in copies of the tree: which program it runs, and what it says where it has to build one:
# python3 tests/launcher_checks.py [PROGRAM], with a program that is of these sources.
import os
import shutil
import subprocess
import sys
import tempfile
import time
from concurrent.futures import ThreadPoolExecutor
from dataclasses import dataclass
from pathlib import Path
from typing import Callable, Tuple

sys.dont_write_bytecode = True

from tree_copies import has_no_more_rights, make_tools, sum_of, tree, without_more_rights, write_program

TOP = Path(__file__).resolve().parent.parent
PROGRAM = TOP / "crates/pb_cli/out/pb_cli"
CHECK = "check examples/first/book.json -i examples/first/inventory.json"
CALL = f'"$top/playcheck" {CHECK}'
SOURCE = "crates/pb_value/src/lib.rt"
Change = Callable[[Path], object]

# In the place of the kit's: it wants its words and its folder, and builds a program that says so.
KIT = """case $*:$PWD in "run -- --help:"*/crates/pb_cli) ;; *) exit 2 ;; esac
mkdir -p out
printf '#!/bin/sh\\necho just built\\n' >out/pb_cli
chmod +x out/pb_cli"""
FAILS = "cat; echo what it says; echo and this >&2; exit 1"
BUILDS_NOTHING = "echo what it says"
BUILDS_NO_PROGRAM = f"{KIT}\nchmod -x out/pb_cli\necho what it says"
IS_OVERTAKEN = f"{KIT}\necho '// edited' >>../pb_value/src/lib.rt"

# What comes out: the status, the output, and the errors.
Outcome = Tuple[int, bytes, bytes]
BUILDING = b"playcheck: building the program, which takes over an hour the first time\n"
NOT_BUILT = b"playcheck: the program can't be built\n"
READY: Outcome = (0, b"accepted budget 4\n", b"")  # the tasks of the book that call a module
REFUSED: Outcome = (64, b"", b"playcheck: the program has to be built, and rt isn't on PATH\n")
BUILT: Outcome = (0, b"just built\n", BUILDING)
HERE: Outcome = (0, b"built here\n", b"")


def build_here(top: Path, says: str = "built here", age: int = 0) -> None:
    """A program that was built here, which says that; so many seconds old."""
    write_program(top / "crates/pb_cli/out/pb_cli", f"echo {says}")
    moment = time.time() - age
    os.utime(top / "crates/pb_cli/out/pb_cli", (moment, moment))


def tells(top: Path) -> None:
    """A program that was built here, which tells its words and its input, and ends with a status of its own."""
    write_program(top / "crates/pb_cli/out/pb_cli", """printf '<%s>' "$@"; cat; exit 3""")


def all_of(*changes: Change) -> Change:
    def change(top: Path) -> None:
        for one in changes:
            one(top)

    return change


def edit(name: str) -> Change:
    def change(top: Path) -> None:
        with open(top / name, "a", encoding="utf-8") as source:
            source.write("# edited\n")

    return change


def edit_in_secret(name: str) -> Change:
    """An edit that leaves the file as long as it was, and as old."""

    def change(top: Path) -> None:
        before = (top / name).stat()
        text = (top / name).read_bytes()
        (top / name).write_bytes(text[:-2] + b"~" + text[-1:])
        os.utime(top / name, ns=(before.st_atime_ns, before.st_mtime_ns))

    return change


def add_source(name: str, moment: float = 0) -> Change:
    def change(top: Path) -> None:
        (top / name).parent.mkdir(parents=True, exist_ok=True)
        (top / name).write_text("// more\n")
        os.utime(top / name, (moment, moment))

    return change


def truncate(top: Path) -> None:
    with open(top / "dist/playcheck", "r+b") as program:
        program.truncate(3000)


def remove(name: str) -> Change:
    return lambda top: shutil.rmtree(top / name) if (top / name).is_dir() else (top / name).unlink()


def write(name: str, text: str) -> Change:
    return lambda top: (top / name).write_text(text)


def name_another(top: Path) -> None:
    """A stamp as it has to be, that names a program of the tree which is none of the two."""
    write_program(top / "dist/other", "echo another")
    write("dist/stamp", f"dist/other\n{len(list((top / 'crates').glob('*/src')))}\n")(top)


def without_tool(name: str) -> Change:
    return remove(f"../tools/{name}")


def with_find_alone(top: Path) -> None:
    """Each other program that it started would take its time."""
    for tool in (top.parent / "tools").iterdir():
        if tool.name != "find":
            tool.unlink()


def edit_meanwhile(top: Path) -> None:
    """A source is edited right after the sum of all was made, before the program is told."""
    write_program(top.parent / "tools/sha256sum", f"""{shutil.which("sha256sum")} "$@"
[ -e "{top}/was" ] || echo '// edited' >>"{top}/{SOURCE}"
: >"{top}/was" """)


def of_another_sum(top: Path) -> None:
    """The sum of all but what crates.txt says behind `#`, which no crate is."""
    (top / "crates.txt").write_text("pb_cli: # pb_value\n# pb_kind:\n\npb_value:\n")
    (top / "dist/sources").write_text(f"{sum_of(top)}\n")


def by_a_link(top: Path) -> None:
    (top.parent / "links").mkdir()
    (top.parent / "links/playcheck").symlink_to("../tree/playcheck")


@dataclass
class Case:
    """What is done to a copy of the tree, how ./playcheck is called there then, and what is wanted."""

    name: str
    wanted: Outcome
    change: Change = lambda top: None
    kit: str = ""  # the text of an rt, where one is there
    before: Change = lambda top: None  # what was done before the run that writes the stamp
    call: str = CALL


def failed_build(said: bytes) -> Outcome:
    return 64, b"", BUILDING + said + NOT_BUILT


FIRST = [
    Case("nothing is built", READY),
    Case("nothing is built, with a kit", READY, kit=KIT),
    Case("a source is edited", REFUSED, edit(SOURCE)),
    Case("a source is edited, with a kit", BUILT, edit(SOURCE), KIT),
    Case("a file is added", BUILT, add_source("crates/pb_value/src/more.rt", time.time()), KIT),
    Case("a file is added further below", BUILT, add_source("crates/pb_value/src/a/b/more.rt"), KIT),
    Case("a file of another kind is added", READY, add_source("crates/pb_value/src/more.txt")),
    Case("crates.txt is edited", BUILT, write("crates.txt", "pb_cli:\n"), KIT),
    Case("crates.txt with comments", READY, of_another_sum),
    Case("a source of no crate of the program is added", READY, add_source("crates/pb_tests/src/x.rt")),
    Case("no dist", REFUSED, remove("dist")),
    Case("no dist, with a kit", BUILT, remove("dist"), KIT),
    Case("no sum", BUILT, remove("dist/sources"), KIT),
    Case("a sum that may not be read", REFUSED, lambda top: (top / "dist/sources").chmod(0),
         call=f"{' '.join(without_more_rights())} {CALL}"),
    Case("a ready program cut short", BUILT, truncate, KIT),
    Case("an empty ready program", BUILT, write("dist/playcheck", ""), KIT),
    Case("a script as the ready program", BUILT, write("dist/playcheck", "#!/bin/sh\necho playcheck 1\n"), KIT),
    Case("another program as the ready one", REFUSED,
         lambda top: shutil.copy2(shutil.which("true") or "", top / "dist/playcheck")),
    Case("a ready program that isn't executable", BUILT, lambda top: (top / "dist/playcheck").chmod(0o644), KIT),
    Case("a program built here", HERE, build_here),
    Case("a program built here that isn't executable", READY,
         all_of(build_here, lambda top: (top / "crates/pb_cli/out/pb_cli").chmod(0o644))),
    Case("an older program built here", READY, lambda top: build_here(top, "too old", 10**9)),
    Case("a build that fails", failed_build(b"what it says\nand this\n"), edit(SOURCE), FAILS),
    Case("a build that builds nothing", failed_build(b"what it says\n"), edit(SOURCE), BUILDS_NOTHING),
    Case("a build of no program", failed_build(b"what it says\n"), edit(SOURCE), BUILDS_NO_PROGRAM),
    Case("a build that an edit overtakes", (0, b"just built\n" * 2, BUILDING * 2), edit(SOURCE), IS_OVERTAKEN,
         call=f"{CALL}; {CALL}"),
    Case("a build, and then what was built", (0, b"just built\n" * 2, BUILDING), edit(SOURCE), KIT, call=f"{CALL}; {CALL}"),
    Case("called by a link", READY, by_a_link, call=f'"$top/../links/playcheck" {CHECK}'),
    Case("called by a link, in its folder", READY, by_a_link,
         call=f'cd ../links && sh playcheck {CHECK.replace("examples", "../tree/examples")}'),
    Case("called by sh in its folder", READY, call=f"sh playcheck {CHECK}"),
    Case("called from elsewhere", READY, call=f'cd / && "$top/playcheck" {CHECK.replace("examples", "$top/examples")}'),
    Case("a stamp that can't be written", READY, add_source("dist/stamp/x"),
         call=f'{CALL} && [ "$(cd "$top/dist" && echo * stamp/*)" = "playcheck sources stamp stamp/x" ]'),
    Case("nothing is left", READY,
         call=f'{CALL} && [ "$(cd "$top/dist" && echo *)" = "playcheck sources stamp" ] && [ -z "$(ls "$TMPDIR")" ]'),
    Case("nothing is left of a build", BUILT, edit(SOURCE), KIT, call=f'{CALL} && [ -z "$(ls "$TMPDIR")" ]'),
    Case("its words, its input and its status", (3, b"<a  b><><-i>input\n", b""), tells, call='"$top/playcheck" "a  b" "" -i'),
]
# The same where ./playcheck was run before, so that it goes by its stamp. Without bash it has nothing else to go by.
STAMPED = [
    Case("nothing has changed, where no tool but find is there", READY, with_find_alone),
    Case("nothing has changed, called by a link", READY, all_of(by_a_link, without_tool("bash")),
         call=f'"$top/../links/playcheck" {CHECK}'),
    Case("a source is edited", REFUSED, edit(SOURCE)),
    Case("a source is edited in secret", REFUSED, edit_in_secret(SOURCE)),
    Case("an old file is added", REFUSED, add_source("crates/pb_value/src/more.rt")),
    Case("a source is removed", REFUSED, remove(SOURCE)),
    Case("a crate is removed", REFUSED, remove("crates/pb_walks")),
    Case("the sources of a crate are removed", REFUSED, remove("crates/pb_walks/src")),
    Case("a crate is renamed", REFUSED, lambda top: (top / "crates/pb_walks").rename(top / "crates/pb_walk")),
    Case("crates.txt is edited", REFUSED, edit_in_secret("crates.txt")),
    Case("sources.sh is edited", REFUSED,
         write("sources.sh", (TOP / "sources.sh").read_text().replace("dist/playcheck", "dist/no"))),
    Case("a script as the ready program", REFUSED, write("dist/playcheck", "#!/bin/sh\necho wrong\n")),
    Case("no ready program", REFUSED, remove("dist/playcheck")),
    Case("another sum", REFUSED, write("dist/sources", "0\n")),
    Case("no sum", REFUSED, remove("dist/sources")),
    Case("a program built here", HERE, build_here),
    Case("its words, its input and its status", (3, b"<a  b><><-i>input\n", b""), without_tool("bash"), before=tells,
         call='"$top/playcheck" "a  b" "" -i'),
    Case("a program built here before", HERE, without_tool("bash"), before=build_here),
    Case("a program built here before is gone", READY, remove("crates/pb_cli/out"), before=build_here),
    Case("a program built here before, and a source is edited", REFUSED, edit(SOURCE), before=build_here),
    Case("an edit while the program was picked", REFUSED, before=edit_meanwhile),
    Case("a stamp that names another program", READY, name_another),
    Case("an empty stamp", READY, write("dist/stamp", "")),
    Case("a stamp of one line", READY, write("dist/stamp", "dist/playcheck\n")),
    Case("a stamp of another count", READY, write("dist/stamp", "dist/playcheck\n1\n")),
]


def launched(case: Case, folder: Path) -> Outcome:
    words = ["bash", "-c", f"top=$PWD; {case.call}"]
    if not (folder / "tools/bash").exists():
        words[0] = "sh"
    environment = {"PATH": str(folder / "tools"), "TMPDIR": str(folder / "room")}
    done = subprocess.run([shutil.which(words[0]) or "", *words[1:]], cwd=folder / "tree", env=environment, input=b"input\n",
                          capture_output=True, timeout=60, check=False)
    return done.returncode, done.stdout, done.stderr


def failure_of(program: str, case: Case, is_stamped: bool) -> str:
    """What is wrong with what the launcher does; nothing where it is as wanted."""
    with tempfile.TemporaryDirectory() as name:
        folder = Path(os.path.realpath(name))
        make_tools(folder / "tools")
        (folder / "tools/ls").symlink_to(shutil.which("ls") or "")
        (folder / "room").mkdir()
        if case.kit:
            write_program(folder / "tools/rt", case.kit)
        top = tree(folder, program)
        if is_stamped:
            case.before(top)
            # What is younger than a second counts as changed.
            time.sleep(2.1)
            launched(Case("", READY), folder)
            if not (top / "dist/stamp").is_file():
                return "no stamp is written"
        case.change(top)
        found = launched(case, folder)
    return "" if found == case.wanted else f"wanted {case.wanted}, got {found}"


def main() -> int:
    program = os.path.abspath(sys.argv[1]) if len(sys.argv) > 1 else str(PROGRAM)
    cases, failed = [(case, False) for case in FIRST] + [(case, True) for case in STAMPED], 0
    if not has_no_more_rights():
        cases = [(case, is_stamped) for case, is_stamped in cases if "may not be read" not in case.name]
        print("skipped: a sum that may not be read: no setpriv is here")
    with ThreadPoolExecutor(os.cpu_count() or 1) as pool:
        for (case, is_stamped), said in zip(cases, pool.map(lambda it: failure_of(program, *it), cases)):
            failed += bool(said)
            if said:
                print(f"FAILED: launcher{' that ran before' if is_stamped else ''}, {case.name}: {said}")
    print(f"{len(cases) - failed} passed, {failed} failed")
    return 1 if failed else 0


if __name__ == "__main__":
    sys.exit(main())
