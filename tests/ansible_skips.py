# SPDX-License-Identifier: MIT OR Apache-2.0
# Tries what silences findings where a transcript can't: baselines that are written, and the formats for pipelines.
import json
import tempfile
import xml.etree.ElementTree as xml
from pathlib import Path

from ansible_formats import HOSTS, PLAY, printed
from ansible_tools import run_tool

TASKS = '''    - name: "One"
      debug: {msg: "{{ prot }}"}
    - name: "One"
      debug: {msg: "{{ prot }}"}
    - name: "Reads"
      debug: {msg: "{{ found.stdout }}"}
'''
FINDS = '''    - {name: "Find", command: /bin/x, register: found, when: port is defined}
'''
BOOK = PLAY.replace("all\n", "all\n  name: Site\n", 1) + FINDS + TASKS
UNDEFINED = "'prot' is set nowhere: not in this book, not in the inventory"
SKIPPED = "    - debug: {msg: \"{{ prot }}\"}  # playcheck: skip V01 (it's 100% there, as we know)\n"
REASON = "it's 100% there, as we know"


class Folder:
    """A folder with a book and an inventory, in which checks are run."""

    def __init__(self, name, **files):
        self.path = Path(name)
        for file, text in {"hosts_json": HOSTS, **files}.items():
            self.write(file, text)

    def write(self, name, text):
        (self.path / name.replace("_", ".")).write_text(text, encoding="utf-8")

    def check(self, *words):
        """What is said last, on standard error, and the status."""
        done = run_tool(["check", "book.yml", *words, "-i", "hosts.json"], self.path)
        return (done.stdout.splitlines() or [""])[-1], done.stderr.splitlines(), done.returncode

    def keys(self):
        """What the baseline has."""
        read = json.loads((self.path / "known.json").read_text(encoding="utf-8"))
        return [tuple(one[name] for name in ("path", "code", "play", "task", "message")) for one in read["findings"]]


def wrong_baselines():
    """A baseline has all findings without their lines; it silences as many as it has, also where lines moved."""
    with tempfile.TemporaryDirectory() as name:
        folder = Folder(name, book_yml=BOOK)
        said = folder.check("--write-baseline", "known.json")
        if said != ("book.yml: refused, 3 findings, 4 of 4 tasks judged", [], 1):
            yield f"written baseline: {said}"
        one = ("book.yml", "V01", "Site", "One", UNDEFINED)
        keys = folder.keys()
        if keys[:2] != [one, one] or keys[2][:4] != ("book.yml", "V03", "Site", "Reads") or len(keys) != 3:
            yield f"written baseline: {keys}"
        moved = "# one line more\n" + BOOK
        rows = [("its book", BOOK, "accepted, 4 of 4 tasks judged, at most 8 module calls, 3 findings skipped", 0),
                ("a moved book", moved, "accepted, 4 of 4 tasks judged, at most 8 module calls, 3 findings skipped", 0),
                ("one more", BOOK + TASKS, "refused, 1 finding, 7 of 7 tasks judged, 3 findings skipped", 1),
                ("another name", BOOK.replace("prot", "host"), "refused, 1 finding, 4 of 4 tasks judged", 1)]
        for row, book, verdict, status in rows:
            folder.write("book_yml", book)
            said = folder.check("--baseline", "known.json")
            if said != (f"book.yml: {verdict}", [], status):
                yield f"baseline of {row}: {said}"


def wrong_further_baselines():
    """What a comment silences isn't written, what a baseline silences is; what can't be silenced is told."""
    with tempfile.TemporaryDirectory() as name:
        folder = Folder(name, book_yml=BOOK + SKIPPED)
        folder.check("--write-baseline", "known.json")
        first = folder.keys()
        said = folder.check("--baseline", "known.json", "--write-baseline", "known.json")
        verdict = "book.yml: accepted, 5 of 5 tasks judged, at most 10 module calls, 4 findings skipped"
        if len(first) != 3 or folder.keys() != first or said != (verdict, [], 0):
            yield f"a baseline written anew: {first}, then {folder.keys()}, {said}"
        folder.write("book_yml", PLAY.replace("all", "nowhere"))
        said = folder.check("--write-baseline", "known.json")
        told = "playcheck-ansible: book.yml:1:10: V06 isn't in the baseline: nothing behind it would be judged"
        if folder.keys() or said != ("book.yml: refused, 1 finding, 0 of 0 tasks judged", [told], 1):
            yield f"baseline of a play: {folder.keys()}, {said}"
        said = folder.check("--write-baseline", "gone/known.json")[1:]
        if said != (["playcheck-ansible: gone/known.json: the baseline can't be written: No such file or directory"], 64):
            yield f"baseline in no folder: {said}"


def wrong_files_of_baselines():
    """What is no baseline is told, with its name."""
    member = "finding 1 of the baseline lacks a text of path code play task message"
    rows = [("{", "this is no JSON: "), ("[]", "this is no baseline: "), ('{"findings": 1}', "this is no baseline: "),
            ('{"findings": [1]}', member), ('{"findings": [{"path": "x"}]}', member), (None, "No such file or directory")]
    for text, wanted in rows:
        with tempfile.TemporaryDirectory() as name:
            folder = Folder(name, book_yml=BOOK)
            if text is not None:
                folder.write("known_json", text)
            said, told, status = folder.check("--baseline", "known.json")
        if said or status != 64 or len(told) != 1 or not told[0].startswith(f"playcheck-ansible: known.json: {wanted}"):
            yield f"a baseline of {text}: {said}, {told}, {status}"


def wrong_many_skips():
    """The program is asked for 50 refusals: of 49 all can be silenced, and the 50th counts."""
    for number, verdict, status in [(49, "accepted, 49 of 49 tasks judged, at most 98 module calls, 49 findings skipped", 0),
                                    (50, "refused, 1 finding, 50 of 50 tasks judged, 49 findings skipped", 1)]:
        with tempfile.TemporaryDirectory() as name:
            said = Folder(name, book_yml=PLAY + SKIPPED * number).check()
        if said != (f"book.yml: {verdict}", [], status):
            yield f"{number} comments: {said}"


def wrong_skips_in_formats():
    """In each format a silenced finding is none that counts, and a comment that silences nothing is noted."""
    files = {"book.yml": PLAY + SKIPPED + "    - debug: {msg: x}  # playcheck: skip V03 (why)\n"}
    found = {kind: printed(kind, files=files) for kind in ("sarif", "github", "gitlab", "junit", "json")}
    if any(status for _, status in found.values()):
        yield f"skipped, the status: {found}"
    note = "nothing to skip here: V03"
    results = json.loads(found["sarif"][0])["runs"][0]["results"]
    shown = [(one["ruleId"], one["level"], one["suppressions"], one["locations"][0]["physicalLocation"]["region"]["startLine"])
             for one in results]
    if shown != [("V01", "error", [{"kind": "inSource", "justification": REASON}], 4), ("skip", "note", [], 5)]:
        yield f"skipped, sarif: {shown}"
    verdict = "accepted, 2 of 2 tasks judged, at most 2 module calls, 1 finding skipped"
    if found["github"][0].decode().splitlines() != [f"::notice file=book.yml,line=5,col=24,title=skip::{note}",
                                                    f"book.yml: {verdict}"]:
        yield f"skipped, github: {found['github']}"
    issues = [(one["check_name"], one["severity"], one["description"]) for one in json.loads(found["gitlab"][0])]
    if issues != [("skip", "info", note)]:
        yield f"skipped, gitlab: {issues}"
    suite, = xml.fromstring(found["junit"][0])
    cases = [[one.tag for one in case] for case in suite.iter("testcase")]
    message = suite.find("testcase/skipped").get("message")
    if cases != [["skipped"], []] or not message.endswith(f": skipped by comment: {REASON}") \
            or suite.find("system-out").text != f"book.yml:5:24: {note}\nbook.yml: {verdict}":
        yield f"skipped, junit: {found['junit']}"
    book, = json.loads(found["json"][0])["books"]
    if [(one["code"], one["line"], one["skipped_by"], one["reason"]) for one in book["skipped"]] \
            != [("V01", 4, "comment", REASON)] or book["findings"] or book["verdict"] != "accepted" \
            or [(one["line"], one["column"], one["reason"]) for one in book["skip_notes"]] != [(5, 24, note)]:
        yield f"skipped, json: {book}"


SKIP_SEARCHES = (wrong_baselines, wrong_further_baselines, wrong_files_of_baselines, wrong_many_skips,
                 wrong_skips_in_formats)
