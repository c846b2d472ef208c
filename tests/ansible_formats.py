# SPDX-License-Identifier: MIT OR Apache-2.0
# Tries the formats for pipelines that playcheck-ansible prints, against what their publishers want of each file.
import json
import os
import re
import subprocess
import tempfile
import xml.etree.ElementTree as xml
from pathlib import Path

from ansible_tools import SECONDS, TOOL, run_tool

HOSTS = '{"all": {"hosts": ["h1", "h2"]}}'
PLAY = "- hosts: all\n  gather_facts: false\n  tasks:\n"
GOOD = PLAY + '    - debug: {msg: "a & b"}\n'
# Two tasks with one fault, whose names hold what XML has to escape, or can't have, and a task that isn't judged.
BAD = PLAY + '''    - name: "a \\x01\\x1b[31m <b> & \\"c\\" ]]> \\ufffe"
      debug: {msg: "{{ prot }}"}
    - name: "a \\x01\\x1b[31m <b> & \\"c\\" ]]> \\ufffe"
      debug: {msg: "{{ prot }}"}
    - name: "<unknown>"
      apt: {name: nginx}
'''
NAME = 'a \\x01\\x1b[31m <b> & "c" ]]> \ufffd'
TITLE = "a variable that is perhaps undefined"
DETAIL = "'prot' is set nowhere: not in this book, not in the inventory"
UNKNOWN = ("not judged: task '<unknown>': the module `apt` is neither built in nor declared: "
           "ansible-doc isn't installed")
# https://docs.gitlab.com/ci/testing/code_quality/#code-quality-report-format
SEVERITIES = ("info", "minor", "major", "critical", "blocker")


def printed(kind, *words, files=None):
    with tempfile.TemporaryDirectory() as folder:
        for name, text in (files or {"good.yml": GOOD, "bad.yml": BAD}).items():
            Path(folder, name).write_text(text, encoding="utf-8")
        Path(folder, "hosts.json").write_text(HOSTS, encoding="utf-8")
        names = sorted(files or ("bad.yml", "good.yml"))
        done = run_tool(["check", "--format", kind, *words, *names, "-i", "hosts.json"], folder)
        return done.stdout.encode(), done.returncode


def wrong_gitlab():
    """A list of issues, each with the members that GitLab wants; its fingerprints are told apart and last."""
    data, status = printed("gitlab", "--all")
    issues = json.loads(data)
    if data.startswith(b"\xef\xbb\xbf") or status != 1 or len(issues) != 3:
        yield f"gitlab: status {status}, {len(issues)} issues, wanted 1, 3"
    for issue in issues:
        lines = issue["location"]["lines"]["begin"]
        texts = (issue["description"], issue["check_name"], issue["fingerprint"], issue["location"]["path"])
        if not all(isinstance(text, str) and text for text in texts) or issue["severity"] not in SEVERITIES:
            yield f"gitlab: {issue}"
        if not isinstance(lines, int) or lines < 1 or issue["location"]["path"].startswith(("./", "/")):
            yield f"gitlab: {issue}"
    found = [(issue["check_name"], issue["severity"], issue["location"]["lines"]["begin"]) for issue in issues]
    if found != [("V01", "critical", 5), ("V01", "critical", 7), ("not-judged", "info", 9)]:
        yield f"gitlab: {found}"
    marks = [issue["fingerprint"] for issue in issues]
    if len(set(marks)) != 3:
        yield f"gitlab: fingerprints {marks}"
    moved = json.loads(printed("gitlab", "--all", files={"bad.yml": "# one line more\n" + BAD})[0])
    if [issue["fingerprint"] for issue in moved] != marks or moved[0]["location"]["lines"]["begin"] != 6:
        yield f"gitlab: moved {moved}"
    if json.loads(printed("gitlab", files={"good.yml": GOOD})[0]) != []:
        yield "gitlab: an issue of a good book"


def wrong_junit():
    """A suite for each book with a case for each finding, of which each letter can stand in XML 1.0."""
    data, status = printed("junit", "--all")
    if any(byte < 32 and byte not in b"\t\n\r" for byte in data) or status != 1:
        yield f"junit: status {status}, {data!r}"
    suites = xml.fromstring(data)
    found = [[suite.get(name) for name in ("name", "tests", "failures", "errors", "skipped")] for suite in suites]
    if suites.tag != "testsuites" or found != [["bad.yml", "3", "2", "0", "1"], ["good.yml", "1", "0", "0", "0"]]:
        yield f"junit: {found}"
    if [suites.get(name) for name in ("tests", "failures", "errors", "skipped")] != ["4", "2", "0", "1"]:
        yield f"junit: {suites.attrib}"
    text = f"V01 task '{NAME}', host h1: {TITLE}: {DETAIL}"
    wanted = [(text, "bad.yml", line, "failure", "V01", text) for line in ("5", "7")]
    wanted.append((UNKNOWN, "bad.yml", "9", "skipped", None, UNKNOWN))
    cases = [(case.get("name"), case.get("classname"), case.get("line"), case[0].tag, case[0].get("type"),
              case[0].get("message")) for case in suites[0].iter("testcase")]
    if cases != wanted:
        yield f"junit: {cases}, wanted {wanted}"
    good = suites[1].find("testcase")
    if good.get("name") != "accepted, 1 of 1 tasks judged, at most 0 module calls" or len(good):
        yield f"junit: {good.attrib}"
    said = [suite.find("system-out").text for suite in suites]
    if said[0] != "bad.yml: refused, 2 findings, 2 of 3 tasks judged" or not said[1].startswith("good.yml: accepted"):
        yield f"junit: {said}"


def wrong_strict():
    """With --strict what isn't judged fails."""
    book = {"book.yml": PLAY + "    - apt: {name: nginx}\n"}
    data, status = printed("junit", "--strict", files=book)
    cases = [case[0].tag for case in xml.fromstring(data).iter("testcase")]
    severities = [issue["severity"] for issue in json.loads(printed("gitlab", "--strict", files=book)[0])]
    if (status, cases, severities) != (1, ["failure"], ["major"]):
        yield f"strict: {status}, {cases}, {severities}"


def wrong_colours():
    """The code is red on a terminal, unless NO_COLOR is set, and where it is asked for."""
    cases = [("auto", True, {}, True), ("auto", True, {"NO_COLOR": "1"}, False), ("auto", False, {}, False),
             ("always", False, {"NO_COLOR": "1"}, True), ("never", True, {}, False)]
    for choice, is_terminal, given, wanted in cases:
        said = printed_on(is_terminal, ["check", "--color", choice, "bad.yml", "-i", "hosts.json"], given)
        if (": \x1b[1m\x1b[31mV01\x1b[0m task" in said, ": V01 task" in said) != (wanted, not wanted):
            yield f"colours: --color {choice}, a terminal {is_terminal}, {given}: {said!r}"


def printed_on(is_terminal, words, given):
    """What is printed on a terminal, or into a pipe."""
    reader, writer = os.openpty() if is_terminal else os.pipe()
    with tempfile.TemporaryDirectory() as folder:
        Path(folder, "bad.yml").write_text(PLAY + '    - debug: {msg: "{{ gone }}"}\n', encoding="utf-8")
        Path(folder, "hosts.json").write_text(HOSTS, encoding="utf-8")
        others = {name: text for name, text in os.environ.items() if name != "NO_COLOR"}
        subprocess.run([TOOL, *words], cwd=folder, stdout=writer, stdin=subprocess.DEVNULL, check=False,
                       timeout=SECONDS, env={**others, **given})
    said = os.read(reader, 4096).decode()
    os.close(reader)
    os.close(writer)
    return said


# https://docs.oasis-open.org/sarif/sarif/v2.1.0/errata01/os/schemas/sarif-schema-2.1.0.json: of each object that is
# printed the members that it has to have, and all that are printed of those that it may have.
SARIF = {
    "log": ({"version", "runs"}, {"$schema"}),
    "run": ({"tool"}, {"results"}),
    "tool": ({"driver"}, set()),
    "driver": ({"name"}, {"rules"}),
    "rule": ({"id"}, {"shortDescription"}),
    "result": ({"message"}, {"ruleId", "level", "locations"}),
    "message": ({"text"}, set()),
    "location": (set(), {"physicalLocation"}),
    "physicalLocation": ({"artifactLocation"}, {"region"}),
    "artifactLocation": (set(), {"uri"}),
    "region": (set(), {"startLine", "startColumn"}),
}
LEVELS = ("none", "note", "warning", "error")
# https://www.rfc-editor.org/rfc/rfc3986#section-2: a reference has these letters alone.
REFERENCE = re.compile(r"(?:[A-Za-z0-9._~:/?#@!$&'()*+,;=\[\]-]|%[0-9A-F]{2})+")


def wrong_members(kind, found):
    """An object of SARIF that lacks a member, or has one that the schema doesn't know."""
    wanted, allowed = SARIF[kind]
    if not wanted <= set(found) <= wanted | allowed:
        yield f"sarif: a {kind} has the members {sorted(found)}"


def wrong_sarif():
    """The members of SARIF 2.1.0, and what its schema says of their values."""
    log = json.loads(printed("sarif", "--all", files={"a b#é.yml": BAD, "good.yml": GOOD})[0])
    run, = log["runs"]
    driver = run["tool"]["driver"]
    for kind, found in [("log", log), ("run", run), ("tool", run["tool"]), ("driver", driver),
                        *(("rule", rule) for rule in driver["rules"])]:
        yield from wrong_members(kind, found)
    if log["version"] != "2.1.0" or driver["name"] != "playcheck" or len(run["results"]) != 3:
        yield f"sarif: {log}"
    rules = [rule["id"] for rule in driver["rules"]]
    if len(set(rules)) != len(rules):
        yield f"sarif: a rule stands twice in {rules}"
    for result in run["results"]:
        yield from wrong_result(result, rules)


def wrong_result(result, rules):
    location, = result["locations"]
    physical = location["physicalLocation"]
    artifact, region = physical["artifactLocation"], physical["region"]
    for kind, found in [("result", result), ("message", result["message"]), ("location", location),
                        ("physicalLocation", physical), ("artifactLocation", artifact), ("region", region)]:
        yield from wrong_members(kind, found)
    if not result["message"]["text"] or result["ruleId"] not in rules or result["level"] not in LEVELS:
        yield f"sarif: {result}"
    if artifact["uri"] != "a%20b%23%C3%A9.yml" or not REFERENCE.fullmatch(artifact["uri"]) or min(region.values()) < 1:
        yield f"sarif: {physical}"
