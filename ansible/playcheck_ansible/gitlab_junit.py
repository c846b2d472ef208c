# SPDX-License-Identifier: MIT OR Apache-2.0
# Prints reports as GitLab's report of code quality and as JUnit's XML.
from __future__ import annotations

import hashlib
import json
import re
import xml.etree.ElementTree as xml
from typing import TYPE_CHECKING, Dict, List, Tuple, Union

from .pipelines import NOT_JUDGED, SKIP, TOO_FEW_JUDGED, left_of, path_of, too_few_of
from .printing import json_of, line_of
from .wording import message_of, not_judged_of, outcome_of, skipped_of, verdict_of, without_lines

if TYPE_CHECKING:
    from .reports import Finding, Report, Unjudged

# What no file of XML 1.0 may hold, also not escaped.
NO_XML = re.compile("[^\t\n\r\x20-\ud7ff\ue000-\ufffd\U00010000-\U0010ffff]")


def gitlab_format(reports: List[Report], has_colour: bool) -> str:
    """A list of issues; a finding keeps its fingerprint where only its line has moved."""
    issues: List[object] = []
    seen: Dict[Tuple[str, ...], int] = {}
    for report in reports:
        found: List[Tuple[str, str, str, Union[Finding, Unjudged]]] = []
        found += [(one.code, "critical", message_of(one), one) for one in report.findings]
        severity = "major" if report.is_strict else "info"
        found += [(NOT_JUDGED, severity, not_judged_text(one), one) for one in left_of(report)]
        found += [(TOO_FEW_JUDGED, "major", one.reason, one) for one in too_few_of(report)]
        found += [(SKIP, "info", line_of(one.reason), one) for one in report.skip_notes]
        for code, severity, text, one in found:
            key = (report.book, code, path_of(one.place), without_lines(text))
            seen[key] = seen.get(key, 0) + 1
            issues.append({"description": text, "check_name": code, "severity": severity,
                           "fingerprint": fingerprint((*key, seen[key])),
                           "location": {"path": path_of(one.place), "lines": {"begin": max(one.place.line, 1)}}})
    return json_of(issues)


def fingerprint(parts: Tuple[object, ...]) -> str:
    return hashlib.sha256(json.dumps(parts).encode()).hexdigest()


def not_judged_text(one: Unjudged) -> str:
    return f"not judged: {not_judged_of(one)}"


def junit_format(reports: List[Report], has_colour: bool) -> str:
    """A suite for each book: a case for each finding and each task that isn't judged, and one of the book."""
    suites = xml.Element("testsuites", name="playcheck")
    for report in reports:
        suite = xml.SubElement(suites, "testsuite", name=xml_text(report.book))
        for one in report.findings:
            add_case(suite, report, one, f"{one.code} {message_of(one)}", "failure", one.code)
        for one in report.skipped:
            add_case(suite, report, one, f"{one.code} {message_of(one)}: {skipped_of(one)}", "skipped", one.code)
        for left in left_of(report):
            outcome = "failure" if report.is_strict else "skipped"
            add_case(suite, report, left, not_judged_text(left), outcome, NOT_JUDGED)
        for book in too_few_of(report):
            add_case(suite, report, book, book.reason, "failure", TOO_FEW_JUDGED)
        if report.status == 0:
            xml.SubElement(suite, "testcase", name=outcome_of(report), classname=xml_text(report.book))
        said = [*(f"{one.place}: {one.reason}" for one in report.skip_notes), verdict_of(report)]
        xml.SubElement(suite, "system-out").text = "\n".join(map(xml_text, said))
        count_cases(suite, suite)
    count_cases(suites, suites)
    xml.indent(suites)
    return f'<?xml version="1.0" encoding="UTF-8"?>\n{xml.tostring(suites, encoding="unicode")}\n'


def add_case(suite: xml.Element, report: Report, one: Finding | Unjudged, text: str, outcome: str, code: str) -> None:
    case = xml.SubElement(suite, "testcase", name=xml_text(text), classname=xml_text(report.book),
                          file=xml_text(one.place.file))
    if one.place.line:
        case.set("line", str(one.place.line))
    told = xml.SubElement(case, outcome, message=xml_text(text))
    if outcome == "failure":
        told.set("type", code)
        told.text = xml_text(f"{one.place}: {text}")


def count_cases(element: xml.Element, below: xml.Element) -> None:
    element.set("tests", str(len(list(below.iter("testcase")))))
    element.set("failures", str(len(list(below.iter("failure")))))
    element.set("errors", "0")
    element.set("skipped", str(len(list(below.iter("skipped")))))


def xml_text(text: str) -> str:
    """A text in one line, with a sign in the place of each letter that XML can't have."""
    return NO_XML.sub("\ufffd", line_of(text))
