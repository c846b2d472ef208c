# SPDX-License-Identifier: MIT OR Apache-2.0
# Prints reports for pipelines: GitHub's commands, and SARIF 2.1.0; gitlab_junit.py has two more formats.
from __future__ import annotations

from typing import TYPE_CHECKING, Dict, List

from .printing import json_of, line_of
from .problems import Place
from .reports import TOO_FEW, Unjudged
from .wording import message_of, outcome_of, verdict_of

if TYPE_CHECKING:
    from .reports import Finding, Report

SARIF_SCHEMA = "https://json.schemastore.org/sarif-2.1.0.json"
NOT_JUDGED = "not-judged"
TOO_FEW_JUDGED = "too-few-judged"
SKIP = "skip"  # what is noted of comments that are to silence findings


def left_of(report: Report) -> List[Unjudged]:
    """What a report doesn't judge or ask."""
    return [*report.unjudged, *report.notes]


def too_few_of(report: Report) -> List[Unjudged]:
    """The book itself, where its status is that too few of its tasks are judged."""
    return [Unjudged(Place(report.book), "", outcome_of(report))] if report.status == TOO_FEW else []


def sarif_format(reports: List[Report], has_colour: bool) -> str:
    used = sorted({(one.code, one.title) for report in reports for one in (*report.findings, *report.skipped)})
    rules = [{"id": code, "shortDescription": {"text": title}} for code, title in used]
    rules.append({"id": NOT_JUDGED, "shortDescription": {"text": "a task that isn't judged"}})
    if any(report.skip_notes for report in reports):
        rules.append({"id": SKIP, "shortDescription": {"text": "a comment that silences nothing"}})
    if any(map(too_few_of, reports)):
        rules.append({"id": TOO_FEW_JUDGED, "shortDescription": {"text": "a book of which too few tasks are judged"}})
    results = []
    for report in reports:
        for one in report.findings:
            results.append(sarif_result(one.code, "error", message_of(one), one.place))
        for one in report.skipped:
            result = sarif_result(one.code, "error", message_of(one), one.place)
            results.append({**result, "suppressions": [suppression_of(one)]})
        for note in report.skip_notes:
            results.append(sarif_result(SKIP, "note", line_of(note.reason), note.place))
        for left in left_of(report):
            results.append(sarif_result(NOT_JUDGED, "note", line_of(left.reason), left.place))
        for book in too_few_of(report):
            results.append(sarif_result(TOO_FEW_JUDGED, "error", book.reason, book.place))
    if any("suppressions" in result for result in results):
        results = [{"suppressions": [], **result} for result in results]  # wanted of all where one has them
    run = {"tool": {"driver": {"name": "playcheck", "rules": rules}}, "results": results}
    return json_of({"$schema": SARIF_SCHEMA, "version": "2.1.0", "runs": [run]})


def sarif_result(code: str, level: str, text: str, place: Place) -> Dict[str, object]:
    from urllib.parse import quote  # read where it is wanted: no other format writes a URI

    location: Dict[str, object] = {"artifactLocation": {"uri": quote(path_of(place))}}
    if place.line:
        location["region"] = {"startLine": place.line, "startColumn": place.column}
    return {"ruleId": code, "level": level, "message": {"text": text},
            "locations": [{"physicalLocation": location}]}


def suppression_of(finding: Finding) -> Dict[str, object]:
    assert finding.skip is not None, "it is silenced"
    if finding.skip.by == "baseline":
        return {"kind": "external"}
    return {"kind": "inSource", "justification": line_of(finding.skip.reason)}


def path_of(place: Place) -> str:
    path = place.file.replace("\\", "/")
    return path[2:] if path.startswith("./") else path


def github_format(reports: List[Report], has_colour: bool) -> str:
    printed = []
    for report in reports:
        for one in report.findings:
            printed.append(f"::error {github_place(one.place)},title={one.code}::{github_text(message_of(one))}")
        for note in report.skip_notes:
            printed.append(f"::notice {github_place(note.place)},title={SKIP}::{github_text(line_of(note.reason))}")
        for left in left_of(report):
            printed.append(f"::notice {github_place(left.place)},title=not judged::{github_text(line_of(left.reason))}")
        for book in too_few_of(report):
            printed.append(f"::error {github_place(book.place)},title=too few judged::{github_text(book.reason)}")
        printed.append(verdict_of(report))
    return "".join(line + "\n" for line in printed)


def github_place(place: Place) -> str:
    file = github_text(line_of(place.file)).replace(":", "%3A").replace(",", "%2C")
    return f"file={file},line={place.line},col={place.column}" if place.line else f"file={file}"


def github_text(text: str) -> str:
    return text.replace("%", "%25").replace("\r", "%0D").replace("\n", "%0A")
