# SPDX-License-Identifier: MIT OR Apache-2.0
# Prints reports: for people with the place and a caret, and as JSON; pipelines.py has the other formats.
from __future__ import annotations

from typing import TYPE_CHECKING, Dict, List, Tuple

from .pipelines import github_format, sarif_format
from .positions import read_bytes
from .printing import json_of, line_of
from .problems import Place, Problem
from .wording import message_of, not_judged_of, verdict_of

if TYPE_CHECKING:
    from .reports import Finding, Report, Unjudged

RED, BOLD, PLAIN = "\033[31m", "\033[1m", "\033[0m"


def excerpt(place: Place, lines: List[str]) -> List[str]:
    """The line of a place with a caret under its column."""
    if not 0 < place.line <= len(lines):
        return []
    before, after = (excerpted(part) for part in divided(lines[place.line - 1], place.column - 1))
    blank = "".join("\t" if letter == "\t" else " " for letter in before)
    return [f"{place.line:>5} | {before}{after}", f"{'':5} | {blank}^"]


def divided(text: str, at: int) -> Tuple[str, str]:
    return text[:at], text[at:]


def excerpted(text: str) -> str:
    """A part of a line of a file, with its tabs."""
    return "\t".join(map(line_of, text.split("\t")))


class Sources:
    """The lines of the files that are shown, each read once."""

    def __init__(self) -> None:
        self.files: Dict[str, List[str]] = {}

    def lines(self, path: str) -> List[str]:
        if path not in self.files:
            try:
                self.files[path] = read_bytes(path).decode("utf-8-sig", "replace").splitlines()
            except Problem:
                self.files[path] = []
        return self.files[path]


def text_format(reports: List[Report], has_colour: bool) -> str:
    sources = Sources()
    printed = []
    for report in reports:
        for finding in report.findings:
            code = f"{BOLD}{RED}{finding.code}{PLAIN}" if has_colour else finding.code
            printed.append(f"{line_of(str(finding.place))}: {code} {message_of(finding)}")
            printed += excerpt(finding.place, sources.lines(finding.place.file))
            if finding.help:
                printed.append(f"      help: {line_of(finding.help)}")
        printed += [f"{line_of(str(one.place))}: not judged: {not_judged_of(one)}" for one in report.unjudged]
        printed += [f"{line_of(str(one.place))}: not asked: {line_of(one.reason)}" for one in report.notes]
        printed += [f"{line_of(str(one.place))}: note: {line_of(one.reason)}" for one in report.skip_notes]
        printed.append(verdict_of(report))
    return "".join(line + "\n" for line in printed)


def json_format(reports: List[Report], has_colour: bool) -> str:
    return json_of({"books": [book_json(report) for report in reports]})


def book_json(report: Report) -> Dict[str, object]:
    return {
        "book": report.book,
        "verdict": report.verdict,
        "status": report.status,
        "tasks": report.tasks,
        "judged": report.judged,
        "left_out": report.left_out,
        "budget": report.budget if report.is_accepted and report.is_whole and report.has_bound else None,
        "findings": [finding_json(one) for one in report.findings],
        "skipped": [{**finding_json(one), **skip_json(one)} for one in report.skipped],
        "not_judged": [place_json(one) for one in report.unjudged],
        "not_asked": [place_json(one) for one in report.notes],
        "skip_notes": [place_json(one) for one in report.skip_notes],
    }


def finding_json(one: Finding) -> Dict[str, object]:
    return {"code": one.code, "title": one.title, "file": one.place.file, "line": one.place.line,
            "column": one.place.column, "kind": one.kind, "name": one.name, "play": one.play, "host": one.host or None,
            "detail": one.detail, "help": one.help, "counted_line": one.number}


def skip_json(one: Finding) -> Dict[str, object]:
    return {"skipped_by": one.skip.by, "reason": one.skip.reason or None} if one.skip is not None else {}


def place_json(one: Unjudged) -> Dict[str, object]:
    return {"file": one.place.file, "line": one.place.line, "column": one.place.column, "name": one.name,
            "reason": one.reason}


def gitlab_format(reports: List[Report], has_colour: bool) -> str:
    from .gitlab_junit import gitlab_format as printed  # read where it is wanted: it takes as long as all the rest

    return printed(reports, has_colour)


def junit_format(reports: List[Report], has_colour: bool) -> str:
    from .gitlab_junit import junit_format as printed

    return printed(reports, has_colour)


FORMATS = {"text": text_format, "json": json_format, "sarif": sarif_format, "github": github_format,
           "gitlab": gitlab_format, "junit": junit_format}
