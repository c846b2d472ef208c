# SPDX-License-Identifier: MIT OR Apache-2.0
# Checks of the sources themselves: python3 tests/house_checks.py.
import json
import re
import sys
from pathlib import Path

from house_counts import lost_citations, lost_definitions, wrong_counts
from house_licences import lost_notices, other_versions, wrong_licences
from house_modules import import_cycles, large_parts
from planted import lost_equals

TOP = Path(__file__).resolve().parent.parent
CITES_A_PROOF = re.compile(r"^\s*(pub |ghost )*use \S*\.proofs\.[^{]*(\{([^}]*)\})?")
# The proof that a ghost field has one value at most.
FIELD_PROOF = re.compile(r"\bby \{[^}]*\}")
COLUMNS = 100
IS_ONE_TEXT = re.compile(r'^\s*(b"|r#").*;$')
# At the margin, so that the methods of a trait, which is public, aren't meant.
IS_PRIVATE = re.compile(r"^((fn|const|struct|enum|type|static) |\s*pub\(crate\) )")
# The crates in which values and kinds are weighed.
WEIGHING = ("pb_value", "pb_kind")
MAKES_WEIGHTS = re.compile(r"\b(Weighed|Weight)::")
COMPARED = 29
SHORT_PAGES = ("README.md", "docs/ARCHITECTURE.md")
PAGE_LINES = 150
CELL = 300
SECTIONS = ["definitions", "values", "expressions", "reading", "paths", "verifier", "run", "program", "tests"]
SECTION = re.compile(r"^#+ (\w+)(:|$)")
LISTED_CRATE = re.compile(r"^(\w+)[^#]*:")
SHOWN_CRATE = re.compile(r"^- \[(\w+)\]\(\1/README\.md\): ")
CODE = re.compile(r"^code_text (\w+) =", re.M)
FENCE = re.compile(r"^```.*?^```$", re.M | re.S)
# A path in a text, but for a bare name and for a folder that many crates have.
PATH = re.compile(r"`([^`\s*]+/[^`\s*]+)`")
LINK = re.compile(r"\]\(([^)\s]+)\)")
# Files of proofs that the prover's answers stand in, and lists of modules.
UNNAMED_PROOFS = ("Answers.antt", "Invariants.antt", "Proof.antt", "Lib.antt")


def sources():
    for folder in ["src", "specs"]:
        for kind in ["*.rt", "*.antt"]:
            yield from sorted((TOP / "crates").glob(f"*/{folder}/**/{kind}"))


def proofs_cited():
    """What is cited of proofs/ by a file of src/ or specs/: only what the proofs of ghost fields name, since all else is a definition."""
    for path in sources():
        text = path.read_text(encoding="utf-8")
        in_proofs = " ".join(FIELD_PROOF.findall(text))
        for number, line in enumerate(text.splitlines(), 1):
            cited = CITES_A_PROOF.match(line)
            names = (cited[3] or "").replace(",", " ").split() if cited else []
            if cited and not (names and all(is_word_of(name, in_proofs) for name in names)):
                yield f"{path.relative_to(TOP)}:{number}: {line.strip()}"


def is_word_of(name, text):
    return re.search(rf"\b{re.escape(name)}\b", text) is not None


def long_lines():
    """No line is longer than 100 columns, but for one that is the whole of a text."""
    for path in sources():
        for number, line in enumerate(path.read_text(encoding="utf-8").splitlines(), 1):
            if len(line) > COLUMNS and not IS_ONE_TEXT.match(line):
                yield f"{path.relative_to(TOP)}:{number}: {len(line)} columns"


def documented_privates():
    """`///` stands on what is public, and `//` on what isn't."""
    for path in (TOP / "crates").glob("*/src/**/*.rt"):
        is_documented = False
        for number, line in enumerate(path.read_text(encoding="utf-8").splitlines(), 1):
            if is_documented and IS_PRIVATE.match(line):
                yield f"{path.relative_to(TOP)}:{number}: {line.strip()}"
            is_documented = line.lstrip().startswith("///") or (is_documented and line.lstrip().startswith("#["))


def makers_of_weights():
    """What a list, a record or a result weighs is said by the crates of values and kinds alone, which prove of each maker that it is so."""
    for path in (TOP / "crates").glob("*/src/**/*.rt"):
        if path.relative_to(TOP / "crates").parts[0] in WEIGHING:
            continue
        for number, line in enumerate(path.read_text(encoding="utf-8").splitlines(), 1):
            if MAKES_WEIGHTS.search(line):
                yield f"{path.relative_to(TOP)}:{number}: {line.strip()}"


def wrong_comparisons():
    """Each faulty book of examples/compared has its verdict in verdicts.json, and a row with it in docs/COMPARED.md."""
    folder = TOP / "examples/compared"
    verdicts = json.loads((folder / "verdicts.json").read_text(encoding="utf-8"))
    books = {path.name for path in folder.glob("*.json")} - {"inventory.json", "verdicts.json"}
    if books != set(verdicts) or len(books) != COMPARED:
        yield f"examples/compared: {len(books)} books and {len(verdicts)} verdicts, wanted {COMPARED} with theirs"
    rows = (TOP / "docs/COMPARED.md").read_text(encoding="utf-8").splitlines()
    for book, verdict in verdicts.items():
        refusal = verdict.removeprefix("refused ")
        if sum(f"/compared/{book}) | {refusal} |" in row for row in rows) != 1:
            yield f"docs/COMPARED.md: no single row of {book} with {refusal}"


def pages():
    """Each page with its text, but for what stands in fences."""
    for path in sorted(TOP.rglob("*.md")):
        folders = path.relative_to(TOP).parts[:-1]
        if not any(folder == "out" or folder.startswith(".") for folder in folders):
            yield path, FENCE.sub("", path.read_text(encoding="utf-8"))


def long_pages():
    """The first page and the map are read at once."""
    for name in SHORT_PAGES:
        count = len((TOP / name).read_text(encoding="utf-8").splitlines())
        if count > PAGE_LINES:
            yield f"{name}: {count} lines"


def by_section(name, crate):
    """The crates that a file names, each with the heading above it."""
    section = None
    for line in (TOP / name).read_text(encoding="utf-8").splitlines():
        heading = SECTION.match(line)
        section = heading[1] if heading else section
        found = crate.match(line)
        if found:
            yield section, found[1]


def lost_crates():
    """crates.txt and crates/README.md have the same crates in the same nine sections, and each crate has its README."""
    listed = list(by_section("crates.txt", LISTED_CRATE))
    shown = list(by_section("crates/README.md", SHOWN_CRATE))
    for section, crate in sorted(set(listed) ^ set(shown), key=str):
        yield f"{crate} stands under {section} in crates.txt or in crates/README.md alone"
    if list(dict.fromkeys(section for section, _ in listed)) != SECTIONS or len(listed) != len(set(listed)):
        yield f"crates.txt: the sections aren't {', '.join(SECTIONS)}, or a crate stands there twice"
    for _, crate in listed:
        if not (TOP / "crates" / crate / "README.md").is_file():
            yield f"crates/{crate}: no README.md"


def lost_codes():
    """docs/REFUSALS.md has each code, with a book and the line that is printed."""
    path = TOP / "docs/REFUSALS.md"
    text = path.read_text(encoding="utf-8") if path.is_file() else ""
    parts = {part.partition(":")[0]: part for part in re.split(r"^### ", text, flags=re.M)[1:]}
    for codes in sorted((TOP / "crates").glob("*/specs/Codes.antt")):
        for code in CODE.findall(codes.read_text(encoding="utf-8")):
            part = parts.get(code, "")
            has_book = re.search(r"^```json book( generated)?$", part, re.M)
            if not has_book or f"```text prints\nrefused {code} line " not in part:
                yield f"docs/REFUSALS.md: no {code} with a book and what is printed"


def long_cells():
    for path, text in pages():
        for line in text.splitlines():
            cells = re.split(r"(?<!\\)\|", line) if line.startswith("|") else []
            if any(len(cell.strip()) > CELL for cell in cells):
                yield f"{path.relative_to(TOP)}: {line[:60]}"


def anchors(path):
    """What a link can name behind a page: its headings, as they are shown on the web."""
    for heading in re.findall(r"^#+ (.*)$", FENCE.sub("", path.read_text(encoding="utf-8")), re.M):
        yield re.sub(r"[^\w\- ]", "", LINK.sub("", heading).lower()).replace(" ", "-")


def lost_links():
    for path, text in pages():
        for link in LINK.findall(text):
            name, _, anchor = link.partition("#")
            target = path.parent / name if name else path
            if ":" not in link and (not target.exists() or (anchor and anchor not in anchors(target))):
                yield f"{path.relative_to(TOP)}: {link}"


def lost_paths():
    """Each path that docs/CHANGING.md names is there: from the top, from crates/, or of the crate that was named last."""
    folder = TOP
    for path in PATH.findall((TOP / "docs/CHANGING.md").read_text(encoding="utf-8")):
        if path.startswith("pb_"):
            folder = TOP / "crates" / path.partition("/")[0]
        places = [folder / path] if path.startswith(("src/", "specs/", "proofs/")) else [TOP / path, TOP / "crates" / path]
        if "NAME" not in path and not any(place.exists() for place in places):
            yield f"docs/CHANGING.md: {path}"


def lost_records():
    """Each file of tests/refused is of a crate, and each of its lines of a wrong program of that crate."""
    for path in sorted((TOP / "tests/refused").glob("*")):
        edits = {edit.stem for edit in (TOP / "crates" / path.name / "wrong").glob("*.edit")}
        for line in path.read_text(encoding="utf-8").splitlines():
            if not re.fullmatch(r"\w+ [0-9a-f]{64}", line) or line.split()[0] not in edits:
                yield f"tests/refused/{path.name}: {line}"


def silent_proofs():
    """Each proof file that is written by hand opens with a line that says what it is for."""
    for path in sorted((TOP / "crates").glob("*/proofs/**/*.antt")):
        if path.name not in UNNAMED_PROOFS and not path.read_text(encoding="utf-8").startswith("-- "):
            yield str(path.relative_to(TOP))


def main():
    checks = [
        ("a file of src/ or specs/ cites a proof", proofs_cited),
        ("a line is too long", long_lines),
        ("`///` on what isn't public", documented_privates),
        ("weights are made elsewhere", makers_of_weights),
        ("a compared book is wrong", wrong_comparisons),
        ("a page is too long", long_pages),
        ("a crate isn't in the map", lost_crates),
        ("a code isn't explained", lost_codes),
        ("a cell of a table is too long", long_cells),
        ("a link leads nowhere", lost_links),
        ("a path of a recipe leads nowhere", lost_paths),
        ("a record is of no wrong program", lost_records),
        ("a module or a function of the front end is too long", large_parts),
        ("modules of the front end need one another", import_cycles),
        ("a proof doesn't say what it is for", silent_proofs),
        ("a script's licence is wrong", wrong_licences),
        ("a licence isn't told", lost_notices),
        ("versions differ", other_versions),
        ("a count isn't today's", wrong_counts),
        ("a list of crates isn't today's", lost_definitions),
        ("what crates cite isn't so", lost_citations),
        ("a bug that changes nothing is of no line", lost_equals),
    ]
    failed = 0
    for name, search in checks:
        found = list(search())
        failed += bool(found)
        for line in found:
            print(f"FAILED: {name}: {line}")
    print(f"{len(checks) - failed} passed, {failed} failed")
    return 1 if failed else 0


if __name__ == "__main__":
    sys.exit(main())
