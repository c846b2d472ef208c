# SPDX-License-Identifier: MIT OR Apache-2.0
# Checks of the program itself: its command line, files that can't be read, hostile files, the examples.
import json
import os
import random
import re

from check import FOLDER, Check, Cost, Growth, Pieces, exactly
from house_licences import version

ONE_HOST = '{"all":{"hosts":["h1"]}}'
PING_BOOK = '[{"hosts":"all","tasks":[{"ping":null,"register":"p","when":"1 == 1"}]}]'
PING_ANSWERS = '{"h1":[{"ping":"pong"}]}'
FILES = {"book": "[]", "inventory": ONE_HOST, "answers": "{}", "signatures": "[]"}

CHECK = ["check", "book", "-i", "inventory"]
RUN = ["run", "book", "-i", "inventory", "--answers", "answers"]

NOTHING_DONE = "h1 : ok=0 changed=0 unreachable=0 failed=0 skipped=0 rescued=0 ignored=0\n"
VERDICT = re.compile(rb"accepted budget \d+\n|refused [A-Z]\d\d line \d+ host (-|[A-Za-z0-9._-]{1,253})\n")
COUNTS = rb"ok=\d+ changed=\d+ unreachable=\d+ failed=\d+ skipped=\d+ rescued=\d+ ignored=\d+\n"
RECAP = re.compile(rb"([A-Za-z0-9._-]{1,253} : " + COUNTS + rb")*")


def program_checks(top):
    return [
        *command_lines(),
        *fork_counts(),
        *long_forms(),
        *unreadable_files(),
        *unwritable_output(),
        *pipes(),
        *standard_inputs(),
        *not_json(),
        *other_forms(),
        *odd_json(),
        *answer_shapes(),
        *signature_files(),
        *grown_values(),
        *hostile_books(),
        *growths(),
        *random_files(),
        *examples(top / "examples"),
    ]


MISSING = "No such file or directory"

# What is wanted.


def refused(code, line=0):
    return exactly(f"refused {code} line {line} host -\n", 1)


def usage(said=b""):
    """Wants status 64, nothing on standard output, and on standard error something that holds this."""

    def judge(outcome):
        if outcome.status == 64 and not outcome.stdout and outcome.stderr and said in outcome.stderr:
            return ""
        return f"status 64, empty stdout, {said!r} in stderr"

    return judge


def cannot_read(name, reason=MISSING):
    """Wants the line about a file that can't be read, with the system's reason, and no other."""

    def judge(outcome):
        line = f"playcheck: cannot read {name}: {reason}\n".encode()
        if (outcome.status, outcome.stdout, outcome.stderr) == (64, b"", line):
            return ""
        return f"status 64, empty stdout, stderr {line!r}"

    return judge


def help_shown(outcome):
    if outcome.status == 0 and not outcome.stdout and outcome.stderr:
        return ""
    return "status 0, empty stdout, a help text on stderr"


def usage_named(outcome):
    """Wants the status of a help text or a bad line, and usage lines that name the program as it is called here."""
    if outcome.stdout or b"Usage: playcheck" not in outcome.stderr or b"pb_cli" in outcome.stderr:
        return "empty stdout, 'Usage: playcheck' and no 'pb_cli' in stderr"
    return ""


def version_shown(outcome):
    wanted = f"playcheck {version()}\n".encode()
    if (outcome.status, outcome.stdout, outcome.stderr) == (0, wanted, b""):
        return ""
    return f"status 0, stdout {wanted!r}, empty stderr"


def unwritten(outcome):
    return "" if outcome.status == 64 else "status 64"


def some_answer(outcome):
    """Wants a verdict or a recap, whichever it is, with a status that goes with it."""
    if VERDICT.fullmatch(outcome.stdout):
        wanted = [1 if outcome.stdout.startswith(b"refused") else 0]
    elif RECAP.fullmatch(outcome.stdout):
        wanted = [0, 2, 4]
    else:
        return "a verdict or a recap"
    return "" if outcome.status in wanted else f"a status of {wanted}"


def some_answer_but(code):
    """Wants any answer save the refusal with this code."""

    def judge(outcome):
        if outcome.stdout.startswith(f"refused {code} ".encode()):
            return f"no {code}"
        return some_answer(outcome)

    return judge


# The command line.


def command_lines():
    lines = [
        ("no-words", [], usage()),
        ("help", ["--help"], help_shown),
        ("help-of-check", ["check", "--help"], help_shown),
        ("help-of-run", ["run", "--help"], help_shown),
        ("usage-of-help", ["--help"], usage_named),
        ("usage-of-help-of-check", ["check", "--help"], usage_named),
        ("usage-of-help-of-run", ["run", "--help"], usage_named),
        ("usage-of-unknown-option", ["--nope"], usage_named),
        ("usage-of-unknown-option-of-run", [*RUN, "-x"], usage_named),
        ("version", ["--version"], version_shown),
        ("version-in-short", ["-V"], version_shown),
        ("version-of-check", [*CHECK, "--version"], usage(b"--version")),
        ("unknown-command", ["test", "book", "-i", "inventory"], usage()),
        ("unknown-option", ["--nope"], usage()),
        ("unknown-option-of-check", [*CHECK, "--nope"], usage()),
        ("unknown-option-of-run", [*RUN, "-x"], usage()),
        ("check-without-book", ["check", "-i", "inventory"], usage()),
        ("check-without-inventory", ["check", "book"], usage()),
        ("check-with-two-books", [*CHECK, "book"], usage()),
        ("check-with-answers", [*CHECK, "--answers", "answers"], usage()),
        ("check-with-forks", [*CHECK, "-f", "5"], usage()),
        ("option-without-value", ["check", "book", "-i"], usage()),
        ("run-without-answers-or-modules", ["run", "book", "-i", "inventory"], usage()),
        ("run-with-answers-and-modules", [*RUN, "--modules", "."], usage()),
    ]
    return [Check(f"line-{name}", words, judge, FILES) for name, words, judge in lines]


def fork_counts():
    bad = ["0", "257", "65536", "99999999999999999999", "abc", "1.5", "", "-1"]
    refusals = [Check(f"forks-{n or 'empty'}", [*RUN, "-f", n], usage(), FILES) for n in bad]
    fine = [Check(f"forks-{n}", [*RUN, "-f", n], exactly(NOTHING_DONE, 0), FILES) for n in ["1", "256"]]
    return refusals + fine


def long_forms():
    check = ["check", "book", "--inventory", "inventory"]
    run = ["run", "book", "--inventory", "inventory", "--forks", "7", "--answers", "answers"]
    accepted = exactly("accepted budget 0\n", 0)
    return [
        Check("long-inventory", check, accepted, FILES),
        Check("long-forks", run, exactly(NOTHING_DONE, 0), FILES),
        Check("short-signatures", [*CHECK, "-s", "signatures"], accepted, FILES),
        Check("long-signatures", [*check, "--signatures", "signatures"], accepted, FILES),
    ]


# Files that can't be read, and an output that can't be written.


def unreadable_files():
    words = ["run", "book", "-i", "inventory", "-s", "signatures", "--answers", "answers"]
    order = ["book", "inventory", "signatures", "answers"]
    checks = []
    for at, name in enumerate(order):
        others = {key: text for key, text in FILES.items() if key != name}
        earlier = {key: FILES[key] for key in order[:at]}
        checks += [
            Check(f"missing-{name}", words, cannot_read(name), others),
            Check(f"folder-as-{name}", words, cannot_read(name, "Is a directory"), {**others, name: FOLDER}),
            Check(f"missing-from-{name}-on", words, cannot_read(name), earlier),
        ]
    checks += [
        Check("missing-answers-of-refused-book", RUN, cannot_read("answers"), {**FILES_BUT_ANSWERS, "book": "["}),
        Check("file-as-folder", ["check", "book/x", "-i", "inventory"], cannot_read("book/x", "Not a directory"), FILES),
    ]
    if os.geteuid() != 0:  # root may read every file
        secret = "/etc/shadow"
        checks.append(Check("no-permission", ["check", secret, "-i", "inventory"], cannot_read(secret, "Permission denied"), FILES))
    return checks


FILES_BUT_ANSWERS = {name: text for name, text in FILES.items() if name != "answers"}


def unwritable_output():
    refusal = {**FILES, "book": "["}
    return [
        Check("full-verdict", CHECK, unwritten, FILES, "/dev/full"),
        Check("full-refusal", CHECK, unwritten, refusal, "/dev/full"),
        Check("full-recap", RUN, unwritten, FILES, "/dev/full"),
    ]


def pipes():
    """Files that come in pieces: a read that gives little isn't the end."""
    book = Pieces(tuple(PING_BOOK))
    inventory = Pieces(("{", '"all":{"hosts":["h1"]}', "}", " " * 5000, "\n"))
    accepted = exactly("accepted budget 1\n", 0)
    return [
        Check("pipe-book", CHECK, accepted, {**FILES, "book": book}),
        Check("pipe-inventory", CHECK, accepted, {**FILES, "book": PING_BOOK, "inventory": inventory}),
        Check("pipe-cut", CHECK, refused("P01"), {**FILES, "book": Pieces(("[", "[]"))}),
    ]


def standard_inputs():
    """Files in whose place `-` stands: standard input, which can stand for one of them."""
    files = {**FILES, "book": PING_BOOK, "answers": PING_ANSWERS}
    accepted = exactly("accepted budget 1\n", 0)
    done = exactly(NOTHING_DONE.replace("ok=0", "ok=1"), 0)
    twice = usage(b"playcheck: standard input stands for one file\n")
    read = [
        ("book", ["check", "-", "-i", "inventory"], accepted),
        ("inventory", ["check", "book", "-i", "-"], accepted),
        ("signatures", ["check", "book", "-i", "inventory", "-s", "-"], accepted),
        ("answers", ["run", "book", "-i", "inventory", "--answers", "-"], done),
    ]
    checks = [Check(f"stdin-{name}", words, judge, files, stdin=name) for name, words, judge in read]
    for words in [["check", "-", "-i", "-"], ["run", "-", "-i", "inventory", "--answers", "-"]]:
        checks.append(Check(f"stdin-twice-{words[0]}", words, twice, files, stdin="book"))
    return checks + [
        Check("stdin-pipe", ["check", "-", "-i", "inventory"], accepted, {**files, "book": Pieces(tuple(PING_BOOK))}, stdin="book"),
        Check("stdin-empty", ["check", "-", "-i", "inventory"], refused("P01"), files),
        Check("stdin-named", ["check", "./-", "-i", "inventory"], accepted, {**files, "-": PING_BOOK}),
    ]


# Hostile files. Each place is a file, the words that read it, its code for what isn't JSON, and a sound text.

PLACES = [
    ("book", CHECK, "P01", PING_BOOK),
    ("inventory", CHECK, "I01", ONE_HOST),
    ("answers", RUN, "A01", PING_ANSWERS),
]


def not_json():
    checks = []
    for place, words, code, sound in PLACES:
        for name, content in broken_texts(sound):
            checks.append(Check(f"{place}-{name}", words, refused(code), {**FILES, place: content}))
    return checks


def broken_texts(sound):
    """Names and contents that aren't JSON; among them each proper prefix of a sound text, from the empty one."""
    prefixes = [(f"prefix-{n}", sound[:n]) for n in range(len(sound))]
    return prefixes + [
        ("blanks", " \t\r\n"),
        ("two-values", sound + sound),
        ("zero-byte", sound + "\0"),
        ("byte-order-mark", "\ufeff" + sound),
        ("utf-16", sound.encode("utf-16")),
        ("lone-byte", b'["\xff"]'),
        ("cut-utf-8", b'["\xe2\x82"]'),
        ("overlong-utf-8", b'["\xc0\xaf"]'),
        ("surrogate", b'["\\ud800"]'),
        ("single-quotes", sound.replace('"', "'")),
        ("trailing-comma", sound[:-1] + "," + sound[-1]),
        ("comment", sound + "// x"),
        ("not-a-number", "NaN"),
        ("128-lists", "[" * 128 + "]" * 128),
        ("100000-lists", "[" * 100_000),
        ("100000-objects", '{"a":' * 100_000),
    ]


def other_forms():
    """Of a file that is no JSON it is said what reads it, where its first line says what it is."""
    forms = {
        "book": {
            "YAML": ["- hosts: all\n", "---\n- hosts: all\n", "\n# A book.\n--- # of plays\n", "hosts: all\r\n", "  hosts:\n"],
            "INI": ["[web]\nh1\n"],
            "": ["", "# A comment.\n", "-1e\n", "{'hosts': 'all'}\n", '[{"hosts": "all"}\n', "hosts\n", '"hosts": "all"\n'],
        },
        "inventory": {
            "YAML": ["all:\n  hosts:\n    h1:\n"],
            "INI": ["[web]\nh1\n", "[web:vars]\n", "# Hosts.\nh1 ansible_host=10.0.0.1 x=1\n"],
            "": ["{all: {hosts: [h1]}}\n", "[1]]\n", "[web\n", "[we b]\n", "[]]\n", 'a"all":{"x=y": 1}\n', "x:y\n", "h1 =\n"],
        },
    }
    codes = {place: code for place, _, code, _ in PLACES}
    return [
        Check(f"{place}-{form or 'neither'}-{number}", CHECK, named_form(codes[place], place, form), {**FILES, place: content})
        for place, found in forms.items()
        for form, contents in found.items()
        for number, content in enumerate(contents)
    ]


def named_form(code, place, form):
    told = f"playcheck: {place} looks like {form}, which playcheck-ansible reads\n" if form else ""

    def judge(outcome):
        return refused(code)(outcome) or ("" if outcome.stderr == told.encode() else f"stderr {told!r}")

    return judge


def odd_json():
    deep = "[" * 127 + "]" * 127
    twice_hosts = '[{"hosts":"zz","hosts":"all","tasks":[]}]'
    twice_all = '{"all":{"hosts":["b"]},"all":{"hosts":["h1"]}}'
    twice_h1 = '{"h1":[1],"h1":[{"ping":"pong"}]}'
    done = NOTHING_DONE.replace("ok=0", "ok=1")
    return [
        Check("book-127-lists", CHECK, refused("P02", 1), {**FILES, "book": deep}),
        Check("inventory-127-lists", CHECK, some_answer_but("I01"), {**FILES, "inventory": deep}),
        Check("answers-127-lists", RUN, refused("A02"), {**FILES, "answers": deep}),
        Check("book-repeated-key", CHECK, exactly("accepted budget 0\n", 0), {**FILES, "book": twice_hosts}),
        Check("inventory-repeated-key", RUN, exactly(NOTHING_DONE, 0), {**FILES, "inventory": twice_all}),
        Check(
            "answers-repeated-key",
            RUN,
            exactly(done, 0),
            {**FILES, "book": PING_BOOK, "answers": twice_h1},
        ),
    ]


def answer_shapes():
    shapes = [
        ("a-list", "[]", refused("A02")),
        ("null", "null", refused("A02")),
        ("a-text", '"x"', refused("A02")),
        ("number-for-list", '{"h1":1}', refused("A02")),
        ("list-of-a-number", '{"h1":[1]}', refused("A02")),
        ("bad-list-of-no-host", '{"zz":[1]}', refused("A02")),
        ("host-unknown", '{"zz":[]}', exactly(NOTHING_DONE, 0)),
        ("more-than-calls", '{"h1":[{},{}]}', exactly(NOTHING_DONE, 0)),
    ]
    checks = [Check(f"answers-{name}", RUN, judge, {**FILES, "answers": text}) for name, text, judge in shapes]
    books = [("P01", 0, "["), ("V07", 2, '[{"hosts":"all","tasks":[{"command":{}}]}]')]
    for code, line, book in books:
        files = {**FILES, "book": book, "answers": "["}
        checks.append(Check(f"answers-after-{code}", RUN, refused(code, line), files))
    return checks


# Values that the lines of a book build up.


def nested(lines):
    """30 lists more round a variable at each of so many lines."""
    value = json.loads("[" * 30 + '"{{ x }}"' + "]" * 30)
    return [{"set_fact": {"x": 1}}] + [{"set_fact": {"x": value}}] * lines


def doubled(lines, twice):
    """A variable that has the one before it twice, at each of so many lines."""
    first = [{"set_fact": {"a0": 1}}]
    return first + [{"set_fact": {f"a{n + 1}": twice("{{ a%d }}" % n)}} for n in range(lines)]


def grown_values():
    as_list = lambda text: [text, text]
    as_record = lambda text: {"f": text, "g": text}
    accepted = exactly("accepted budget 0\n", 0)
    books = [
        ("510-levels", nested(17), CHECK, accepted),
        ("540-levels", nested(18), CHECK, no_memory),
        ("69000-levels", nested(2_300), CHECK, no_memory),
        ("records-doubled-12-times", doubled(12, as_record), CHECK, accepted),
        ("records-doubled-24-times", doubled(24, as_record), CHECK, no_memory),
        ("lists-doubled-40-times", doubled(40, as_list), CHECK, accepted),
        ("lists-doubled-40-times-run", doubled(40, as_list), RUN, no_memory),
    ]
    return [Check(f"values-{name}", words, judge, {**FILES, "book": book_of(tasks)}) for name, tasks, words, judge in books]


# What a book may cost: processor time and memory, and how they grow with it.

MOST_SECONDS = 2
MOST_MEGABYTES = 2_048
MOST_GROWTH = 2.5  # where a book is twice as large
GLIMPSE = 0.05  # a time that says nothing of its growth


# Files of signatures: the order of the files, limits to the last byte and level, and hostile ones.


FLAG = {"kind": "bool", "always": True}
TEXT = {"kind": "text", "always": True}
SIGNED = ["check", "book", "-i", "inventory", "-s", "signatures"]


def module_of(name="probe", params=None, ok=None):
    failure = {"changed": FLAG, "msg": TEXT}
    return {"name": name, "params": params or {}, "ok": {"changed": FLAG, **(ok or {})}, "failure": failure}


def nested_kind(levels):
    kind = "int"
    for _ in range(levels):
        kind = {"list": kind, "max": 1}
    return {"p": {"kind": kind, "required": False}}


def signature_files():
    accepted = exactly("accepted budget 0\n", 0)
    fields = lambda count: {f"f{n}": {"kind": "int", "always": False} for n in range(count)}
    files = {
        "none": ([], accepted),
        "8-levels": ([module_of(params=nested_kind(8))], accepted),
        "9-levels": ([module_of(params=nested_kind(9))], refused("S05")),
        "60-levels": ([module_of(params=nested_kind(60))], refused("S05")),
        "64-fields": ([module_of(ok=fields(63))], accepted),
        "65-fields": ([module_of(ok=fields(64))], refused("S05")),
        "20000-fields": ([module_of(ok=fields(20_000))], refused("S05")),
        "name-of-64": ([module_of("a" * 64)], accepted),
        "name-of-65": ([module_of("a" * 65)], refused("S02")),
        "name-twice": ([module_of(), module_of()], refused("S04")),
        "law-before-form-later": ([module_of(ok={"results": TEXT}), 5], refused("S03")),
    }
    text = {name: (json.dumps(modules), judge) for name, (modules, judge) in files.items()}
    text["not-utf8"] = (b'["\xff"]', refused("S01"))
    text["largest"] = ("[]" + " " * 1_048_574, accepted)
    text["too-large"] = ("[]" + " " * 1_048_575, refused("S05"))
    checks = [Check(f"signatures-{name}", SIGNED, judge, {**FILES, "signatures": content}) for name, (content, judge) in text.items()]
    bad = {"book": "[", "inventory": "[", "signatures": "["}
    return checks + [
        Check("signatures-first", SIGNED, refused("S01"), {**FILES, **bad}),
        Check("inventory-second", SIGNED, refused("I01"), {**FILES, **bad, "signatures": "[]"}),
        Check("book-last", SIGNED, refused("P01"), {**FILES, "book": "["}),
    ]


def hostile_books():
    as_list = lambda text: [text, text]
    as_record = lambda text: {"f": text, "g": text}
    maybe = {"when": "inventory_hostname == 'q'"}
    twenty = doubled(20, as_record)
    books = {
        "lists-nest": nested(2_300),
        "records-nest": records_nest(1_700),
        "lists-nest-and-compare": nested(1_400) + [shown("{{ x == x }}")],
        "records-compare": doubled(24, as_record) + [shown("{{ a24 == a24 }}")],
        "lists-compare": doubled(40, as_list) + [shown("{{ a40 == a40 }}")],
        "list-of-records": listed_records(4_000),
        "fields-line-by-line": fields_by_line(2_000),
        "lines-of-a-variable": lines_of_a_variable(400),
        "one-record-twice": twenty + [shown(["{{ a20 }}"] * 2)],
        "one-record-set-twice": twenty + [{"set_fact": {"z": "{{ a20 }}"}}, {"set_fact": {"z": "{{ a20 }}"}, **maybe}],
    }
    return [
        Cost(f"hostile-{name}-{words[0]}", words, within_bars, {**FILES, "book": book_of(tasks)})
        for name, tasks in books.items()
        for words in [CHECK, RUN]
    ]


def within_bars(outcome):
    """Wants an answer within the processor time and the memory."""
    is_answer = outcome.status in (0, 1, 3)
    if is_answer and outcome.seconds <= MOST_SECONDS and outcome.megabytes <= MOST_MEGABYTES:
        return ""
    return f"an answer in {MOST_SECONDS} s and {MOST_MEGABYTES} MB"


def growths():
    rows = [
        ("list-of-records", listed_records, 4_000),
        ("lines-of-many-fields", lines_of_many_fields, 200),
        ("lines-of-a-variable", lines_of_a_variable, 200),
    ]
    return [
        Growth(
            f"growth-{name}",
            CHECK,
            grows_little,
            {**FILES, "book": book_of(tasks(number))},
            larger={**FILES, "book": book_of(tasks(2 * number))},
        )
        for name, tasks, number in rows
    ]


def grows_little(outcome):
    is_little = outcome.seconds < GLIMPSE or outcome.growth <= MOST_GROWTH
    if outcome.status == 0 and is_little:
        return ""
    return f"accepted, in at most {MOST_GROWTH} times the time for twice as much"


def shown(message):
    return {"debug": {"msg": message}}


def records_nest(lines):
    """30 records more round a variable at each of so many lines."""
    value = json.loads('{"f":' * 30 + '"{{ x }}"' + "}" * 30)
    return [{"set_fact": {"x": 1}}] + [{"set_fact": {"x": value}}] * lines


def listed_records(records):
    """A list of so many records, each with a field of its own."""
    return [shown([{f"f{n}": 1} for n in range(records)])]


def fields_by_line(lines):
    """A record to which each of so many lines may add a field."""
    added = [{"set_fact": {"x": {f"f{n}": 1}}, "when": "inventory_hostname == 'h1'"} for n in range(lines)]
    return [{"set_fact": {"x": {}}}] + added


def lines_of_many_fields(lines):
    """A record of 20,000 fields to which each of so many lines may add one."""
    many = {f"f{n}": 1 for n in range(20_000)}
    added = {"set_fact": {"x": {"g": 1}}, "when": "inventory_hostname == 'h1'"}
    return [{"set_fact": {"x": many}}] + [added] * lines


def lines_of_a_variable(lines):
    """A variable that so many lines may set to a record of 20,000 fields, which is another variable's."""
    many = {f"f{n}": 1 for n in range(20_000)}
    added = {"set_fact": {"x": "{{ y }}"}, "when": "inventory_hostname == 'h1'"}
    return [{"set_fact": {"y": many}}, {"set_fact": {"x": {}}}] + [added] * lines


def book_of(tasks):
    return json.dumps([{"hosts": "all", "tasks": tasks}])


def no_memory(outcome):
    is_so = outcome.status == 3 and outcome.stdout == b"" and outcome.stderr == b"playcheck: want of memory\n"
    return "" if is_so else "want of memory"


# Random files, the same ones each time.


def random_files():
    checks = []
    source = random.Random(20)
    for place, words, code, sound in PLACES:
        for number in range(40):
            content = source.randbytes(source.randrange(1, 200))
            checks.append(random_check(f"{place}-random-{number}", words, place, content, code))
        for number in range(120):
            content = changed(source, sound.encode())
            checks.append(random_check(f"{place}-changed-{number}", words, place, content, code))
    return checks


def random_check(name, words, place, content, code):
    judge = some_answer if python_reads(content) else refused(code)
    book = PING_BOOK if place == "answers" else "[]"
    return Check(name, words, judge, {**FILES, "book": book, place: content})


def changed(source, content):
    """One to three bytes taken away, put in or replaced."""
    content = bytearray(content)
    for _ in range(source.randrange(1, 4)):
        at = source.randrange(len(content))
        new = source.choice([source.randrange(256), source.choice(b'[]{}",:0aeE.-\\')])
        content[at : at + source.randrange(2)] = source.choice([b"", bytes([new])])
    return bytes(content)


def python_reads(content):
    """Whether Python reads it as JSON; it reads some texts more than JSON has, and none less."""
    try:
        json.loads(content.decode())
        return True
    except (ValueError, RecursionError):
        return False


# The examples.


def examples(folder):
    first, settings, signed, faulty = (folder / name for name in ["first", "settings", "signed", "faulty"])
    signatures = ["-s", str(signed / "signatures.json")]
    return [
        Check("example-first", words_of("check", first), exactly("accepted budget 4\n", 0)),
        Check("example-settings", words_of("check", settings), exactly("accepted budget 6\n", 0)),
        Check("example-signed", [*words_of("check", signed), *signatures], exactly("accepted budget 2\n", 0)),
        Check("example-faulty", words_of("check", faulty), exactly("refused V03 line 5 host web1\n", 1)),
        *runs(first, FIRST_RECAP),
        *runs(settings, SETTINGS_RECAP),
        *runs(signed, SIGNED_RECAP, signatures),
        *runs(folder / "site", SITE_RECAP),
        *runs(folder / "site", BAD_DAY_RECAP, answers="answers_of_a_bad_day.json", status=2),
        *site(folder / "site"),
        *compared(folder / "compared"),
    ]


# What the tasks of each come to by hand: all, the third, fifth and sixth changed;
FIRST_RECAP = "web1 : ok=7 changed=3 unreachable=0 failed=0 skipped=0 rescued=0 ignored=0\n"
# all but the page, which isn't there, and the folder, the settings, the service and the count changed;
SETTINGS_RECAP = "web1 : ok=6 changed=4 unreachable=0 failed=0 skipped=1 rescued=0 ignored=0\n"
# the probe, and the start, which changed something.
SIGNED_RECAP = "web1 : ok=2 changed=1 unreachable=0 failed=0 skipped=0 rescued=0 ignored=0\n"

# What each host's tasks come to where the machines of the site answer as in its answers.json, as its README counts them.
SITE_RECAP = """\
lb1 : ok=17 changed=9 unreachable=0 failed=0 skipped=1 rescued=0 ignored=0
db1 : ok=23 changed=9 unreachable=0 failed=0 skipped=3 rescued=0 ignored=0
db2 : ok=18 changed=4 unreachable=0 failed=0 skipped=7 rescued=0 ignored=0
web1 : ok=35 changed=15 unreachable=0 failed=0 skipped=9 rescued=0 ignored=0
web2 : ok=36 changed=17 unreachable=0 failed=0 skipped=9 rescued=0 ignored=0
web3 : ok=23 changed=4 unreachable=0 failed=0 skipped=21 rescued=0 ignored=1
"""

# The same where the standby isn't reached and one web server fails, which ends the run.
BAD_DAY_RECAP = """\
lb1 : ok=0 changed=0 unreachable=0 failed=0 skipped=0 rescued=0 ignored=0
db1 : ok=23 changed=9 unreachable=0 failed=0 skipped=3 rescued=0 ignored=0
db2 : ok=1 changed=0 unreachable=1 failed=0 skipped=0 rescued=0 ignored=0
web1 : ok=26 changed=14 unreachable=0 failed=1 skipped=0 rescued=1 ignored=0
web2 : ok=0 changed=0 unreachable=0 failed=0 skipped=0 rescued=0 ignored=0
web3 : ok=0 changed=0 unreachable=0 failed=0 skipped=0 rescued=0 ignored=0
"""


def runs(folder, recap, words=(), answers="answers.json", status=0):
    """The runs of an example, which come to the same with whatever number of workers."""
    words = [*words_of("run", folder), *words, "--answers", str(folder / answers)]
    return [
        Check(f"example-{folder.name}-run-{answers}-{forks}", [*words, "-f", str(forks)], quietly(recap, status))
        for forks in [1, 5, 256]
    ]


def site(folder):
    """The book of a whole site, and the same with one small mistake each."""
    verdicts = {
        "book.json": ("accepted budget 361\n", 0),
        "book_register_read_in_rescue.json": ("refused V01 line 55 host web1\n", 1),
        "book_other_host_without_guard.json": ("refused V02 line 12 host db1\n", 1),
        "book_misspelt_variable.json": ("refused V01 line 79 host lb1\n", 1),
    }
    return [
        Check(f"example-site-{book}", words_of("check", folder, book), quietly(*verdict))
        for book, verdict in verdicts.items()
    ]


def compared(folder):
    """The faulty books that were put to Ansible's own checks too."""
    verdicts = json.loads((folder / "verdicts.json").read_text(encoding="utf-8"))
    return [
        Check(f"example-compared-{book}", words_of("check", folder, book), quietly(f"{verdict}\n", 1))
        for book, verdict in verdicts.items()
    ]


def quietly(stdout, status):
    """Wants these bytes on standard output, this status, and nothing on standard error."""

    def judge(outcome):
        return "empty stderr" if outcome.stderr else exactly(stdout, status)(outcome)

    return judge


def words_of(command, folder, book="book.json"):
    return [command, str(folder / book), "-i", str(folder / "inventory.json")]
