# SPDX-License-Identifier: MIT OR Apache-2.0
# Hostile files by name, each with the answer that the rules of the language give it.
import json

from check import Check, bytes_of, exactly, short
from program_checks import CHECK, ONE_HOST, SIGNED, broken_texts, module_of
from program_checks import refused as refused_somehow

SOUND = {"book": "[]", "inventory": ONE_HOST}
MOST_BYTES = {"book": 4_194_304, "inventory": 4_194_304, "signatures": 1_048_576}
TOO_LARGE = {"book": "P08", "inventory": "I05", "signatures": "S05"}
NO_JSON = {"book": "P01", "inventory": "I01", "signatures": "S01"}

MOST_PLAYS = 64
MOST_LINES = 4_096
MOST_HANDLERS = 256
MOST_BLOCKS = 16  # inside one another
MOST_TEXT = 65_536  # bytes
MOST_EXPRESSION = 4_096  # bytes
MOST_ITEMS = 1_024  # of a loop that is a list
MOST_LEVELS = 32  # lists and records inside one another in one value
MOST_JSON_LEVELS = 127
MOST_HOSTS = 1_024
MOST_GROUPS = 1_024
GROUPS_ALWAYS_THERE = 2  # `all` and `ungrouped`
MANY_GROUPS = 110_000  # about as many as a file has room for, each with the next as a child
DENSE_GROUPS = 900  # which fill a file where each has all that follow as children
MOST_RETRIES = 255
MOST_BATCH = 1_024  # hosts that `serial` may ask for
MOST_WHOLE_NUMBER = 9_223_372_036_854_775_807

MANY_TASKS = 100
FEW_HOSTS = 16

HERE = "@"  # where something stands in a file
FIRST_NUMBER = 100_000  # of the pieces of a file, so that each number has six digits

PING = '{"ping":null}'
TASKS = '[{"hosts":"all","tasks":['
END = "]}]"
PLAY = f'{{"hosts":"all","tasks":[{PING}]}}'
PARTS = {"block": '{"block":[', "rescue": '{"block":[],"rescue":[', "always": '{"block":[],"always":['}
LINES_OF_A_TOWER = MOST_BLOCKS + 1  # of blocks inside one another, with a task in the last
MODULE = json.dumps(module_of())


def hostile_files():
    yield from largest("book", largest_books())
    yield from largest("inventory", largest_inventories())
    yield from largest("signatures", largest_signatures())
    yield from books_of_many()
    yield from books_of_lines()
    yield from books_of_blocks()
    yield from full_books()
    yield from values()
    yield from texts()
    yield from whole_numbers()
    yield from nested_conditions()
    yield from odd_texts()
    yield from broken_signatures()
    yield from repeated_keys()
    yield from deep_inventories()
    yield from tangled_inventories()
    yield from shared_variables()


# What is wanted.


def silent(judge):
    """Wants what that judge wants, and nothing on standard error."""
    return lambda outcome: judge(outcome) or (outcome.stderr and f"no stderr, but {short(outcome.stderr)}")


def refused(code, line=0):
    return silent(refused_somehow(code, line))


def refused_on_host(code, line):
    return silent(exactly(f"refused {code} line {line} host h1\n", 1))


def accepted(budget):
    return silent(exactly(f"accepted budget {budget}\n", 0))


def hostile(name, judge, **files):
    """The check of these files, with a sound book and inventory where they aren't among them."""
    words = SIGNED if "signatures" in files else CHECK
    return Check(name, words, judge, {**SOUND, **files})


def put(value, text):
    """The bytes of a file with this value where it is to stand."""
    return text.encode().replace(HERE.encode(), value if isinstance(value, bytes) else value.encode())


# Files of the greatest size, and of one byte more.


def largest(place, rows):
    """Each row: a name, what stands before the pieces, a piece, what stands behind them, and what is wanted."""
    rows, size = list(rows), MOST_BYTES[place]
    for name, *parts, judge in rows:
        yield hostile(f"{place}: {name}", judge, **{place: filled(*parts, size)})
    for name, *parts, _ in rows:
        too_large = refused(TOO_LARGE[place])
        yield hostile(f"{place}: {name}, a byte more", too_large, **{place: filled(*parts, size + 1)})


def filled(head, piece, tail, size):
    """As many pieces between head and tail as fit, each with its number in place of `#`, and blanks up to the size."""
    count, blanks = divmod(size - len(head) - len(tail), len(piece.replace("#", str(FIRST_NUMBER))))
    pieces = ["repeat", piece, count]
    if "#" in piece:
        pieces = ["count", piece, FIRST_NUMBER, FIRST_NUMBER + count, ""]
    return {"gen": [head, pieces, tail, ["repeat", " ", blanks]]}


def in_message(head, piece, tail):
    return TASKS + '{"debug":{"msg":' + head, piece, tail + "}}" + END


def in_assertion(head, piece, tail):
    return TASKS + '{"assert":{"that":' + head, piece, tail + "}}" + END


def in_task(head, piece, tail):
    """As the last key of a task that calls a module."""
    return TASKS + '{"ping":null,' + head, piece, tail + "}" + END


def in_play(head, piece, tail):
    """As the last keys of a play with a task."""
    return '[{"tasks":[' + PING + "]," + head, piece, tail + "}]"


def largest_books():
    yield from books_of_one_text()
    yield from books_of_one_list()
    yield from books_of_many_names()
    yield from books_of_one_name()
    yield from books_of_one_expression()
    head, _, tail = in_message("", "", "")
    yield from many_digits(head, tail, refused("P01"), refused("P04", 2))
    yield from without_end(refused("P01"))


def books_of_one_text():
    too_long = refused("P08", 2)
    return [
        ("one text", *in_message('"', "a", '"'), too_long),
        ("one text of escapes", *in_message('"', "\\u0000", '"'), too_long),
        ("one text of pairs of escapes", *in_message('"', "\\ud83d\\ude00", '"'), too_long),
        ("one text of closing braces", *in_message('"', "}", '"'), too_long),
        ("one name of a task", *in_task('"name":"', "a", '"'), too_long),
        ("one loop that is a text", *in_task('"loop":"', "a", '"'), refused("P04", 2)),
        ("one notice with a template", *in_task('"notify":"', "{", '"'), refused("P04", 2)),
        ("one text for arguments", TASKS + '{"ping":"', "a", '"}' + END, refused("P04", 2)),
        ("one text for a command", TASKS + '{"command":"', "a", '"}' + END, too_long),
        ("one flush", TASKS + '{"meta":"', "a", '"}' + END, refused("P04", 2)),
        ("one percentage", *in_play('"hosts":"all","serial":"1', "0", '%"'), refused("P04", 1)),
        ("one pattern", *in_play('"hosts":"', "all,", 'all"'), refused("P08", 1)),
        ("one name of a play", *in_play('"hosts":"all","name":"', "a", '"'), refused("P08", 1)),
    ]


def books_of_one_list():
    many_plays = refused("P08", MOST_PLAYS + 1)
    many_lines = refused("P08", MOST_LINES + 1)
    many_handlers = refused("P08", 1 + MOST_HANDLERS + 1)
    return [
        ("one list", *in_message("[0", ",0", "]"), accepted(0)),
        ("one list of lists", *in_message("[[]", ",[]", "]"), accepted(0)),
        ("one list of records", *in_message("[{}", ",{}", "]"), accepted(0)),
        ("one list of texts", *in_message('[""', ',""', "]"), accepted(0)),
        ("one list of small records", *in_message('[{"":0}', ',{"":0}', "]"), accepted(0)),
        ("one list of deep records", *in_message("[{}", "," + deep_record(MOST_LEVELS - 1), "]"), accepted(0)),
        ("one loop", *in_task('"loop":[0', ",0", "]"), refused("P08", 2)),
        ("one list of conditions", *in_task('"when":[true', ",true", "]"), accepted(1)),
        ("one list of expressions", *in_task('"when":["1==1"', ',"1==1"', "]"), accepted(1)),
        ("one list of paths", *in_task('"when":["a.b"', ',"a.b"', "]"), refused_on_host("V01", 2)),
        ("one list of assertions", *in_assertion('["1==1"', ',"1==1"', "]"), accepted(0)),
        ("one list of templates", *in_message('["{{1}}"', ',"{{1}}"', "]"), accepted(0)),
        ("one list of templates in texts", *in_message('["{{1}}"', ',"x{{1}}"', "]"), accepted(0)),
        ("one list of notices", *in_task('"notify":["a"', ',"a"', "]"), refused("V05", 2)),
        ("one list of patterns", *in_play('"hosts":["all"', ',"all"', "]"), accepted(1)),
        ("one list of batches", *in_play('"hosts":"all","serial":[1', ",1", "]"), accepted(1)),
        ("numbers for plays", "[0", ",0", "]", refused("P02", 1)),
        ("deep records for plays", "[{}", "," + deep_record(MOST_JSON_LEVELS - 1), "]", refused("P02", 1)),
        ("plays", '[{"hosts":"all"}', ',{"hosts":"all"}', "]", many_plays),
        ("tasks", TASKS + PING, "," + PING, END, many_lines),
        ("blocks", TASKS + PING, ',{"block":[]}', END, many_lines),
        ("handlers", '[{"hosts":"all","handlers":[' + PING, "," + PING, END, many_handlers),
    ]


def books_of_many_names():
    return [
        ("fields", *in_message('{"a":0', ',"f#":0', "}"), accepted(0)),
        ("one field again and again", *in_message('{"a":0', ',"a":0', "}"), accepted(0)),
        ("facts", TASKS + '{"set_fact":{"a":0', ',"f#":0', "}}" + END, accepted(0)),
        ("parameters", TASKS + '{"ping":{"a":0', ',"f#":0', "}}" + END, refused("V07", 2)),
        ("modules", TASKS + '{"a":0', ',"f#":0', "}" + END, refused("P05", 2)),
        ("variables", *in_play('"hosts":"all","vars":{"a":0', ',"f#":0', "}"), accepted(1)),
        ("keywords", *in_play('"hosts":"all"', ',"f#":0', ""), refused("P03", 1)),
    ]


def books_of_one_name():
    prefix = "ansible.builtin."
    return [
        ("one name of a field", *in_message('{"', "a", '":0}'), accepted(0)),
        ("one name of a fact", TASKS + '{"set_fact":{"', "a", '":0}}' + END, refused("V07", 2)),
        ("one name of a parameter", TASKS + '{"ping":{"', "a", '":0}}' + END, refused("V07", 2)),
        ("one name of a module", TASKS + '{"', "a", '":null}' + END, refused("P06", 2)),
        ("one name of a module, of prefixes", TASKS + '{"', prefix, 'ping":null}' + END, refused("P06", 2)),
        ("one name of a register", *in_task('"register":"', "a", '"'), refused("P04", 2)),
        ("one name of a variable", *in_play('"hosts":"all","vars":{"', "a", '":0}'), refused("P04", 1)),
        ("one name of a keyword", *in_play('"hosts":"all","', "a", '":0'), refused("P03", 1)),
    ]


def books_of_one_expression():
    when = '"when":"'
    unreadable, too_long = refused("P07", 2), refused("P08", 2)
    return [
        ("templates", *in_message('"', "{{ 1 }}", '"'), too_long),
        ("templates without an end", *in_message('"', "{{ ", '"'), unreadable),
        ("opening braces", *in_message('"', "{", '"'), unreadable),
        ("alternatives", *in_task(when + "1", " or 1", '"'), too_long),
        ("items of an expression", *in_task(when + "[1", ",1", ']"'), too_long),
        ("digits of a place", *in_task(when + "groups['all'][1", "1", ']"'), too_long),
        ("digits of a number", *in_task(when + "1", "1", '"'), unreadable),
        ("blanks in an expression", *in_task(when + "1", " ", '"'), too_long),
        ("parentheses", *in_task(when, "(", '"'), unreadable),
        ("brackets", *in_task(when, "[", '"'), unreadable),
        ("negations", *in_task(when, "not ", 'x"'), unreadable),
        ("steps of a path", *in_task(when + "a", ".a", '"'), unreadable),
        ("filters in one another", *in_task(when + "a", "|default(a", '"'), unreadable),
        ("lengths behind one another", *in_task(when + "a", "|length", '"'), too_long),
        ("joins behind one another", *in_task(when + "a", "|join", '"'), too_long),
        ("joins with a text behind one another", *in_task(when + "a", "|join('')", '"'), too_long),
        ("filters behind one another", *in_task(when + "a", "|default(a)", '"'), too_long),
        ("quotes", *in_task(when, "'", '"'), unreadable),
    ]


def many_digits(head, tail, past_floats, no_whole_number):
    """Numbers of very many digits: the text is no JSON where they are past every float."""
    return [
        ("one whole number", head + "1", "0", tail, past_floats),
        ("one fraction", head + "0.", "0", "1" + tail, no_whole_number),
        ("one exponent", head + "1e1", "0", tail, past_floats),
        ("one exponent with noughts before it", head + "1e", "0", "1" + tail, no_whole_number),
        ("one exponent below nought", head + "1e-1", "0", tail, no_whole_number),
        ("one exponent of nought", head + "0e1", "0", tail, no_whole_number),
    ]


def without_end(judge):
    return [
        ("lists without an end", "", "[", "", judge),
        ("records without an end", "", '{"":', "", judge),
        ("one list without an end", "[0", ",0", "", judge),
        ("one text without an end", '["', "a", "", judge),
        ("one text of backslashes without an end", '["', "\\\\", "", judge),
    ]


def largest_inventories():
    later = accepted(0)
    variables = '{"all":{"hosts":["h1"],"vars":{'
    yield from many_digits(variables + '"v":', "}}}", refused("I01"), later)
    yield from without_end(refused("I01"))
    yield from [
        ("one text", variables + '"v":"', "a", '"}}}', later),
        ("one text of templates", variables + '"v":"', "{{ a }}", '"}}}', later),
        ("one list", variables + '"v":[0', ",0", "]}}}", refused("I05")),
        ("fields", variables + '"v":{"a":0', ',"f#":0', "}}}}", later),
        ("variables", variables + '"a":0', ',"f#":0', "}}}", later),
        ("variables of deep records", variables + '"a":0', ',"f#":' + deep_record(MOST_LEVELS), "}}}", later),
        ("one name of a variable", variables + '"', "a", '":0}}}', later),
        ("hosts", '{"all":{"hosts":["h1"', ',"h#"', "]}}", refused("I05")),
        ("one host again and again", '{"all":{"hosts":["h1"', ',"h1"', "]}}", refused("I05")),
        ("numbers for hosts", '{"all":{"hosts":[0', ",0", "]}}", refused("I02")),
        ("one name of a host", '{"all":{"hosts":["', "a", '"]}}', refused("I03")),
        ("groups", '{"a":{}', ',"g#":["h#"]', "}", refused("I05")),
        ("one child again and again", '{"a":{"children":["b"', ',"b"', "]}}", refused("I05")),
        ("one name of a group", '{"', "a", '":["h1"]}', refused("I02")),
        ("variables of no host", '{"all":["h1"],"_meta":{"hostvars":{"a":{}', ',"h#":{"v":0}', "}}}", accepted(0)),
        ("other keys of a group", '{"all":{"hosts":["h1"]', ',"f#":0', "}}", accepted(0)),
        ("deep records passed over", '{"all":["h1"],"_meta":{"a":[0', "," + deep_record(100), "]}}", accepted(0)),
        ("other keys of _meta", '{"all":["h1"],"_meta":{"a":0', ',"f#":0', "}}", accepted(0)),
    ]


def largest_signatures():
    before, behind = json.dumps([module_of(params={HERE: 0})]).split(f'"{HERE}": 0')
    parameter = '{"kind":"int","required":false}'
    bound = before + '"p":{"required":false,"kind":{"list":"int","max":'
    yield from many_digits(bound, "}}" + behind, refused("S01"), refused("S02"))
    yield from without_end(refused("S01"))
    yield from [
        ("numbers for modules", "[0", ",0", "]", refused("S02")),
        ("modules", "[" + MODULE, "," + MODULE.replace("probe", "m#"), "]", refused("S05")),
        ("one module again and again", "[" + MODULE, "," + MODULE, "]", refused("S04")),
        ("keys of a module", "[" + MODULE[:-1], ',"f#":0', "}]", refused("S02")),
        ("parameters", before + '"a":' + parameter, ',"f#":' + parameter, behind, refused("S05")),
        ("one parameter again and again", before + '"a":' + parameter, ',"a":' + parameter, behind, accepted(0)),
        ("one name of a module", '[{"name":"', "a", '",' + MODULE.split(",", 1)[1] + "]", refused("S02")),
        ("one name of a parameter", before + '"', "a", '":' + parameter + behind, refused("S02")),
        ("one name of a kind", before + '"a":{"required":false,"kind":"', "a", '"}' + behind, refused("S02")),
    ]


# As many plays, handlers, hosts, items, lines and blocks as there may be, and one more.


def books_of_many():
    play = listed(PLAY, 1)
    rows = [
        (
            *("plays", MOST_PLAYS, lambda count: {"book": listed(PLAY, count)}),
            *(accepted(MOST_PLAYS), refused("P08", 2 * MOST_PLAYS + 1)),
        ),
        (
            *("handlers", MOST_HANDLERS, lambda count: {"book": handled(count)}),
            *(accepted(1 + MOST_HANDLERS), refused("P08", 2 + MOST_HANDLERS + 1)),
        ),
        (
            *("items", MOST_ITEMS, lambda count: {"book": looped(count)}),
            *(accepted(MOST_ITEMS), refused("P08", 2)),
        ),
        (
            *("hosts", MOST_HOSTS, lambda count: {"book": play, "inventory": hosts(count)}),
            *(accepted(MOST_HOSTS), refused("I05")),
        ),
    ]
    for name, most, files_of, fine, past in rows:
        yield hostile(f"{most} {name}", fine, **files_of(most))
        yield hostile(f"{most + 1} {name}", past, **files_of(most + 1))


def listed(piece, count):
    return "[" + ",".join([piece] * count) + "]"


def handled(count):
    """A play of a task and so many handlers."""
    return f'[{{"hosts":"all","tasks":[{PING}],"handlers":{listed(PING, count)}}}]'


def looped(count):
    return TASKS + f'{{"ping":null,"loop":{listed("0", count)}}}' + END


def hosts(count):
    return json.dumps({"all": {"hosts": [f"h{number}" for number in range(count)]}})


def tower(height, part, top=PING):
    """So many blocks inside one another, each in that part of the one round it, with a task or some in the last."""
    return PARTS[part] * height + top + "]}" * height


def towers(count, part, last):
    """A play of so many towers of blocks as high as may be, and one of that height."""
    return TASKS + ",".join([tower(MOST_BLOCKS, part)] * count + [tower(last, part)]) + END


def books_of_lines():
    past = refused("P08", MOST_LINES + 1)
    count, rest = divmod(MOST_LINES - 1, LINES_OF_A_TOWER)
    for part in ["block", "rescue"]:
        fine = accepted(count + 1)
        yield hostile(f"{MOST_LINES} lines, blocks in {part}", fine, book=towers(count, part, rest - 1))
        yield hostile(f"{MOST_LINES + 1} lines, blocks in {part}", past, book=towers(count, part, rest))
    calls = MOST_LINES - 1 - MOST_BLOCKS
    for number, judge in [(calls, accepted(calls)), (calls + 1, past)]:
        book = TASKS + tower(MOST_BLOCKS, "block", ",".join([PING] * number)) + END
        yield hostile(f"{number} tasks in one tower of blocks", judge, book=book)


def books_of_blocks():
    """A tower that is too high, behind one that isn't."""
    first_too_deep = 1 + LINES_OF_A_TOWER + MOST_BLOCKS + 1
    for part in PARTS:
        for height in [MOST_BLOCKS + 1, 2 * MOST_BLOCKS]:
            judge = refused("P08", first_too_deep)
            yield hostile(f"{height} blocks in {part}", judge, book=towers(1, part, height))
        yield hostile(f"more blocks in {part} than JSON nests", refused("P01"), book=towers(1, part, MOST_JSON_LEVELS))


def full_books():
    """Books of as many tasks as there may be, each as long as fits."""
    tasks = MOST_LINES - 1
    size = (MOST_BYTES["book"] - len(TASKS + END)) // tasks - len(",")
    when = '{"ping":null,"when":"'
    rows = [
        ("alternatives", when + "1==1", " or 1==1", '"}', tasks),
        ("an item looked for", when + "1 in [1", ",1", ']"}', tasks),
        ("lists compared", when + "[1", ",1", ']==[1]"}', tasks),
        ("deep lists compared", when + "[" * 30 + "1", ",1", "]" * 30 + '==[1]"}', tasks),
        ("names read", '{"debug":{"msg":["{{ group_names }}"', ',"{{ group_names }}"', "]}}", 0),
        ("facts", '{"set_fact":{"a":0', ',"f#":0', "}}", 0),
        ("facts under a condition", '{"when":"1==1","set_fact":{"a":0', ',"f#":0', "}}", 0),
    ]
    for name, *parts, budget in rows:
        task = bytes_of(filled(*parts, size)).decode()
        book = {"gen": [TASKS, ["repeat", task + ",", tasks - 1], task, END]}
        yield hostile(f"{tasks} tasks of {name}", accepted(budget), book=book)


# Where a book may have a value: the book, the value's line, and the verdict where the value may stand.

VALUE_PLACES = {
    "a play's variable": ('[{"hosts":"all","tasks":[{"ping":null}],"vars":{"v":@}}]', 1, accepted(1)),
    "a block's variable": (TASKS + '{"block":[{"ping":null}],"vars":{"v":@}}' + END, 2, accepted(1)),
    "a task's variable": (TASKS + '{"ping":null,"vars":{"v":@}}' + END, 2, accepted(1)),
    "an item": (TASKS + '{"ping":null,"loop":[@]}' + END, 2, accepted(1)),
    "a fact": (TASKS + '{"set_fact":{"f":@}}' + END, 2, accepted(0)),
    "a message": (TASKS + '{"debug":{"msg":@}}' + END, 2, accepted(0)),
    "a handler's message": ('[{"hosts":"all","handlers":[{"debug":{"msg":@}}]}]', 2, accepted(0)),
}


def values():
    for place, (book, line, fine) in VALUE_PLACES.items():
        deepest = MOST_JSON_LEVELS - levels_before(book)
        limit, number, no_json = refused("P08", line), refused("P04", line), refused("P01")
        yield from values_at(place, book, {**largest_values(), **nested(MOST_LEVELS)}, fine)
        yield from values_at(place, book, {**larger_values(), **nested(MOST_LEVELS + 1), **nested(deepest)}, limit)
        yield from values_at(place, book, NO_WHOLE_NUMBERS, number)
        yield from values_at(place, book, {**PAST_FLOATS, **nested(deepest + 1)}, no_json)


def values_at(place, book, named, judge):
    for name, value in named.items():
        yield hostile(f"{name} as {place}", judge, book=put(value, book))


def levels_before(book):
    """How many lists and records are open where the value stands."""
    head = book.split(HERE)[0]
    return head.count("[") + head.count("{") - head.count("]") - head.count("}")


def nested(levels):
    """Values of so many lists and records inside one another."""
    mixed = "0"
    for level in range(levels):
        mixed = f"[{mixed}]" if level % 2 else f'{{"":{mixed}}}'
    return {
        f"{levels} lists": "[" * levels + "]" * levels,
        f"{levels} records": deep_record(levels),
        f"{levels} lists and records": mixed,
    }


def deep_record(levels):
    return '{"":' * levels + "0" + "}" * levels


def largest_values():
    return {
        "the longest text": quoted("a" * MOST_TEXT),
        "the longest text of other letters": quoted("é" * (MOST_TEXT // 2)),
        "the longest template": quoted("{{" + text_of(MOST_EXPRESSION) + "}}"),
        "the greatest number": str(MOST_WHOLE_NUMBER),
        "the least number": str(-MOST_WHOLE_NUMBER - 1),
    }


def larger_values():
    return {
        "a longer text": quoted("a" * (MOST_TEXT + 1)),
        "a longer text of other letters": quoted("a" + "é" * (MOST_TEXT // 2)),
        "a longer template": quoted("{{" + text_of(MOST_EXPRESSION + 1) + "}}"),
    }


def quoted(text):
    return f'"{text}"'


def text_of(size):
    """An expression of so many bytes."""
    return "'" + "a" * (size - len("''")) + "'"


NO_WHOLE_NUMBERS = {
    "nought with a sign": "-0",
    "a whole decimal": "1.0",
    "an exponent": "1e2",
    "a nought past all places": "1e-400",
    "a great exponent": "1e308",
    "309 digits": "1" + "0" * 308,
    "a number too great": str(MOST_WHOLE_NUMBER + 1),
    "a number too small": str(-MOST_WHOLE_NUMBER - 2),
}
PAST_FLOATS = {
    "an exponent past floats": "1e309",
    "1e400": "1e400",
    "-1e400": "-1e400",
    "309 digits past floats": "2" + "0" * 308,
    "401 digits": "1" + "0" * 400,
}


# Where a book may have a whole number, and what it may be at most.

NUMBER_PLACES = {
    "retries": (
        TASKS + '{"ping":null,"until":true,"retries":@}' + END,
        2,
        MOST_RETRIES,
        accepted(1 + MOST_RETRIES),
    ),
    "serial": ('[{"hosts":"all","serial":@}]', 1, MOST_BATCH, accepted(0)),
    "an item of serial": ('[{"hosts":"all","serial":["5%",@]}]', 1, MOST_BATCH, accepted(0)),
}


def whole_numbers():
    for place, (book, line, most, fine) in NUMBER_PLACES.items():
        no_value = refused("P04", line)
        past = {str(number): str(number) for number in [0, -1, most + 1, MOST_WHOLE_NUMBER, -MOST_WHOLE_NUMBER - 1]}
        yield from values_at(place, book, {"the most": str(most)}, fine)
        yield from values_at(place, book, {**past, **NO_WHOLE_NUMBERS, '"1"': '"1"'}, no_value)
        yield from values_at(place, book, PAST_FLOATS, refused("P01"))
    unknown = '[{"hosts":"all","unknown":@}]'
    yield from values_at("an unknown keyword", unknown, NO_WHOLE_NUMBERS, refused("P03", 1))
    yield from values_at("an unknown keyword", unknown, PAST_FLOATS, refused("P01"))


# Texts that are no values, and conditions: the book, the text's line, and the verdict where the text may stand.

TEXT_PLACES = {
    "a pattern": ('[{"hosts":"@"}]', 1, refused("V06", 1)),
    "a play's name": ('[{"hosts":"all","name":"@"}]', 1, accepted(0)),
    "a block's name": (TASKS + '{"block":[],"name":"@"}' + END, 2, accepted(0)),
    "a task's name": (TASKS + '{"ping":null,"name":"@"}' + END, 2, accepted(1)),
    "a command": (TASKS + '{"command":"@"}' + END, 2, accepted(1)),
    "an argument": (TASKS + '{"command":{"cmd":"x","chdir":"@"}}' + END, 2, accepted(1)),
    "a notice": (
        '[{"hosts":"all","tasks":[{"ping":null,"notify":"@"}],"handlers":[{"ping":null,"name":"@"}]}]',
        2,
        accepted(2),
    ),
    "a handler's name": ('[{"hosts":"all","handlers":[{"ping":null,"name":"@"}]}]', 2, accepted(0)),
    "a topic": ('[{"hosts":"all","handlers":[{"ping":null,"listen":["x","@"]}]}]', 2, accepted(0)),
}
CONDITION_PLACES = {
    "when": (TASKS + '{"ping":null,"when":"@"}' + END, 2, accepted(1)),
    "a block's when": (TASKS + '{"block":[{"ping":null}],"when":"@"}' + END, 2, accepted(1)),
    "a handler's when": ('[{"hosts":"all","handlers":[{"ping":null,"when":"@"}]}]', 2, accepted(0)),
    "changed_when": (TASKS + '{"ping":null,"changed_when":["@"]}' + END, 2, accepted(1)),
    "failed_when": (TASKS + '{"ping":null,"failed_when":["@"]}' + END, 2, accepted(1)),
    "until": (TASKS + '{"ping":null,"until":"@"}' + END, 2, accepted(4)),
    "that": (TASKS + '{"assert":{"that":"@"}}' + END, 2, accepted(0)),
}


def texts():
    for place, (book, line, fine) in TEXT_PLACES.items():
        yield from sizes_at(place, book, lambda size: "a" * size, MOST_TEXT, fine, refused("P08", line))
    blanks = '[{"hosts":"@"}]'
    yield from sizes_at("a pattern with blanks", blanks, "all".ljust, MOST_TEXT, accepted(0), refused("P08", 1))
    for place, (book, line, fine) in CONDITION_PLACES.items():
        yield from sizes_at(place, book, comparison, MOST_EXPRESSION, fine, refused("P08", line))
    when, line, _ = CONDITION_PLACES["when"]
    undefined = refused_on_host("V01", line)
    too_long = refused("P08", line)
    most = MOST_EXPRESSION // len("|join")
    for filters, judge in [(most, undefined), (most + 1, too_long)]:
        yield hostile(f"{filters} filters behind one another", judge, book=put("a" + "|join" * filters, when))


def sizes_at(place, book, text_of_size, most, fine, too_long):
    yield hostile(f"{most} bytes as {place}", fine, book=put(text_of_size(most), book))
    yield hostile(f"{most + 1} bytes as {place}", too_long, book=put(text_of_size(most + 1), book))


def comparison(size):
    """A condition of so many bytes."""
    return "'" + "a" * (size - len("''=='a'")) + "'=='a'"


# Odd texts that JSON has, and such that it hasn't, as texts and names in a file; and the verdict on the former.

ODD_PLACES = {
    "a text of the book": ("book", TASKS + '{"ping":null,"name":"@"}' + END, accepted(1)),
    "a name of the book": ("book", TASKS + '{"debug":{"msg":{"@":0}}}' + END, accepted(0)),
    "a text of the inventory": ("inventory", '{"all":{"hosts":["h1"],"vars":{"v":"@"}}}', accepted(0)),
    "a name of the inventory": ("inventory", '{"all":{"hosts":["h1"],"vars":{"@":0}}}', accepted(0)),
    "a text of the signatures": ("signatures", '[{"name":"@"}]', refused("S02")),
    "a name of the signatures": ("signatures", '[{"@":0}]', refused("S02")),
}
ODD_TEXTS = ["\\ud83d\\ude00", "\\ufffe\\uffff", "\\u0000", "\\/", "\\u00E9", "\ufeff", "\x7f", "\U0010ffff"]
NO_TEXTS = [
    *["\\ud800", "\\udbff", "\\udc00", "\\udfff"],  # halves of a pair
    *["\\ude00\\ud83d", "\\ud83d\\ud83d\\ude00", "\\ud83dx", "\\ud83d\\n", "\\ud83d\\u0041", "\\ud83d\\"],
    *["\\u12", "\\u 123", "\\u00g0", "\\x41", "\\'", "\0", "\n", "\x1f"],
    *[b"\xff", b"\x80", b"\xc0\xaf", b"\xe2\x82", b"\xed\xa0\x80", b"\xf4\x90\x80\x80"],
]


def nested_conditions():
    """`and` and `or` in turn inside one another, each operand a test: each is asked once, so the time grows with the text."""
    for name, nest in {"left": "({}) {} x{} is defined", "right": "x{2} is defined {1} ({0})"}.items():
        for levels in (MOST_LEVELS - 10, MOST_LEVELS):
            condition = "x0 is defined"
            for level in range(1, levels + 1):
                condition = nest.format(condition, ("or", "and")[level % 2], level)
            task = json.dumps({"debug": {"msg": "x"}, "when": condition})
            for count in (1, MANY_TASKS):
                book = TASKS + ",".join([task] * count) + END
                named = f"and and or in turn, to the {name}: levels {levels}, tasks {count}"
                yield hostile(named, accepted(0), book=book, inventory=hosts(FEW_HOSTS))


def odd_texts():
    for place, (file, text, fine) in ODD_PLACES.items():
        judged = [*((odd, fine) for odd in ODD_TEXTS), *((odd, refused(NO_JSON[file])) for odd in NO_TEXTS)]
        for odd, judge in judged:
            yield hostile(f"{odd!r} as {place}", judge, **{file: put(odd, text)})


def broken_signatures():
    for name, content in broken_texts(f"[{MODULE}]"):
        yield hostile(f"signatures: {name}", refused("S01"), signatures=content)


# Of one name in a record that stands there more than once, the last counts.


def repeated_keys():
    books = {
        "modules": (TASKS + '{"ping":5,"ping":null}' + END, accepted(1)),
        "modules, the last wrong": (TASKS + '{"ping":null,"ping":5}' + END, refused("P04", 2)),
        "modules by escapes": (TASKS + '{"p\\u0069ng":5,"ping":null}' + END, accepted(1)),
        "arguments": (TASKS + '{"command":{"cmd":7,"cmd":"x"}}' + END, accepted(1)),
        "arguments, the last wrong": (
            TASKS + '{"command":{"cmd":"x","cmd":7}}' + END,
            refused_on_host("V04", 2),
        ),
        "sections": ('[{"hosts":"all","tasks":[{"nope":null}],"tasks":[{"ping":null}]}]', accepted(1)),
        "sections, the last empty": ('[{"hosts":"all","pre_tasks":[{"ping":null}],"pre_tasks":[]}]', accepted(0)),
        "names, one no whole number": ('[{"hosts":"all","name":1.5,"name":"x"}]', accepted(0)),
        "names, one past floats": ('[{"hosts":"all","name":1e400,"name":"x"}]', refused("P01")),
        "names, one a half of a pair": ('[{"hosts":"all","name":"\\ud800","name":"x"}]', refused("P01")),
    }
    inventories = {
        "lists of hosts": ('{"all":{"hosts":[5],"hosts":["h1"]}}', accepted(0)),
        "lists of hosts, the last wrong": ('{"all":{"hosts":["h1"],"hosts":[5]}}', refused("I02")),
        "groups in a cycle": ('{"a":{"children":["a"]},"all":["h1"],"a":{}}', accepted(0)),
        "_meta": ('{"all":["h1"],"_meta":{"hostvars":[]},"_meta":{}}', accepted(0)),
    }
    signatures = {
        "names of a module": ('[{"name":5,' + MODULE[1:] + "]", accepted(0)),
        "names of a module, the last wrong": ("[" + MODULE[:-1] + ',"name":5}]', refused("S02")),
        "shapes": ("[" + MODULE[:-1] + ',"ok":{}}]', refused("S03")),
    }
    for file, named in [("book", books), ("inventory", inventories), ("signatures", signatures)]:
        for name, (text, judge) in named.items():
            yield hostile(f"{file}: twice {name}", judge, **{file: text})


# Inventories of many levels, and of groups that lead to one another.


def deep_inventories():
    """Levels in a variable, in one with a reserved name, which is passed over, and in a key that is passed over."""
    variables = '{"all":{"hosts":["h1"],"vars":{"%s":@}}}'
    fine = {MOST_LEVELS: accepted(0), MOST_LEVELS + 1: refused("I05")}
    yield from levels_at("a variable", variables % "v", fine, refused("I05"))
    yield from levels_at("a reserved variable", variables % "item", {}, accepted(0))
    yield from levels_at("another key", '{"all":{"hosts":["h1"],"x":@}}', {}, accepted(0))
    no_host = '{"all":["h1"],"_meta":{"hostvars":{"x":{"v":@}}}}'
    yield from levels_at("a variable of no host", no_host, {}, accepted(0))


def levels_at(place, inventory, judges, judge_of_deepest):
    """Values of some levels, of as many as JSON has, and of one more."""
    deepest = MOST_JSON_LEVELS - levels_before(inventory)
    judges = {**judges, deepest: judge_of_deepest, deepest + 1: refused("I01")}
    for levels, judge in judges.items():
        for name, value in nested(levels).items():
            yield hostile(f"{name} as {place}", judge, inventory=put(value, inventory))


def tangled_inventories():
    """Groups of which each has the next as a child, or all that follow; and the same with a way back to the first."""
    fine = accepted(1)
    most = MOST_GROUPS - GROUPS_ALWAYS_THERE
    rows = [
        ("1024 groups in a chain", chained(most), fine),
        ("1025 groups in a chain", chained(most + 1), refused("I05")),
        ("1024 groups in a ring", chained(most, "g0"), refused("I04")),
        ("very many groups in a chain", chained(MANY_GROUPS), refused("I05")),
        ("very many groups in a ring", chained(MANY_GROUPS, "g0"), refused("I04")),
        ("each group with all that follow", followed(DENSE_GROUPS), fine),
        ("each group with all that follow, and a ring", followed(DENSE_GROUPS, "g0"), refused("I04")),
    ]
    for name, groups, judge in rows:
        yield hostile(name, judge, book=TASKS + PING + END, inventory=json.dumps(groups, separators=(",", ":")))


def chained(count, *last):
    """Groups of which each has the next as a child, the last one a host and these children."""
    groups = {f"g{number}": {"children": [f"g{number + 1}"]} for number in range(count - 1)}
    return {**groups, f"g{count - 1}": {"hosts": ["h1"], "children": list(last)}}


def followed(count, *last):
    """Groups of which each has all that follow as children, the last one a host and these children."""
    names = [f"g{number}" for number in range(count)]
    groups = {name: {"children": names[number + 1 :]} for number, name in enumerate(names[:-1])}
    return {**groups, names[-1]: {"hosts": ["h1"], "children": list(last)}}


def shared_variables():
    """Many variables that groups give many hosts, with and without own ones, and some that deeper groups hide."""
    many = named_variables(64 * MOST_HOSTS)  # which hosts have to share: each with its own they take gigabytes
    hosts_of_all = [f"h{number}" for number in range(MOST_HOSTS)]
    own = {host: {"own": number} for number, host in enumerate(hosts_of_all)}
    hidden = {f"g{number}": {"hosts": hosts_of_all[:100], "vars": named_variables(100)} for number in range(106)}
    rows = [
        ("variables of one group on all hosts", {"g": {"hosts": hosts_of_all, "vars": many}}, MOST_HOSTS),
        ("the same with own ones", {"g": {"hosts": hosts_of_all, "vars": many}, "_meta": {"hostvars": own}}, MOST_HOSTS),
        ("variables that 106 groups set", hidden, 100),
        ("variables of 500 groups in a chain", with_variables(chained(500), 20, 100), 100),
    ]
    for name, inventory, budget in rows:
        yield hostile(name, accepted(budget), book=TASKS + PING + END, inventory=json.dumps(inventory, separators=(",", ":")))


def named_variables(count):
    return {f"v{number}": number for number in range(count)}


def with_variables(groups, count, hosts):
    """Each group with so many variables of its own, and the last with so many hosts."""
    given = {name: {**group, "vars": {f"{name}_{n}": n for n in range(count)}} for name, group in groups.items()}
    *_, last = given
    return {**given, last: {**given[last], "hosts": [f"h{number}" for number in range(hosts)]}}
