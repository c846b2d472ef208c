# SPDX-License-Identifier: MIT OR Apache-2.0
# Tries what literal values make of expressions, one by one: what each has to become, or that it stays as it is.
import sys
from itertools import product

from ansible_tools import TOP

# The values that anything gives to a name; None where another one is possible too, nothing where nothing gives it.
VALUES = {"yes_no": [True, False], "on": [True], "off": [False], "texts": ["Yes", "no"], "plain": ["a"],
          "empty": ["", "a"], "mixed": [True, "yes"], "number": [1], "zero": [0], "any": None}
TRUTHS = [
    ("yes_no | bool", "yes_no"),
    ("not on|bool and off | bool", "not on and off"),
    ("texts | bool", "(texts in ['Yes', 'true'])"),
    ("plain | bool", "(plain in ['true'])"),
    ("gone | default(false) | bool", "gone | default(false)"),
    ("gone | default('YES') | bool", "gone | default(true)"),
    ("gone | default(2) | bool", "gone | default(false)"),
    ("gone | default(1) | bool()", "gone | default(true)"),
    ("yes_no | default('no') | bool", "yes_no | default(false)"),
    ("yes_no | default(false, true) | bool", "yes_no | default(false)"),
    ("on | default(true, true) | bool", "on | default(true)"),
    ("texts | default(false) | bool", "(texts | default('false') in ['Yes', 'true'])"),
    ("plain | default(True) | bool", "(plain | default('true') in ['true'])"),
    ("x == 'on | bool' and on | bool", "x == 'on | bool' and on"),
    ("true | bool", "true"),
]
KEPT_TRUTHS = [
    "any | bool", "gone | bool", "mixed | bool", "number | bool", "any | default(false) | bool", "on.x | bool",
    "x. on | bool", "x['on'] | bool", "(on) | bool", "on | bool | string", "on | bool.x", "on | boolean",
    "yes_no | default(true, true) | bool", "empty | default(true, true) | bool", "gone | default(any) | bool",
    "'on | bool'", "item | default(false) | bool", "ansible_x | default(false) | bool", "on",
    "gone | default([]) | bool",
]
DEFAULTS = [
    ("plain | default('x', true)", "plain | default('x')"),
    ("gone | default('a, b', True)", "gone | default('a, b')"),
    ("on | default(1, boolean=true) == 1", "on | default(1) == 1"),
    ("number | default( x.y ,true )", "number | default(x.y)"),
    ("[plain | default('x', true), gone | default('x', true)]", "[plain | default('x'), gone | default('x')]"),
]
KEPT_DEFAULTS = [
    "empty | default('x', true)", "off | default(1, true)", "zero | default(1, true)", "any | default(1, true)",
    "x.plain | default(1, true)", "plain | default(1, false)", "plain | default(f(x), true)", "plain | default(1)",
    "'plain | default(1, true)'", "omit | default(1, true)",
]
BOOL = "({0} == true or {0} == 1 or {0} in [..])"
A_TEXT = "([[{0}] | length] | join)"
RESULTS = {"failed": ("failure",), "succeeded": ("success", "successful"), "changed": ("change",), "skipped": ("skip",)}
# What is exact, and what has the same kind and reads the same.
STOOD_IN = [
    ("x | bool", BOOL.format("x")),
    ("not x.y | default(false) | bool", f"not (x.y is defined and {BOOL.format('x.y')})"),
    ("(x | default('Yes')) | bool", f"(x is undefined or {BOOL.format('x')})"),
    ("x == 1 | bool", "x == true"),
    ("a is success or a is not change", "a is succeeded or a is not changed"),
    ("a.b is none", "(a.b is defined and a.b == none)"),
    ("a is not true", "not (a is defined and a == true)"),
    ("a is string", "(a is defined and ([a] | length == 1))"),
    ("x | mandatory", "x"),
    ("x | count > 0", "x | length > 0"),
    ("x | lower", "([[x] | length] | join)"),
    ("x | lower in y", "([[x] | length] | join) in y"),
    ("x | int + 1", "([x] | length)"),
    ("x | regex_replace('\\\\.', '')", "([[x] | length] | join)"),
    ("x | basename", "([[x | length, [x] | join] | length] | join)"),
    ("x ~ y ~ 'a'", "([[x, y] | length] | join)"),
    ("x is version('1.2', '>=')", "([x] | length == 1)"),
    ("x is search('^a')", "([x] | length == 1)"),
    ("x | float < 1.5", "([x] | length == 1)"),
    ("x.split('.')[0] == '1'", "([[x | length, [x] | join] | length] | join) == '1'"),
    ("x.find('a') < 0", "([x | length, [x] | join] | length) < 0"),
    ("lookup('env', 'A')", "([[] | length] | join)"),
    ("'a' if x else 'b'",
     "([[x and [] | length == 1 or not x and [] | length == 1] | length] | join)"),
    ("x == 1 if y else x == 2", "(y and x == 1 or not y and x == 2)"),
    ("(x == 1) | ternary('a', 'b')", "([[x == 1] | length] | join)"),
    ("{{ x | upper }}", "{{ ([[x] | length] | join) }}"),
    ("x | lower not in y", "([[x] | length] | join) not in y"),
    ("x | int == -1", "([x] | length) == -1"),
    ("x | join | lower", "([[x | join] | length] | join)"),
    ("x is failure", "x is failed"),
    ("x | lower | default('a', true)", "([[x] | length] | join)"),
    ("x | regex_replace('(a)', '\\\\1')", "([[x] | length] | join)"),
    ("x is version('1')", "([x] | length == 1)"),
    ("x.split('.') | length > 1", "([x | length, [x] | join] | length) > 1"),
    *((f"x.split('.'){one}", A_TEXT.format("x | length, [x] | join")) for one in ("[-1]", " | first", " | last")),
    *((f"x | {name}", A_TEXT.format("x")) for name in ("upper", "string", "trim", "capitalize", "title", "quote", "to_json",
                                                      "to_nice_json", "type_debug", "replace('a', 'b')")),
    *((f"x | {name}", A_TEXT.format("x | length, [x] | join")) for name in ("dirname", "b64encode")),
    *((f"x.{name}", A_TEXT.format("x | length, [x] | join"))
      for name in ("lower()", "upper()", "strip('a')", "lstrip()", "rstrip()", "title()", "capitalize()", "replace('a', 'b')")),
    *((f"x.{name}('a')", "([x | length, [x] | join] | length == 1)") for name in ("startswith", "endswith")),
    *((f"a is {name}", f"a is {wanted}") for wanted, names in RESULTS.items() for name in names),
    *((f"a is {name}", "(a is defined and ([a] | length == 1))") for name in ("boolean", "number", "integer", "float", "mapping",
                                                                           "sequence")),
    *((f"x is {name}", "([x] | length == 1)") for name in ("match('a')", "regex('a')", "version_compare('1', '<')")),
    *((f"a is {name}", f"(a is defined and a == {name})") for name in ("none", "true", "false")),
]
KEPT_FORMS = [
    "x", "x == 1 and y is defined", "x[0]", "x[y]", "x | first", "x | map('a')", "x + y", "x / 2", "x | int / y",
    "x is match(y)", "x is search('(')", "x | lower(1)", "x.split()[0]", "x.split('.')[1]", "lookup('file', 'a')",
    "x if y", "x if y else 'a'", "x | default('a', true)", "x | default(omit)", "'x | bool'", "{{- x | lower }}",
    "x | bool | gone", "x | ", "f(x)", "x | from_json", "x < y < z", "groups['a'][0]", "hostvars[item].x",
    "x is sameas(y)", "first(1)", "x.split(',') | first(1)", "x is gone('a')", "x | replace('a' 'b')", "x | bool(1)", "x | to_nice_json(1)",
    "x[0] | string", "x | regex_replace('a', '\\\\1')", "x | regex_replace('a', y)", "x.split('')[0]", "x.split(y)[0]",
    "x | lower | default(5, true)", "x is version('1', 'foo')", "x is version('1', y)", "(" * 200 + "x | bool" + ")" * 200, "not " * 200 + "x | bool",
    "true.x", "x.upper().y", "x.upper()['a']", "lookup('env', 'A', 'B')", "x.center(5)", "x.replace('a', 5)", "x | int(y)",
]
# Where only what is read counts.
LOOSE = [
    ("x if y else 'a'",
     "([[y and [x] | length == 1 or not y and [] | length == 1] | length] | join)"),
    ("x | default('a', true)", "([[x | default('a')] | length] | join)"),
    ("(x == 1) | ternary(omit, y)", "([[x == 1, y] | length] | join)"),
    ("x[0]", "x[0]"), ("x", "x"),
]
RENAMED = [
    ("one.a + one['one'] + x.one + x. one", "item.a + item['one'] + x.one + x. one"),
    ("'one' ~ one ~ \"one\" ~ ones ~ someone", "'one' ~ item ~ \"one\" ~ ones ~ someone"),
    ("x[one] and one", "x[item] and item"),
]
# Texts as ansible-core's `parse_kv` takes them apart; None where it refuses them, or leaves a word that is no pair.
ARGUMENTS = [
    ("src=a dest=/b", {"src": "a", "dest": "/b"}),
    ("src=a\n  dest=b  ", {"src": "a", "dest": "b"}),
    ("src=a\tdest=b mode=c\t", {"src": "a\tdest=b", "mode": "c"}),
    ("src=\"a  b\" dest='c d'", {"src": "a  b", "dest": "c d"}),
    ("src={{ a | default('x y') }} dest={{ b }}{{ c }}", {"src": "{{ a | default('x y') }}", "dest": "{{ b }}{{ c }}"}),
    ("src=a \\\n dest=b", {"src": "a", "dest": "b"}),
    (r'src="a \"b\" c" dest=d\x21\n', {"src": 'a "b" c', "dest": "d!"}),
    ("src==a url=http://x/?a=b", {"src": "=a", "url": "http://x/?a=b"}),
    ("src='a", None), ("src={{ a", None), ("src={{ it's }}", None), ("src=a b", None), ("src", None), ("=a", None),
    (r"src=\ud800", None), (r"src=\N{no such letter}", None), ("", None),
]


class Values:
    def known(self, name):
        is_outside = name in ("item", "omit") or name.startswith("ansible_")
        return None if is_outside else VALUES.get(name, [])


def wrong_rewritings():
    sys.path.insert(0, str(TOP / "ansible"))
    from playcheck_ansible.literals import plain_defaults, plain_truths
    from playcheck_ansible.loops import renaming
    from playcheck_ansible.parts import TRUE_TEXTS
    from playcheck_ansible.stand_ins import stand_ins
    from playcheck_ansible.values import arguments_of

    rename = renaming("one")
    cases = [(plain_truths, *case) for case in TRUTHS] + [(plain_truths, text, text) for text in KEPT_TRUTHS]
    cases += [(plain_defaults, *case) for case in DEFAULTS] + [(plain_defaults, text, text) for text in KEPT_DEFAULTS]
    for change, text, wanted in cases:
        if change(text, Values()) != wanted:
            yield f"{change.__name__}: {text}: wanted {wanted}, found {change(text, Values())}"
    stood_in = [*STOOD_IN, *((text, text) for text in KEPT_FORMS)]
    for text, wanted, is_loose in [*((*case, False) for case in stood_in), *((*case, True) for case in LOOSE)]:
        found = stand_ins(text, is_loose).replace(TRUE_TEXTS, "[..]")
        if found != wanted:
            yield f"stand_ins: {text}: wanted {wanted}, found {found}"
    if sorted(TRUE_TEXTS[2:-2].split("', '")) != sorted({way for word in ("yes", "on", "1", "true")
                                                         for way in map("".join, product(*zip(word, word.upper())))}):
        yield f"stand_ins: the texts that are true: {TRUE_TEXTS}"
    for text, wanted in ARGUMENTS:
        if arguments_of(text) != wanted:
            yield f"name_value_texts: {text!r}: wanted {wanted}, found {arguments_of(text)}"
    for text, wanted in RENAMED:
        if rename(text) != wanted:
            yield f"loop_variables: {text}: wanted {wanted}, found {rename(text)}"
