# SPDX-License-Identifier: MIT OR Apache-2.0
# What the front end's one reader of expressions finds in them: names, fields, forms, texts and trees.
import random
import sys
from typing import Iterator, List, Tuple

from ansible_tools import TOP

# An expression, and the names that it may read: those of filters and tests too, and those in texts of look-ups alone.
NAMES = [
    ("a.b['c'].d", "a"), ("a [b] . c", "a b"), ("x | default(y, true)", "x default y true"), ("'a' ~ b ~ \"c\"", "b"),
    ("a is not defined", "a is not defined"), ("1.5 + a5 + 5a", "a5"), ("f(a=b)", "f a b"), ("", ""), ("'a", "a"),
    ("it's b", "it s b"), (r"'\'a' + b", "b"), ("'a\" + b", "a b"), ("'\" + b' + c", "c"), ("é + a", "a"),
    ("lookup('env', 'HOME')", "lookup env HOME"), ("hostvars['db'].port", "hostvars db port"), ("vars['a']", "vars a"),
]
# A field of `ansible_facts` is named as the fact too.
MENTIONED = [("ansible_facts.fqdn", "ansible_facts ansible_fqdn"), ("ansible_facts['fqdn']", "ansible_facts ansible_fqdn"),
             ("ansible_facts [ 'ansible_fqdn' ]", "ansible_facts ansible_fqdn"), ("ansible_facts", "ansible_facts")]
FIELDS = [("a.b.c + d.e", [("a", "b"), ("d", "e")]), ("a['b'].c", []), ("a.5", []), ("'a.b' + c.d", [("c", "d")])]
FORMS = [
    ("a.b['c'] | default('d') | length == 1", ""), ("a is defined and b is not skipped", ""), ("groups['all'][0]", ""),
    ("hostvars[h].x", ""), ("a - 1", ""), ("", ""), ("(a)", ""), ("not (a or b)", ""), ("'a | lower + x[0]'", ""),
    ("a | lower", "the filter `lower`"), ("a | default(b) | int", "the filter `int`"), ("a is match('b')", "the test `match`"),
    ("a is not in b", "the test `in`"), ("a.split(',')", "the call `.split()`"), ("a[0]", "the index `[0]`"),
    ("a.b['c'][-1].d", "the index `[-1]`"), ("a[i]", "the index `[i]`"), ("a[b[0]]", "the index `[0]`"),
    ("a | default('b', true)", "`default` with a second value"), ("a if b else c", "an inline `if`"),
    ("'a' if 'b' in c else 'd'", "an inline `if`"), ("a + 1", "arithmetic (`+`)"), ("a // 2", "arithmetic (`/`)"),
    ("(a) ~ b", "arithmetic (`~`)"), ("range(5)", "the call `range()`"), ("lookup('env', a)", "the call `lookup()`"),
    # Of several the first of this order is told, wherever it stands.
    ("a + b | lower", "the filter `lower`"), ("a[0] + a.b()", "the call `.b()`"), ("f(a) if b else c", "an inline `if`"),
]
PIECES = ["a", "b5", "and", "_x", "5", "1.5", ".", "|", "(", ")", "[", "]", ",", "==", "=", "+", "-", "~", "is", "not", "if"]


def made_expressions(seed: int, count: int) -> Iterator[str]:
    numbers = random.Random(seed)
    for _ in range(count):
        pieces = [numbers.choice(PIECES) for _ in range(numbers.randint(1, 9))]
        yield "".join(piece + numbers.choice(["", " "]) for piece in pieces)


def wrong_expressions() -> Iterator[str]:
    sys.path.insert(0, str(TOP / "ansible"))
    from playcheck_ansible.expressions import READ, read_once

    cases: List[Tuple[str, str, object, object]] = []
    cases += [("names", text, read_once(text).names, frozenset(wanted.split())) for text, wanted in NAMES]
    cases += [("mentioned", text, read_once(text).mentioned, frozenset(wanted.split())) for text, wanted in MENTIONED]
    cases += [("fields", text, read_once(text).fields, wanted) for text, wanted in FIELDS]
    cases += [("form", text, read_once(text).form, wanted) for text, wanted in FORMS]
    cases += [("keywords", "f(a=b, c = d) == e", read_once("f(a=b, c = d) == e").keywords, {"a", "c"}),
              ("bare", "a + 'b' ~ \"c\"", read_once("a + 'b' ~ \"c\"").bare, "a +     ~    "),
              ("tree", "a | f(", read_once("a | f(").tree, None), ("tree", "a { b", read_once("a { b").tree, None),
              ("one reader", "a", read_once("a"), read_once("a"))]
    for text in made_expressions(1, 3000):
        one = read_once(text)
        cases.append(("names by tokens", text, {token.text for token in one.reads}, set(READ.findall(text))))
        cases.append(("letters", text, "".join(token.text for token in one.tokens), "".join(text.split())))
        cases.append(("places", text, [text[token.start:token.end] for token in one.tokens],
                      [token.text for token in one.tokens]))
    for what, text, found, wanted in cases:
        if found != wanted:
            yield f"{what} of {text!r}: wanted {wanted}, found {found}"
