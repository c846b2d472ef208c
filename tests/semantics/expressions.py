# SPDX-License-Identifier: MIT OR Apache-2.0
"""Reads expressions and templates into terms of the definitions."""

import re

WORDS = "and or not in is true false True False none None if else".split()
TOKEN = re.compile(
    r"[ \t\n\r]*(?:(?P<int>-?(?:0|[1-9][0-9]*)(?![0-9]))|(?P<name>[A-Za-z_][A-Za-z0-9_]*)"
    r"|(?P<text>'(?:[^'\\]|\\.)*'|\"(?:[^\"\\]|\\.)*\")|(?P<sign>==|!=|<=|>=|[<>()\[\],.|])|(?P<end>$))",
    re.S,
)
ESCAPES = {"\\": "\\", "'": "'", '"': '"', "n": "\n", "t": "\t"}
TESTS = {"failed": "is_failed", "changed": "is_changed", "skipped": "is_skipped", "succeeded": "is_failed"}
DEEPEST = 32
MOST_STEPS = 16
MOST_HOSTS = 1024
ORDERS = {"<": "less", "<=": "at_most", ">": "more", ">=": "at_least"}


def codes(text):
    """The bytes of a text as a term."""
    if re.fullmatch(r"[A-Za-z0-9_ .,:;/()=<>!?*+@-]+", text):
        return f'(codes "{text}")'
    return "(" + "".join(f"{byte} ∷ " for byte in text.encode()) + "[])"


def names(texts):
    return "(" + "".join(f"{codes(text)} ∷ " for text in texts) + "[])"


def integer(number):
    return f"(int (pos {number}))" if number >= 0 else f"(int (negsuc {-number - 1}))"


class Unreadable(Exception):
    pass


def tokens(text):
    found, place = [], 0
    while True:
        match = TOKEN.match(text, place)
        if not match:
            raise Unreadable(text)
        found.append((match.lastgroup, match.group(match.lastgroup)))
        if match.lastgroup == "end":
            return found
        place = match.end()


def text_of(token):
    return re.sub(r"\\(.)", lambda m: ESCAPES[m.group(1)], token[1:-1], flags=re.S)


def expressions(terms):
    return "(" + "".join(f"expression {term} (" for term in terms) + "no_expressions" + ")" * len(terms) + ")"


def parts(pairs):
    return "(" + "".join(f"part {codes(name)} {term} (" for name, term in pairs) + "no_parts" + ")" * len(pairs) + ")"


class Reader:
    """One expression; each method gives a tree, which `term` turns into a term."""

    def __init__(self, text):
        self.tokens = tokens(text)
        self.place = 0
        self.levels = 0

    def deeper(self, read):
        """What stands one level deeper."""
        self.levels += 1
        if self.levels > DEEPEST:
            raise Unreadable("too deep")
        tree = read()
        self.levels -= 1
        return tree

    def peek(self, *signs):
        kind, value = self.tokens[self.place]
        return kind in ("sign", "name") and value in signs

    def take(self, *signs):
        if signs and not self.peek(*signs):
            raise Unreadable(str(self.tokens))
        token = self.tokens[self.place]
        self.place += 1
        return token

    def name(self):
        kind, value = self.take()
        if kind != "name":
            raise Unreadable(value)
        return value

    def whole(self):
        tree = self.inner()
        if self.tokens[self.place][0] != "end":
            raise Unreadable(str(self.tokens))
        return tree

    def inner(self):
        return self.chain("or", lambda: self.chain("and", self.negated))

    def chain(self, word, operand):
        trees = [operand()]
        while self.peek(word):
            self.take()
            trees.append(operand())
        return trees[0] if len(trees) == 1 else (word, trees)

    def negated(self):
        if self.peek("not"):
            self.take()
            return ("not", self.deeper(self.negated))
        return self.related()

    def related(self):
        left = self.filtered()
        if self.peek("==", "!=", "<", "<=", ">", ">="):
            sign = self.take()[1]
            right = self.filtered()
            if sign == "!=":
                return ("not", ("compare", "equal", left, right))
            return ("compare", ORDERS.get(sign, "equal"), left, right)
        if self.peek("in"):
            self.take()
            return ("in", left, self.filtered())
        if self.peek("not"):
            self.take()
            self.take("in")
            return ("not", ("in", left, self.filtered()))
        if self.peek("is"):
            self.take()
            turned = self.peek("not")
            if turned:
                self.take()
            tree = self.test(left)
            return ("not", tree) if turned else tree
        return left

    def test(self, left):
        word = self.name()
        if word in ("defined", "undefined"):
            tree = ("defined", left)
            return ("not", tree) if word == "undefined" else tree
        tree = ("status", TESTS[word], left)
        return ("not", tree) if word == "succeeded" else tree

    def filtered(self):
        tree = self.primary()
        while self.peek("|"):
            self.take()
            word = self.name()
            if word == "length":
                tree = ("length", tree)
            elif word == "default":
                self.take("(")
                tree = ("default", tree, self.deeper(self.inner))
                self.take(")")
            elif word == "join":
                between = ("literal", '(text [])')
                if self.peek("("):
                    self.take()
                    between = self.deeper(self.inner)
                    self.take(")")
                tree = ("join", tree, between)
            else:
                raise Unreadable(word)
        return tree

    def primary(self):
        kind, value = self.take()
        if kind == "int":
            if not -(2**63) <= int(value) < 2**63:
                raise Unreadable(value)
            return ("literal", integer(int(value)))
        if kind == "text":
            return ("text", text_of(value))
        if value in ("true", "True", "false", "False"):
            return ("literal", f"(boolean {value.lower()})")
        if value in ("none", "None"):
            return ("literal", "null")
        if value == "(":
            tree = self.deeper(self.inner)
            self.take(")")
            return tree
        if value == "[":
            return self.deeper(self.listed)
        if kind != "name" or value in WORDS:
            raise Unreadable(value)
        if value == "hostvars":
            return self.host_path()
        return self.path(value)

    def listed(self):
        trees = []
        if not self.peek("]"):
            trees.append(self.inner())
            while self.peek(","):
                self.take()
                trees.append(self.inner())
        self.take("]")
        return ("list", trees)

    def steps(self, most=MOST_STEPS):
        """The steps of a path, and the place in a group where one ends it."""
        found = []
        while self.peek(".", "["):
            if self.take()[1] == ".":
                found.append(self.name())
            else:
                kind, value = self.take()
                self.take("]")
                if kind == "int" and not value.startswith("-"):
                    return found, min(int(value), MOST_HOSTS)
                if kind != "text":
                    raise Unreadable(value)
                found.append(text_of(value))
            if len(found) > most:
                raise Unreadable("too many steps")
        return found, None

    def path(self, name):
        found, number = self.steps()
        if number is not None:
            if name != "groups" or len(found) != 1:
                raise Unreadable(name)
            return ("path", f"(member {codes(found[0])} {number})", [], ("group", found[0], number))
        return ("path", f"(variable {codes(name)})", found, name)

    def host_path(self):
        if not self.peek(".", "["):
            return ("hostvars", "None")
        if self.take()[1] == ".":
            term = f"(named_host {codes(self.name())})"
        else:
            term = self.term()
            self.take("]")
        found, number = self.steps(MOST_STEPS - 1)
        if number is not None:
            raise Unreadable("a place")
        if not found:
            return ("hostvars", f"(Some {term})")
        return ("path", f"(other {term} {codes(found[0])})", found[1:], None)

    def term(self):
        kind, value = self.take()
        if kind == "text":
            return f"(named_host {codes(text_of(value))})"
        if value == "inventory_hostname":
            return "this_host"
        if value == "item":
            return "item_host"
        found, number = self.steps()
        if value != "groups" or len(found) != 1 or number is None:
            raise Unreadable(value)
        return f"(group_member {codes(found[0])} {number})"


def host_term(tree):
    """The term that a tree names a host by, where it does."""
    if tree[0] == "text":
        return f"(named_host {codes(tree[1])})"
    if tree[0] == "path" and isinstance(tree[3], tuple):
        return f"(group_member {codes(tree[3][1])} {tree[3][2]})"
    if tree[0] == "path" and not tree[2] and tree[3] == "inventory_hostname":
        return "this_host"
    if tree[0] == "path" and not tree[2] and tree[3] == "item":
        return "item_host"
    return None


def is_batch(tree):
    return tree[0] == "path" and not tree[2] and tree[3] == "ansible_play_batch"


def term(tree):
    """A tree as a term of the definitions."""
    kind = tree[0]
    if kind == "literal":
        return f"(literal {tree[1]})"
    if kind == "text":
        return f"(literal (text {codes(tree[1])}))"
    if kind == "path":
        return f"(path {tree[1]} {names(tree[2])})"
    if kind == "hostvars":
        return f"(hostvars_alone {tree[1]})"
    if kind == "not":
        return f"(negation {term(tree[1])})"
    if kind in ("and", "or"):
        form = "conjunction" if kind == "and" else "disjunction"
        return f"({form} {expressions([term(t) for t in tree[1]])})"
    if kind == "compare":
        return f"(comparison {tree[1]} {term(tree[2])} {term(tree[3])})"
    if kind == "in":
        if is_batch(tree[2]) and host_term(tree[1]):
            return f"(in_batch {host_term(tree[1])})"
        return f"(membership {term(tree[1])} {term(tree[2])})"
    if kind == "list":
        return f"(list_of {expressions([term(t) for t in tree[1]])})"
    return filter_term(tree)


def tested_term(tree):
    """What is tested names nothing."""
    return "(hostvars_alone None)" if tree[0] == "hostvars" else term(tree)


def filter_term(tree):
    kind = tree[0]
    if kind == "defined":
        if tree[1][0] == "path":
            return f"(defined {tree[1][1]} {names(tree[1][2])})"
        return f"(undefinable {tested_term(tree[1])})"
    if kind == "status":
        if tree[2][0] == "path":
            return f"(path_status {tree[1]} {tree[2][1]} {names(tree[2][2])})"
        return f"(value_status {tree[1]} {term(tree[2])})"
    if kind == "default":
        if tree[1][0] == "path":
            return f"(path_or {tree[1][1]} {names(tree[1][2])} {term(tree[2])})"
        return f"(value_or {tested_term(tree[1])} {term(tree[2])})"
    if kind == "length":
        return f"(length_of {term(tree[1])})"
    return f"(joined_by {term(tree[1])} {term(tree[2])})"


def expression(text):
    return term(Reader(text).whole())


def cut(text):
    """The parts of a template: texts and, in pairs, expressions."""
    found, place = [], 0
    while True:
        opening = re.compile(r"\{[{%#]").search(text, place)
        if not opening:
            found.append(text[place:])
            return found
        start = opening.start()
        if opening.group() != "{{":
            raise Unreadable(text)
        found.append(text[place:start])
        match = re.compile(r"(?:'(?:[^'\\]|\\.)*'|\"(?:[^\"\\]|\\.)*\"|(?!\}\}).)*?\}\}", re.S).match(text, start + 2)
        if not match:
            raise Unreadable(text)
        found.append((match.group(0)[:-2],))
        place = match.end()


def template(value):
    """A value whose texts are templates, as a term."""
    if isinstance(value, dict):
        return f"(record_of {parts([(k, template(value[k])) for k in sorted(value, key=lambda k: k.encode())])})"
    if isinstance(value, list):
        return f"(list_of {expressions([template(v) for v in value])})"
    if value is None:
        return "(literal null)"
    if isinstance(value, bool):
        return f"(literal (boolean {str(value).lower()}))"
    if isinstance(value, int):
        return f"(literal {integer(value)})"
    found = cut(value)
    if len(found) == 1:
        return f"(literal (text {codes(value)}))"
    if len(found) == 3 and found[0] == "" and found[2] == "":
        return expression(found[1][0])
    terms = [expression(p[0]) if isinstance(p, tuple) else f"(literal (text {codes(p)}))" for p in found if p != ""]
    return f"(concatenation {expressions(terms)})"


def conditions(value):
    """A condition, or a list of them, as terms."""
    values = value if isinstance(value, list) else [value]
    return [f"(literal (boolean {str(v).lower()}))" if isinstance(v, bool) else expression(v) for v in values]
