#!/usr/bin/env python3
"""Checks a certificate of `raml`, as the pages in docs/ tell it: `python3 check.py FILE CERT`.

Prints the lines of the certificate CERT of the program FILE and ends with 0, or prints the first fault on the error
stream and ends with its status. It follows docs/language.md, potential.md, analysis.md and certificate.md, whose words
it uses. Numbers are whole numbers of any width: where `raml verify` ends with 9, since a number leaves its
range, this checker tells whether the certificate holds. Why a source is refused is told in words of its own.
"""

from __future__ import annotations

import json
import re
import sys
from collections import Counter, defaultdict, namedtuple
from collections.abc import Callable, Iterable, Iterator
from dataclasses import dataclass, field
from fractions import Fraction
from functools import lru_cache
from itertools import combinations, count, islice
from pathlib import Path

MOST_HEIGHT, MOST_FUNCTIONS, MOST_ARGUMENTS, MOST_TICKS = 200, 256, 8, 1_000_000
MOST_INTEGER, MOST_NUMBER, MOST_NESTING = 2**63 - 1, 2**127 - 1, 127
MOST = 2000  # indices, unknowns and rows
MOST_BYTES = {"program": 1 << 20, "certificate": 1 << 24}
METERS = ["ticks", "cells", "work"]
HOLDERS = ["list", "tree", "option"]

# A type is its kind before its parts: ("int",), ("pair", A, B), ("list", A).
Type = tuple
Types = tuple[Type, ...]
INT, BOOL = ("int",), ("bool",)


def parts_of(t: Type) -> Types:
    """The types of the parts of a value that is taken apart."""
    return t[1:] + {"list": (t,), "tree": (t, t)}.get(t[0], ())


class Fault(Exception):
    """Why the call is refused: a status, and a line without `raml: `."""


def need(holds: object, reason: str) -> None:
    if not holds:  # of a source
        raise Fault(4, f"source: {reason}")


KEYWORDS = "fun let in if then else match with nil leaf node true false not tick div mod int bool none some".split()
TOKEN = re.compile(r"[ \t\r\n]+|(\(\*)|([a-z][A-Za-z0-9_']*)|([0-9]+)|(::|<=|->|[(),:=<+\-*|])")
MARK = re.compile(r"\(\*|\*\)")
Token = namedtuple("Token", "kind text")  # the kind of a keyword and a symbol is its text


def tokens_of(text: str) -> Iterator[Token]:
    """The tokens by longest match, and behind them one of kind `end`."""
    at = 0
    while at < len(text):
        found = TOKEN.match(text, at)
        need(found, f"{text[at]} begins no token")
        at, depth, (_, name, number, symbol) = found.end(), found[1] is not None, found.groups()
        while depth > 0:
            mark = MARK.search(text, at)
            need(mark, "a comment has no end")
            at, depth = mark.end(), depth + (1 if mark[0] == "(*" else -1)
        if name or number or symbol:
            digits = (number or "").lstrip("0") or "0"
            need(len(digits) < 20 and int(digits) <= MOST_INTEGER, "a number is too great")
            kind = "number" if number else "name" if name and name not in KEYWORDS + HOLDERS else found[0]
            yield Token(kind, digits if number else found[0])
    yield Token("end", "")


@dataclass
class Expr:
    """An expression, or a function, which binds its name and its parameters; its last type is that of the result."""

    kind: str
    parts: list[Expr] = field(default_factory=list)
    binders: list[str] = field(default_factory=list)
    name: str = ""
    number: int = 0
    types: list[Type] = field(default_factory=list)
    height: int = 1


# what comes behind the first token of a form: E an expression, A an atom, T a type, and else tokens of these kinds
FORMS = {
    **{"let": "name = E in E", "split": "( name , name ) = E in E", "if": "E then E else E", "tick": "number in E"},
    **{"match": "E with", "nil": "-> E | name :: name -> E", "none": "-> E | some ( name ) -> E"},
    **{"leaf": "-> E | node ( name , name , name ) -> E", "node": "( E , E , E )", "some": "( E )", "not": "A"},
}
# the operators: the kind of their form, their level, and the level of the operand on their right
OPERATORS = {word: ("arith", 2, 3) for word in "+-"} | {word: ("arith", 3, 4) for word in ("*", "div", "mod")}
OPERATORS |= {word: ("compare", 0, 1) for word in ("=", "<", "<=")} | {"::": ("cons", 1, 1)}
ATOM = 4  # the level of what needs no parentheses


class Parser:
    def __init__(self, text: str) -> None:
        self.tokens, self.next = list(tokens_of(text)), 0

    @property
    def kind(self) -> str:
        return self.tokens[self.next].kind

    def take(self, *kinds: str) -> str:
        """The text of the next token, which is of one of these kinds."""
        need(self.kind in kinds, f"{self.tokens[self.next].text or 'the end'} where {' or '.join(kinds)} is wanted")
        self.next += 1
        return self.tokens[self.next - 1].text

    def many(self, read: Callable[[], object], most: int, sign: str, end: str) -> list:
        """One or more of these, each other one behind or with this sign, and then the end."""
        items = [read()]
        while self.kind == sign:
            self.next += sign == ","
            items.append(read())
        need(len(items) <= most, "too many functions, parameters or arguments")
        self.take(end)
        return items

    def function(self) -> Expr:
        e = self.form(Expr("fun"), "fun name (")
        self.many(lambda: self.form(e, "name : T"), MOST_ARGUMENTS, ",", ")")
        need(self.form(e, ": T = E").height <= MOST_HEIGHT + 1, "a body or a type is too high")
        return e

    def type(self) -> tuple[Type, int]:
        """A type and its height."""
        if self.take("int", "bool", "(") == "(":
            left, height = self.type()
            height += len(self.take(")"))
        else:
            left, height = (self.tokens[self.next - 1].kind,), 1
        while self.kind in HOLDERS:
            left, height = (self.take(*HOLDERS), left), height + 1
        if self.kind == "*":
            right, other = self.take("*") and self.type()
            left, height = ("pair", left, right), 1 + max(height, other)
        return left, height

    def expr(self, level: int) -> Expr:
        """An expression of the operators from this level on, as far as it goes."""
        if level == 0 and self.kind in ("let", "if", "match", "tick"):
            e = Expr(self.take(self.kind))
            e.kind = "split" if e.kind == "let" and self.kind == "(" else e.kind
            self.form(e, FORMS[e.kind])
            if e.kind == "match":
                e.name = self.take("nil", "leaf", "none")
                self.form(e, FORMS[e.name])
            return e
        left = self.atom()
        while OPERATORS.get(self.kind, ("", -1))[1] >= level:
            kind, _, right_level = OPERATORS[self.take(self.kind)]
            parts = [left, self.expr(right_level)]
            left = Expr(kind, parts, height=1 + max(part.height for part in parts))
            if kind == "compare":
                break
        return left

    def form(self, e: Expr, template: str) -> Expr:
        """More of a form, by what comes next in it."""
        for word in template.split():
            if word == "E" or word == "A":
                e.parts.append(self.expr(0 if word == "E" else ATOM))
                e.height = max(e.height, 1 + e.parts[-1].height)
            elif word == "T":
                found, height = self.type()
                e.types.append(found)
                e.height = max(e.height, 1 + height)
            elif word == "name":
                e.binders.append(self.take(word))
            elif word == "number":
                e.number = int(self.take(word))
            else:
                self.take(word)
        need(e.number <= MOST_TICKS, "too many ticks")
        return e

    def atom(self) -> Expr:
        atoms = ["number", "true", "false", "nil", "leaf", "none", "name", "node", "some", "not", "("]
        e = Expr(self.kind, name=self.take(*atoms))
        if e.kind in ("node", "some", "not"):
            return self.form(e, FORMS[e.kind])
        if e.kind == "(":
            return self.parenthesis(self.expr(0))
        if e.kind == "name" and self.kind == "(":
            self.next += 1
            e.kind, e.parts = "call", self.many(lambda: self.expr(0), MOST_ARGUMENTS, ",", ")")
            e.height += max(part.height for part in e.parts)
        return e

    def parenthesis(self, inside: Expr) -> Expr:
        if self.kind == ")":
            inside.height += len(self.take(")"))
            return inside
        if self.kind == ",":
            return self.form(Expr("pair", [inside], height=1 + inside.height), ", E )")
        return self.form(Expr("typed", [inside], height=1 + inside.height), ": T )")


HOLDER = dict(nil="list", cons="list", leaf="tree", node="tree", none="option", some="option", pair="pair")


@dataclass(eq=False)
class Form:
    """A form of a normal form. Its kind is that of the page, but `Plain` is a constant, an operator or an empty value,
    `Build` a constructor with a cell, and `Case` a match, or an `If`, which binds nothing. It uses its operands, or the
    variable that it tests, takes apart, shares or drops, and it binds variables in its last part."""

    kind: str
    uses: tuple[int, ...] = ()
    binds: tuple[int, ...] = ()
    parts: tuple[Form, ...] = ()
    number: int = 0  # the ticks of a `Tick`, the function of a `Call`
    nodes: int = 0
    context: tuple[int, ...] = ()
    types: Types = ()  # those of the context

    def __post_init__(self) -> None:
        self.free = frozenset(self.uses).union(*[part.free for part in self.parts]) - set(self.binds)


def replaced(context: tuple[int, ...], x: int, new: tuple[int, ...]) -> tuple[int, ...]:
    """The context with these in the place of a variable."""
    at = context.index(x)
    return context[:at] + new + context[at + 1 :]


class Program:
    """A typed program: normal forms of its functions, groups, callees first, and the type of each variable."""

    def __init__(self, text: str) -> None:
        parser = Parser(text)
        functions = parser.many(parser.function, MOST_FUNCTIONS, "fun", "end")
        self.names = [f.binders[0] for f in functions]
        for names in [self.names] + [f.binders[1:] for f in functions]:
            need(len(set(names)) == len(names), "a name stands twice")
        self.args, self.results = [tuple(f.types[:-1]) for f in functions], [f.types[-1] for f in functions]
        self.types: list[Type] = []
        self.calls: list[set[int]] = []
        self.bodies = [self.body(f) for f in functions]
        self.groups = groups_of(self.calls)

    def new(self, *types: Type) -> tuple[int, ...]:
        self.types += types
        return tuple(range(len(self.types) - len(types), len(self.types)))

    def body(self, f: Expr) -> Form:
        self.calls.append(set())
        params = self.new(*f.types[:-1])
        _, form = self.one(f.types[-1], dict(zip(f.binders[1:], params)), f.parts[0])
        form.nodes += 1
        return self.two(form, params, {x: x for x in params})

    def one(self, want: Type | None, scope: dict[str, int], e: Expr) -> tuple[Type, Form]:
        """The type of an expression, which is found, or checked against the one that is wanted; and step one."""
        lets, uses = [], []

        def operand(want: Type | None, part: Expr) -> Type:
            """An operand. If it is no variable, it is bound to a new one."""
            found, form = self.one(want, scope, part)
            if form.kind != "Var":
                lets.append((self.new(found), form))
            uses.extend(form.uses if form.kind == "Var" else lets[-1][0])
            return found

        found, form = self.over(want, scope, e, operand)
        need(want in (None, found), "another type is wanted")
        if e.kind == "typed":
            return found, form
        form = Form(form.kind, form.uses or tuple(uses), form.binds, form.parts, form.number)
        for binds, bound in reversed(lets):
            form = Form("Let", (), binds, (bound, form))
        form.nodes = 1 + len(uses) - len(lets)
        return found, form

    def over(self, want: Type | None, scope: dict[str, int], e: Expr, operand: Callable) -> tuple[Type, Form]:
        """The type of an expression, and its form, which has yet to get its operands."""
        parts = e.parts
        match e.kind:
            case "number" | "true" | "false":
                return INT if e.kind == "number" else BOOL, Form("Plain")
            case "arith" | "compare" | "not":
                for part in parts:
                    operand(BOOL if e.kind == "not" else INT, part)
                return INT if e.kind == "arith" else BOOL, Form("Plain")
            case "name":
                need(e.name in scope, "a variable is not bound")
                return self.types[scope[e.name]], Form("Var", (scope[e.name],))
            case "call":
                need(e.name in self.names, "a function is not there")
                f = self.names.index(e.name)
                need(len(self.args[f]) == len(parts), "a call has another number of arguments")
                self.calls[-1].add(f)
                for t, part in zip(self.args[f], parts):
                    operand(t, part)
                return self.results[f], Form("Call", number=f)
            case "let":
                found, bound = self.one(None, scope, parts[0])
                binds = self.new(found)
                found, rest = self.one(want, scope | {e.binders[0]: binds[0]}, parts[1])
                return found, Form("Let", (), binds, (bound, rest))
            case "if":
                operand(BOOL, parts[0])
                found, first = self.one(want, scope, parts[1])
                return found, Form("Case", parts=(first, self.one(found, scope, parts[2])[1]))
            case "tick":
                found, rest = self.one(want, scope, parts[0])
                return found, Form("Tick", parts=(rest,), number=e.number)
            case "typed":
                return self.one(e.types[0], scope, parts[0])
            case "split" | "match":
                return self.opened(want, scope, e, operand)
        need(e.parts != [] or want is not None, "an empty value needs a type")
        need(want is None or want[0] == HOLDER[e.kind], "another type is wanted")
        if not parts:
            return want, Form("Plain")
        first = operand(want[1] if want else None, parts[0])
        if e.kind == "pair":
            return ("pair", first, operand(want[2] if want else None, parts[1])), Form("Build")
        for part in parts[1:]:
            operand((HOLDER[e.kind], first), part)
        return (HOLDER[e.kind], first), Form("Build")

    def opened(self, want: Type | None, scope: dict[str, int], e: Expr, operand: Callable) -> tuple[Type, Form]:
        """Of a `let` of a pair, and of a match."""
        subject, forms = operand(None, e.parts[0]), []
        need(subject[0] == HOLDER[e.name or "pair"], "a value of another kind is taken apart")
        need(len(set(e.binders)) == len(e.binders), "a name stands twice")
        for part in e.parts[1:-1]:
            want, form = self.one(want, scope, part)
            forms.append(form)
        binds = self.new(*parts_of(subject))
        found, last = self.one(want, scope | dict(zip(e.binders, binds)), e.parts[-1])
        return found, Form("Case" if forms else "Split", (), binds, (*forms, last))

    def two(self, form: Form, context: tuple[int, ...], copies: dict[int, int]) -> Form:
        """Step two: each variable is used once. Context and form have the variables of step one, and `copies` those
        that stand for them."""
        around = [("Drop", (copies[x],), ()) for x in context if x not in form.free]
        outside = tuple(copies[x] for x in context)
        context, copies = tuple(x for x in context if x in form.free), copies | {x: x for x in form.binds}

        def use(x: int, again: bool) -> int:
            """What is used for a variable: where it is used again, the first copy, and the second one stays."""
            first = copies[x]
            if again:
                around.append(("Share", (first,), self.new(*[self.types[x]] * 2)))
                first, copies[x] = around[-1][2]
            return first

        uses, parts = (), form.parts
        if form.kind == "Let":
            used = {x: use(x, x in parts[1].free) for x in context if x in parts[0].free}
            others = tuple(x for x in context if x in parts[1].free) + form.binds
            parts = (self.two(parts[0], tuple(used), used), self.two(parts[1], others, copies))
        elif parts:
            stays = tuple(x for x in form.uses if any(x in part.free for part in parts))
            uses, contexts = tuple(use(x, stays != ()) for x in form.uses), [context]
            for x in form.uses:
                contexts = [replaced(context, x, new) for new in (stays, form.binds + stays)]
            parts = tuple(self.two(part, inner, copies) for part, inner in zip(parts, contexts[-len(parts) :]))
        else:
            uses = tuple(use(x, x in form.uses[k + 1 :]) for k, x in enumerate(form.uses))
        made = Form(form.kind, uses, form.binds, parts, form.number, form.nodes)
        for kind, used, binds in reversed(around):
            made = Form(kind, used, binds, (made,))
        self.place(made, outside)
        return made

    def place(self, form: Form, context: tuple[int, ...]) -> None:
        """Tells a form its context, and also what it shares or drops for."""
        form.context, form.types = context, tuple(self.types[x] for x in context)
        if form.kind in ("Share", "Drop"):
            self.place(form.parts[0], replaced(context, form.uses[0], form.binds))


def groups_of(calls: list[set[int]]) -> list[list[int]]:
    """Of the groups that may come next, the one with the least function first."""
    reach = [{f} | called for f, called in enumerate(calls)]
    for via, beyond in enumerate(reach):
        for reached in reach:
            reached |= beyond if via in reached else set()
    together = [sorted(g for g in reached if f in reach[g]) for f, reached in enumerate(reach)]
    groups, placed = [], set()
    while len(placed) < len(calls):
        groups.append(next(g for f, g in enumerate(together) if f not in placed and reach[f] <= placed.union(g)))
        placed.update(groups[-1])
    return groups


# `_` is (0,), a pair (1, i, j), a list or tree index (2, i1, .., ik), an option index (3,) or (3, i). So Python's order
# of tuples is the order of indices, and the entries of an index stand behind its first item.
Index = Tuple = tuple
Annotation = dict  # the numbers by their positions; one that is not there is 0
Carry = Callable[[Tuple], Iterable[tuple[Tuple, int]]]  # what a tuple is carried to, and how often that counts


class TooMany(Exception):
    """A type or a context has more than 2000 indices."""


def few(items: Iterable) -> list:
    found = list(islice(items, MOST + 1))
    if len(found) > MOST:
        raise TooMany
    return found


@lru_cache(None)
def degree(i: Index) -> int:
    """The degree of an index. That of a tuple is the degree of a pair of all its indices."""
    return (len(i) - 1 if i[0] >= 2 else 0) + sum(map(degree, i[1:]))


def zero_index(t: Type) -> Index:
    return (1, *map(zero_index, t[1:])) if t[0] == "pair" else ({"list": 2, "tree": 2, "option": 3}.get(t[0], 0),)


@lru_cache(None)
def indices(t: Type, d: int) -> list[Index]:
    """The indices of a type of degree at most d."""
    if t[0] == "pair":
        return few((1, i, j) for i in indices(t[1], d) for j in indices(t[2], d - degree(i)))
    firsts = indices(t[1], d - 1) if t[0] in HOLDERS and d > 0 else []
    if t[0] == "option":
        return few([(3,)] + [(3, i) for i in firsts])
    return few([zero_index(t)] + [(2, i, *r[1:]) for i in firsts for r in indices(t, d - 1 - degree(i))])


@lru_cache(None)
def tuples(types: Types, d: int) -> list[Tuple]:
    """The tuples of a context of degree at most d, by position."""
    found: list[Tuple] = [()]
    for t in types:
        found = few(u + (i,) for u in found for i in indices(t, d - degree((1, *u))))
    return sorted(found, key=lambda u: (degree((1, *u)), u))


@lru_cache(None)
def positions(types: Types, d: int) -> dict[Tuple, int]:
    return {t: k for k, t in enumerate(tuples(types, d))}


@lru_cache(None)
def product(i: Index, j: Index) -> Counter:
    """The product of two indices of one type: how often each index counts."""
    if i[0] == 0 or len(i) == 1 or len(j) == 1:
        return Counter([max(i, j)])
    if i[0] == 1:
        firsts, seconds = product(i[1], j[1]), product(i[2], j[2])
        return Counter({(1, a, b): m * n for a, m in firsts.items() for b, n in seconds.items()})
    cases = [(product(i[1], j[1]), (i[0], *i[2:]), (j[0], *j[2:]))]
    if i[0] == 2:
        cases += [(Counter([i[1]]), (2, *i[2:]), j), (Counter([j[1]]), i, (2, *j[2:]))]
    sums: Counter = Counter()
    for firsts, rest, other in cases:
        for k, m in firsts.items():
            for r, n in product(rest, other).items():
                sums[(i[0], k, *r[1:])] += m * n
    return sums


@lru_cache(None)
def index_parts(t: Type, i: Index) -> list[Tuple]:
    """The tuples of the parts that stand for an index when a value of the type is taken apart."""
    if t[0] == "pair":
        return [i[1:]]
    none = zero_index(t[1])
    if t[0] == "option":
        return [i[1:] or (none,)]
    heads = [(none, i[1:])] + ([(i[1], i[2:])] if len(i) > 1 else [])
    if t[0] == "list":
        return [(head, (2, *tail)) for head, tail in heads]
    return [(head, (2, *rest[:k]), (2, *rest[k:])) for head, rest in heads for k in range(len(rest) + 1)]


def moved(q: Annotation, source: Types, target: Types, d: int, carry: Carry) -> Annotation:
    """An annotation, carried from one context to another at budget d."""
    from_, to, out = tuples(source, d), positions(target, d), {}
    for k, number in q.items():
        for u, times in carry(from_[k]) if k < len(from_) else ():
            if u in to:
                out[to[u]] = out.get(to[u], 0) + times * number
    return out


def index_text(i: Index) -> str:
    inside = ", ".join(map(index_text, i[1:]))
    return "_" if i[0] == 0 else f"({inside})" if i[0] == 1 else f"[{inside}]"


def components(t: Type) -> list[Type]:
    return components(t[1]) + components(t[2]) if t[0] == "pair" else [t]


def cuts(entries: tuple, n: int) -> list[tuple]:
    """The ways to cut a list into n pieces."""
    if n == 1:
        return [(entries,)]
    return [(entries[:k], *rest) for k in range(len(entries) + 1) for rest in cuts(entries[k:], n - 1)]


def filled(t: Type, pieces: dict[int, tuple], places: Iterator[int]) -> Index:
    """The index with pieces at these components, of which the places are counted."""
    if t[0] == "pair":
        return (1, filled(t[1], pieces, places), filled(t[2], pieces, places))
    place = next(places)
    return (2, *pieces[place]) if place in pieces else zero_index(t)


@lru_cache(None)
def targets(result: Type, d: int) -> list[list[Index]]:
    """The targets of a type, each by the indices that it has 1 at."""
    holders = [(k, t[1]) for k, t in enumerate(components(result)) if t[0] in ("list", "tree")][:8]
    joined = []
    for chosen in (c for n in (2, 3, 4) for c in combinations(holders, n)):
        if len({element for _, element in chosen}) == 1:
            lists = indices(("list", chosen[0][1]), d)
            joined += [(degree(i), i, [k for k, _ in chosen]) for i in lists if degree(i) > 0]
    cut = [[dict(zip(places, pieces)) for pieces in cuts(i[1:], len(places))] for _, i, places in sorted(joined)]
    return [[i] for (i,) in tuples((result,), d)] + [[filled(result, p, count()) for p in pieces] for pieces in cut]


Task = namedtuple("Task", "group kind budget function target", defaults=(0, 0, 0))  # the kind is a meter, or `free`


def fits(value: object, shape: object) -> bool:
    """Whether a JSON value has a shape: a natural below a limit, a text, a list of one shape, a pair of shapes, an
    object by its keys, or what passes a test."""
    match shape:
        case int():
            return type(value) is int and 0 <= value < shape
        case type():
            return isinstance(value, shape)
        case [inner]:
            return isinstance(value, list) and all(fits(item, inner) for item in value)
        case (first, second):
            return isinstance(value, list) and len(value) == 2 and fits(value[0], first) and fits(value[1], second)
        case dict():
            return isinstance(value, dict) and set(value) == set(shape) and all(fits(value[k], shape[k]) for k in shape)
    return shape(value)


def ascend(entries: list) -> bool:
    return all(a[0] < b[0] for a, b in zip(entries, entries[1:]))


def is_annotation(value: object) -> bool:
    return fits(value, ENTRIES) and ascend(value)


def is_block(value: object, meters: list[str]) -> bool:
    free = {"kind": lambda kind: kind == "free", "budget": 256, "function": WIDE, "target": WIDE}
    tasks = free, {"kind": lambda kind: kind in meters}
    return any(fits(value, {"group": WIDE} | task | found) for task in tasks for found in FOUND)


def is_head(value: object, version: int) -> bool:
    scale = {meter: str for meter in METERS[: version + 1]}
    numbers = {"version": lambda v: fits(v, 3) and v == version, "degree": lambda d: fits(d, 5) and d > 0}
    return fits(value, numbers | {"scale": scale, "blocks": [object]})


WIDE = 2**32
ENTRIES = [(WIDE, str)]
HINTS = {"let": [is_annotation]}, {"share": is_annotation}, {"call": ENTRIES}
SOLVED = {"sigs": [(is_annotation, is_annotation)], "hints": [[lambda hint: any(fits(hint, shape) for shape in HINTS)]]}
FOUND = SOLVED, {"farkas": ENTRIES}, {"calls": WIDE}


def json_value(data: bytes) -> object:
    """The value of a JSON text. An integer that is no natural of a few digits is a float."""

    def real(digits: str) -> float:
        if not abs(number := float(digits)) < float("inf"):
            raise ValueError(digits)
        return number

    text, depth = data.decode("utf-8"), 0
    for mark in re.finditer(r'"(?:[^"\\]|\\.)*"|[\[{]|[\]}]', text, re.DOTALL):
        depth += {"[": 1, "{": 1, "]": -1, "}": -1}.get(mark[0], 0)
        if depth > MOST_NESTING:
            raise ValueError("too deep")
    for escape in re.finditer(r"\\(?:u[dD][89abAB]..\\u[dD][c-fC-F]..|u([dD])[89a-fA-F]..|.)", text):
        if escape[1]:
            raise ValueError("half of a surrogate pair")
    natural = lambda digits: int(digits) if len(digits) < 20 and digits[0] != "-" else real(digits)
    return json.loads(text, parse_int=natural, parse_float=real, parse_constant=real)


def whole(value: object) -> object:
    """The value with numbers in the place of texts."""
    if isinstance(value, dict):
        return {key: inside if key == "kind" else whole(inside) for key, inside in value.items()}
    if isinstance(value, list):
        return list(map(whole, value))
    if isinstance(value, str) and not (re.fullmatch("[1-9][0-9]{0,38}", value) and int(value) <= MOST_NUMBER):
        raise ValueError(value)
    return int(value)


def read_certificate(data: bytes) -> dict:
    """The certificate as the JSON that it is, with numbers in the place of texts."""

    def look(place: str, part: object, shapely: bool) -> object:
        if not shapely:
            raise Fault(7, f"certificate: shape in {place}")
        try:
            return whole(part)
        except ValueError:
            raise Fault(7, f"certificate: number in {place}") from None

    try:
        value = json_value(data)
    except ValueError:
        raise Fault(7, "certificate: not json") from None
    version = next((v for v in (1, 2) if is_head(value, v)), 0)
    scale = look("head", value["scale"] if version else 0, version > 0)
    meters = METERS[: version + 1]
    blocks = [look(f"block {k}", block, is_block(block, meters)) for k, block in enumerate(value["blocks"])]
    return {"degree": value["degree"], "scale": {m: scale[m] for m in meters}, "blocks": blocks}


class Sum(dict):
    """A sum of unknowns, by their numbers. What stands beside them has the number -1."""

    def __add__(self, other: Number) -> Sum:
        total = Sum(self)
        for u, n in other.items() if isinstance(other, Sum) else [(-1, other)]:
            total[u] = total.get(u, 0) + n
        return total

    def __mul__(self, times: int) -> Sum:
        return Sum({u: times * n for u, n in self.items()})

    def __sub__(self, other: Number) -> Sum:
        return self + -1 * other

    __radd__, __rmul__ = __add__, __mul__


Number = int | Sum
Place = tuple[int, ...]
Sig = list[Annotation]  # that of the arguments and that of the result


class Check:
    """The check of a certificate. A walk asks `sig` for the signature of the function at a place of the group, and
    `hint` for a hint of a kind, by numbers of positions or by the blocks that a call may take. It tells `judge` the
    path, the index and both sides of each condition."""

    def __init__(self, program: Program, certificate: dict) -> None:
        self.program, self.degree, self.scales = program, certificate["degree"], certificate["scale"]
        self.blocks: list[dict] = certificate["blocks"]
        self.tasks: list[Task] = []  # those of the blocks so far
        self.found: dict[tuple[str, int], dict[int, Sig]] = defaultdict(dict)  # by kind and function, by block

    def run(self) -> list[str]:
        """The lines of the certificate."""
        for group in range(len(self.program.groups)):
            for task in self.group_tasks(group):
                self.block(task, self.blocks[len(self.tasks)] if len(self.tasks) < len(self.blocks) else {})
                self.tasks.append(task)
        if len(self.tasks) < len(self.blocks):
            raise self.out_of_place()
        for number, block in enumerate(self.blocks):
            if "farkas" in block:
                self.refute(number, self.tasks[number], block["farkas"])
        return [self.line(f, meter) for f in range(len(self.program.names)) for meter in self.scales]

    def out_of_place(self) -> Fault:
        return Fault(7, f"certificate: block {len(self.tasks)} is not in the schedule")

    def too_large(self, task: Task, what: str) -> Fault:
        name = self.program.names[task.function if task.kind == "free" else self.program.groups[task.group][0]]
        text = f"free budget {task.budget} target {task.target}" if task.kind == "free" else task.kind
        return Fault(8, f"too large: {name} {text}: {what}")

    def group_tasks(self, group: int) -> Iterator[Task]:
        """The tasks of a group, but for targets that are solved."""
        d, functions, solved = self.degree, self.program.groups[group], set()
        for f in functions:
            try:
                tuples((self.program.results[f],), d)
            except TooMany:
                raise self.too_large(Task(group, "free", d, f), "indices") from None
        for budget in range(d + 1):
            for f in functions:
                for k, target in enumerate(targets(self.program.results[f], d)):
                    if degree(target[0]) <= budget and (f, k) not in solved:
                        yield Task(group, "free", budget, f, k)
                        solved |= {(f, k)} if "sigs" in self.blocks[len(self.tasks) - 1] else set()
        yield from (Task(group, meter) for meter in self.scales)

    def block(self, task: Task, block: dict) -> None:
        """The tests of a block."""
        group, number = self.program.groups[task.group], len(self.tasks)
        called = set().union(*[self.program.calls[f] for f in group]) - set(group)
        waits = [f for f in called if task.kind != "free" and not self.found[task.kind, f]]
        is_next = [block.get(key, 0) for key in Task._fields] == list(task)
        if not is_next or block.get("calls") != min(waits, default=None) or not ascend(block.get("farkas", [])):
            raise self.out_of_place()
        if "sigs" not in block:
            return
        fits, fails = len(block["sigs"]) == len(block["hints"]) == len(group), []
        hints = [iter(hints) for hints in block["hints"] + [[]] * len(group)]

        def fitted(sizes: list[int], annotations: list) -> list[Annotation]:
            nonlocal fits
            fits = fits and len(sizes) == len(annotations)
            fits = fits and all(k < n for n, q in zip(sizes, annotations) for k, _ in q)
            return list(map(dict, annotations)) if fits else [{} for _ in sizes]

        def sig(place: int, sizes: list[int]) -> Sig:
            return fitted(sizes, block["sigs"][place] if fits else [])

        def hint(path: Place, kind: str, about: list[int]) -> list:
            nonlocal fits
            [(given, inside)] = next(hints[path[0]], {"": []}).items()
            fits = fits and given == kind
            if kind != "call":
                return fitted(about, [inside] if given == "share" else inside)
            fits = fits and ascend(inside) and all(k in about for k, _ in inside)
            return inside if fits else []

        def judge(path: Place, index: int, left: Number, right: Number) -> None:
            if left < right:
                fails.append(f"certificate: block {number} fails at {'.'.join(map(str, path))} index {index}")

        self.walk(number, task, sig, hint, judge)
        if not fits or any(next(rest, None) for rest in hints):
            raise self.out_of_place()
        if fails:
            raise Fault(7, fails[0])
        for f in group:
            self.found[task.kind, f][number] = self.sigs[f]

    def refute(self, number: int, task: Task, farkas: list) -> None:
        """Makes the system of the task, which the vector has to refute."""
        rows: list[Sum] = []

        def sig(place: int, sizes: list[int]) -> Sig:
            return [{k: unknown(next(unknowns)) for k in range(n)} for n in sizes]

        def hint(path: Place, kind: str, about: list[int]) -> list:
            return [(block, unknown(next(unknowns))) for block in about] if kind == "call" else sig(0, about)

        def judge(path: Place, index: int, left: Number, right: Number) -> None:
            row = Sum() + left - right
            if any(n < 0 for n in row.values()):
                rows.append(row)

        for unknown in (lambda u: 0, lambda u: Sum({u: 1})):  # the first walk only counts
            unknowns, rows[:] = count(), []
            self.walk(number, task, sig, hint, judge)
            if next(unknowns) > MOST:
                raise self.too_large(task, "unknowns")
        if len(rows) > MOST:
            raise self.too_large(task, "rows")
        total = sum((times * rows[k] for k, times in farkas if k < len(rows)), Sum())
        if any(k >= len(rows) for k, _ in farkas) or total.pop(-1, 0) >= 0 or any(n > 0 for n in total.values()):
            raise Fault(7, f"certificate: block {number} does not refute")

    def walk(self, number: int, task: Task, sig: Callable, hint: Callable, judge: Callable) -> None:
        """The target and the bodies of a task's group."""
        group, args, results = self.program.groups[task.group], self.program.args, self.program.results
        self.number, self.task, self.hint, self.judge = number, task, hint, judge
        self.scale, self.sigs = self.scales.get(task.kind, 1), {}
        d = task.budget if task.kind == "free" else self.degree
        try:
            for place, f in enumerate(group):
                self.sigs[f] = sig(place, [len(tuples(types, d)) for types in (args[f], (results[f],))])
            if task.kind == "free":
                q, result = self.sigs[task.function][1], results[task.function]
                for k in sorted(positions((result,), d)[i,] for i in targets(result, self.degree)[task.target]):
                    judge((group.index(task.function),), k, q.get(k, 0), 1)
            for place, (f, (q, r)) in enumerate(self.sigs.items()):
                self.form(self.program.bodies[f], q, results[f], r, d, True, (place,))
        except TooMany:
            raise self.too_large(task, "indices") from None

    def cover(self, path: Place, index: int, q: Annotation, r: Annotation) -> None:
        """At each position the first annotation has at least the number of the second."""
        for k in sorted(q.keys() | r.keys()):
            self.judge(path, index + k, q.get(k, 0), r.get(k, 0))

    def form(self, e: Form, q: Annotation, t: Type, r: Annotation, d: int, now: bool, path: Place) -> None:
        """A form at budget d, in the present mode (now) or in mode `Past`. Its context has the annotation q, and its
        result, of type t, has r."""
        tuples(e.types, d), tuples((t,), d)  # there are not too many
        paid, index, at = self.task.kind if now else "", 0, e.context.index(e.uses[0]) if e.uses else 0
        if paid == "work" and e.nodes > 0:
            self.judge(path, 0, q.get(0, 0), e.nodes * self.scale)
            q, index = q | {0: q.get(0, 0) - e.nodes * self.scale}, 1
        if e.kind == "Var":
            self.cover(path, index, q, r)
        elif e.kind == "Plain":
            self.judge(path, index, q.get(0, 0), r.get(0, 0))
        elif e.kind == "Build":
            order = [e.uses.index(x) for x in e.context]
            carry = lambda u: [(tuple(parts[k] for k in order), 1) for parts in index_parts(t, u[0])]
            asked = moved(r, (t,), e.types, d, carry)
            self.cover(path, index, q, asked | ({0: asked.get(0, 0) + self.scale} if paid == "cells" else {}))
        elif e.kind == "Call":
            self.call(e, q, t, r, d, now, path, index)
        elif e.kind == "Let":
            self.let(e, q, t, r, d, now, path)
        elif e.kind == "Share":
            [copies] = self.hint(path, "share", [len(tuples(e.parts[0].types, d))])
            join = lambda u: [(u[:at] + (i,) + u[at + 2 :], n) for i, n in product(u[at], u[at + 1]).items()]
            self.cover(path, index, q, moved(copies, e.parts[0].types, e.types, d, join))
            self.form(e.parts[0], copies, t, r, d, now, path + (0,))
        elif e.kind == "Tick":
            price = e.number * self.scale if paid == "ticks" else 0
            self.judge(path, index, q.get(0, 0), price)
            self.form(e.parts[0], q | {0: q.get(0, 0) - price}, t, r, d, now, path + (0,))
        else:
            for k, part in enumerate(e.parts):
                opens = e.binds != () and k == len(e.parts) - 1
                split = lambda u: index_parts(e.types[at], u[at]) if opens else [()] if degree(u[at]) == 0 else []
                carry = lambda u: [(u[:at] + parts + u[at + 1 :], 1) for parts in split(u)]
                self.form(part, moved(q, e.types, part.types, d, carry), t, r, d, now, path + (k,))

    def call(self, e: Form, q: Annotation, t: Type, r: Annotation, d: int, now: bool, path: Place, index: int) -> None:
        f, args, left, order = e.number, {}, {}, [e.uses.index(x) for x in e.context]
        free, paid = self.found["free", f], {} if self.task.kind == "free" else self.found[self.task.kind, f]
        usable = [k for k in free if k < self.number and self.tasks[k].budget <= d]
        taken = [(free[block], times) for block, times in self.hint(path, "call", usable)]
        taken += [(sig, 1) for sig in ([self.sigs[f]] if f in self.sigs else paid.values()) if now]
        for sig, times in taken:
            for out, numbers in zip((args, left), sig):
                for k, number in numbers.items():
                    out[k] = out.get(k, 0) + times * number
        asked = moved(args, self.program.args[f], e.types, d, lambda u: [(tuple(u[k] for k in order), 1)])
        if now and self.task.kind == "work":
            asked[0] = asked.get(0, 0) - self.scale
        self.cover(path, index, q, asked)
        self.cover(path, index + len(tuples(e.types, d)), moved(left, (t,), (t,), d, lambda u: [(u, 1)]), r)

    def let(self, e: Form, q: Annotation, t: Type, r: Annotation, d: int, now: bool, path: Place) -> None:
        (bound, rest), joined = e.parts, {}
        others, bound_type = rest.types[:-1], rest.types[-1]
        places = [e.context.index(x) for x in rest.context[:-1]], [e.context.index(x) for x in bound.context]
        parts: list[Annotation] = [{} for _ in tuples(others, d)]
        for k, number in q.items():
            j, u = (tuple(tuples(e.types, d)[k][place] for place in some) for some in places)
            parts[positions(others, d)[j]][positions(bound.types, d)[u]] = number
        budgets = [d - degree((1, *j)) for j in tuples(others, d)]
        results = self.hint(path, "let", [len(tuples((bound_type,), budget)) for budget in budgets])
        for j, u in enumerate(tuples(others, d)):
            self.form(bound, parts[j], bound_type, results[j], budgets[j], now and j == 0, path + (j,))
            for k, number in results[j].items():
                joined[positions(rest.types, d)[u + tuples((bound_type,), d)[k]]] = number
        self.form(rest, joined, t, r, d, now, path + (len(parts),))

    def line(self, f: int, meter: str) -> str:
        pairs = zip(self.tasks, self.blocks)
        block = next(b for task, b in pairs if task.kind == meter and f in self.program.groups[task.group])
        if "sigs" not in block:
            called = f": calls {self.program.names[block['calls']]}" if "calls" in block else ""
            return f"{self.program.names[f]} {meter} no bound{called}"
        terms, of_degree = [], tuples(self.program.args[f], self.degree)
        for k, number in next(iter(self.found[meter, f].values()))[0].items():
            base = f"*<{', '.join(map(index_text, of_degree[k]))}>" if k > 0 else ""
            terms.append(f"{Fraction(number, self.scales[meter])}{base}")
        return f"{self.program.names[f]} {meter} <= {' + '.join(terms) or '0'}"


def read(name: str, what: str) -> bytes:
    try:
        data = Path(name).read_bytes()
    except (OSError, ValueError):
        raise Fault(2, f"cannot read {what}") from None
    if len(data) > MOST_BYTES[what]:
        raise Fault(3, f"too long: {what}")
    return data


def main(words: list[str]) -> int:
    try:
        if len(words) != 2:
            raise Fault(1, "usage")
        program = Program(read(words[0], "program").decode("utf-8"))
        lines = Check(program, read_certificate(read(words[1], "certificate"))).run()
    except (Fault, UnicodeDecodeError, RecursionError) as error:
        status, line = error.args if isinstance(error, Fault) else (4, "source: no text, or too deep")
        print(f"raml: {line}", file=sys.stderr)
        return status
    print("\n".join(lines))
    return 0


if __name__ == "__main__":
    sys.setrecursionlimit(100_000)
    sys.exit(main(sys.argv[1:]))
