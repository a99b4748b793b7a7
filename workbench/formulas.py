"""Printed formulas as trees with places: which characters a part has, and the numbers by which a law reaches it.

Only for pointing, proposing and ordering. If this reading were wrong the program would refuse the step (`no such place`, `the rule does
not fit`) or rewrite another part, which is shown; a proof can't become wrong by it.
"""
from __future__ import annotations

import re
from typing import Iterator, Optional, Sequence

_TOKEN = re.compile(r"\s+|[A-Za-z_][A-Za-z0-9_]*'?|\d+|<<->>|<<->|<->>|<\+|:∈|:∣|ℕ1|ℙ1|.", re.S)
_INFIX: dict[str, int] = {}
for _level, _signs in ((1, '⇒ ⇔'), (2, '∧ ∨'), (4, '= ≠ ∈ ∉ ⊂ ⊄ ⊆ ⊈ < ≤ > ≥'), (6, '↦'), (7, '↔ <<-> <->> <<->> ⇸ → ⤔ ↣ ⤀ ↠ ⤖'),
                       (8, '∪ ∩ ∖ × ◁ ⩤ ▷ ⩥ <+ ; ∘ ∥ ⊗'), (9, '‥'), (10, '+ −'), (11, '∗ ÷ mod'), (12, '^')):
    for _sign in _signs.split():
        _INFIX[_sign] = _level
_DENIED = {'≠': '=', '∉': '∈', '⊄': '⊂', '⊈': '⊆'}
WORDS = set('TRUE FALSE BOOL bool card dom ran union inter min max finite id prj1 prj2 pred succ mod'.split())
_CALLS = {'ℙ', 'ℙ1', 'card', 'dom', 'ran', 'union', 'inter', 'min', 'max', 'bool', 'finite'}


class Formula:
    """An operator with parts, from `start` to `end` of the printed text; `place` is the list of part numbers from the root."""

    def __init__(self, op: str, parts: Sequence['Formula'] = (), start: int = 0, end: int = 0, names: Sequence[str] = ()) -> None:
        self.op, self.parts, self.start, self.end, self.names = op, list(parts), start, end, list(names)
        self.place: list[int] = []

    def walk(self) -> Iterator['Formula']:
        """This formula and all parts below, outer ones first."""
        yield self
        for part in self.parts:
            yield from part.walk()

    def at(self, place: Sequence[int]) -> 'Formula':
        """The part at a place."""
        return self if not place else self.parts[place[0]].at(place[1:])

    def text(self, whole: str) -> str:
        """The characters that it has in the text which was read."""
        return whole[self.start:self.end]


class Unread(Exception):
    """The text isn't a printed formula."""


class _Reader:
    def __init__(self, text: str) -> None:
        self.tokens: list[tuple[str, int, int]] = []
        for m in _TOKEN.finditer(text):
            if not m[0].isspace():
                self.tokens.append((m[0], m.start(), m.end()))
        self.tokens.append(('', len(text), len(text)))
        self.at = 0

    def peek(self) -> str:
        return self.tokens[self.at][0]

    def here(self) -> int:
        return self.tokens[self.at][1]

    def last(self) -> int:
        return self.tokens[self.at - 1][2]

    def take(self, wanted: Optional[str] = None) -> str:
        token = self.tokens[self.at][0]
        if wanted is not None and token != wanted or token == '':
            raise Unread(f'{wanted or "a sign"} at {self.here()}')
        self.at += 1
        return token

    def formula(self, level: int) -> Formula:
        start, token = self.here(), self.peek()
        if token == '¬':
            self.take()
            left = Formula('¬', [self.formula(3)], start, self.last())
        elif token == '−':
            self.take()
            left = Formula('neg', [self.formula(11)], start, self.last())
        else:
            left = self.postfix()
        while True:
            sign = self.peek()
            found = _INFIX.get(sign)
            if found is None or found < level:
                return left
            self.take()
            right = self.formula(found + 1)
            if sign in _DENIED:
                inner = Formula(_DENIED[sign], [left, right], start, self.last())
                left = Formula('¬', [inner], start, self.last())
            else:
                left = Formula(sign, [left, right], start, self.last())

    def postfix(self) -> Formula:
        start, left = self.here(), self.primary()
        while True:
            if self.peek() == '∼':
                self.take()
                left = Formula('∼', [left], start, self.last())
            elif self.peek() in ('(', '[') and left.op not in ('bind', 'number'):
                opened = self.take()
                inner = self.formula(1)
                self.take(')' if opened == '(' else ']')
                left = Formula('apply' if opened == '(' else 'image', [left, inner], start, self.last())
            else:
                return left

    def binders(self) -> list[str]:
        names = []
        while True:
            names.append(self.take())
            self.take('⦂')
            self.formula(5)
            if self.peek() != ',':
                return names
            self.take()

    def primary(self) -> Formula:
        start, token = self.here(), self.take()
        if token in ('∀', '∃'):
            names = self.binders()
            self.take('·')
            return Formula(token, [self.formula(1)], start, self.last(), names)
        if token in ('⋃', '⋂'):
            return self.bound(token, start)
        if token == '{':
            return self.braces(start)
        if token == '(':
            return self.parentheses(start)
        if token in _CALLS:
            self.take('(')
            inner = self.formula(1)
            self.take(')')
            return Formula(token, [inner], start, self.last())
        if token[0].isdigit():
            return Formula('number', (), start, self.last())
        if token in WORDS or token in ('⊤', '⊥', 'ℤ', 'ℕ', 'ℕ1', '∅'):
            return Formula(token, (), start, self.last())
        if token[0].isalpha() and token[0].isascii() or token[0] == '_':
            return Formula('name', (), start, self.last(), [token])
        raise Unread(f'{token} at {start}')

    def bound(self, op: str, start: int) -> Formula:
        """Names, a predicate and an expression."""
        names = self.binders()
        self.take('·')
        parts = [self.formula(1)]
        self.take('∣')
        parts.append(self.formula(5))
        return Formula(op, parts, start, self.last(), names)

    def braces(self, start: int) -> Formula:
        """A comprehension or an enumeration, behind its brace."""
        if self.tokens[self.at + 1][0] == '⦂':
            found = self.bound('{·}', start)
        else:
            parts = [self.formula(5)]
            while self.peek() == ',':
                self.take()
                parts.append(self.formula(5))
            found = Formula('{}', parts, start)
        self.take('}')
        found.end = self.last()
        return found

    def parentheses(self, start: int) -> Formula:
        """What stands in parentheses; they belong to a constant with its type alone."""
        inner = self.formula(1)
        if self.peek() == '⦂':
            self.take()
            self.formula(5)
        self.take(')')
        if inner.op in ('∅', 'id', 'prj1', 'prj2') and not inner.parts:
            inner.start, inner.end = start, self.last()
        return inner


def read(text: str) -> Formula:
    """The formula of a printed text, with places; raises `Unread`."""
    reader = _Reader(text)
    formula = reader.formula(1)
    if reader.peek() != '':
        raise Unread(f'{reader.peek()} at {reader.here()}')
    _number(formula, [])
    return formula


def _number(formula: Formula, place: list[int]) -> None:
    formula.place = place
    for n, part in enumerate(formula.parts):
        _number(part, place + [n])


def try_read(text: str) -> Optional[Formula]:
    """The formula, or None: what isn't read is shown as it is and can't be pointed into."""
    try:
        return read(text)
    except (Unread, RecursionError, IndexError):
        return None


def names(text: str) -> set[str]:
    """The names of a printed formula, without bound ones and words of the language."""
    bound = set(re.findall(r'([A-Za-z_][A-Za-z0-9_]*)⦂', text))
    return {name for name in re.findall(r"[A-Za-z_][A-Za-z0-9_]*'?", text) if name not in WORDS and name not in bound}


def place_text(place: Sequence[int]) -> str:
    """A place as the session reads it."""
    return '.'.join(map(str, place)) or '-'
