"""Core formulas of the journal, and how the session prints them."""
from __future__ import annotations

from typing import NamedTuple, Optional, Sequence

OPS = ('⊤ ⊥ ¬ ∧ ∨ ⇒ ⇔ = ∈ ⊂ ⊆ < ≤ finite TRUE FALSE BOOL ℤ ℕ ℕ1 ∅ id prj1 prj2 pred succ ↦ ↔ <<-> <->> <<->> ⇸ → ⤔ ↣ ⤀ ↠ ⤖ ∪ ∩ ∖ × ◁ ⩤ ▷ ⩥ <+ ; ∥ ⊗ '
       '‥ + − ∗ ÷ mod ^ − ∼ app img ℙ ℙ1 card dom ran union inter min max bool set').split()
"""The operators by their numbers in the journal."""

NOT, EQUAL, NEGATE, CONVERSE, APPLY, IMAGE, SET = 2, 7, 57, 58, 59, 60, 71
_DENIED = {7: '≠', 8: '∉', 9: '⊄', 10: '⊈'}
_BINDERS = ('∀', '∃', '{', '⋃', '⋂')
_LEVELS = ((5, 6, 1), (3, 4, 2), (2, 2, 3), (7, 12, 3), (26, 26, 5), (27, 37, 6), (38, 49, 7), (50, 50, 8), (51, 52, 9), (57, 57, 9), (53, 55, 10),
           (56, 56, 11), (58, 60, 12))
_ATOM = 13


class Type(NamedTuple):
    """`Z` integers, `B` truth values, `G` a carrier set by its name, `P` sets of, `X` pairs of, `T` none."""
    kind: str
    name: str = ''
    parts: tuple['Type', ...] = ()


class Core(NamedTuple):
    """`number` with its value, `free` with its name, `bound` with its index, `node` with its operator, `binder` with its number and types."""
    kind: str
    number: int = 0
    name: str = ''
    parts: tuple['Core', ...] = ()
    types: tuple[Type, ...] = ()
    type: Optional[Type] = None


def type_text(t: Type, right: bool = False) -> str:
    """A type; the right side of a product in parentheses where it is one."""
    if t.kind == 'X':
        text = f'{type_text(t.parts[0])} × {type_text(t.parts[1], True)}'
        return f'({text})' if right else text
    if t.kind == 'P':
        return f'ℙ({type_text(t.parts[0])})'
    return {'Z': 'ℤ', 'B': 'BOOL'}.get(t.kind, t.name)


def _givens(t: Optional[Type], found: set[str]) -> None:
    if t is not None:
        if t.kind == 'G':
            found.add(t.name)
        for part in t.parts:
            _givens(part, found)


def _names(f: Core, found: set[str]) -> None:
    if f.kind == 'free':
        found.add(f.name)
    _givens(f.type, found)
    for t in f.types:
        _givens(t, found)
    for part in f.parts:
        _names(part, found)


def _level(f: Core) -> int:
    if f.kind == 'binder':
        return (0, 0, _ATOM, 4, 4)[f.number]
    if f.kind != 'node':
        return _ATOM
    return next((level for low, high, level in _LEVELS if low <= f.number <= high), _ATOM)


def text_of(formula: Core) -> str:
    """The printed text."""
    taken: set[str] = set()
    _names(formula, taken)
    return _Printer(taken).go(formula, [])


class _Printer:
    """Prints with names x1, x2, .. for what is bound, but those that are taken."""

    def __init__(self, taken: set[str]) -> None:
        self.taken, self.pool, self.next = taken, list[str](), 1

    def name(self, n: int) -> str:
        """The nth name that isn't taken."""
        while len(self.pool) <= n:
            if f'x{self.next}' not in self.taken:
                self.pool.append(f'x{self.next}')
            self.next += 1
        return self.pool[n]

    def go(self, f: Core, bound: Sequence[str]) -> str:
        """A formula under the names that are bound round it."""
        if f.kind == 'number':
            return str(f.number)
        if f.kind == 'free':
            return f.name
        if f.kind == 'bound':
            return bound[-1 - f.number]
        return self.binder(f, bound) if f.kind == 'binder' else self.node(f, bound)

    def binder(self, f: Core, bound: Sequence[str]) -> str:
        """A quantifier, a comprehension, a union or an intersection."""
        new = [self.name(len(bound) + n) for n in range(len(f.types))]
        inner, head = [*bound, *new], ', '.join(f'{name}⦂{type_text(t)}' for name, t in zip(new, f.types))
        body = '{}·{}'.format(head, self.go(f.parts[0], inner))
        if f.number >= 2:
            body += f' ∣ {self.go(f.parts[1], inner)}'
        return _BINDERS[f.number] + body + ('}' if f.number == 2 else '')

    def operand(self, whole: Core, x: Core, bound: Sequence[str], left: bool = False) -> str:
        """A side of an infix operator, in parentheses where it needs them."""
        level, under, text = _level(whole), _level(x), self.go(x, bound)
        if level == 3:
            return text
        if x.kind == 'node' and x.number == NEGATE and 9 <= level <= 12:
            return f'({text})'
        same = left and under == level and (level in (5, 7, 9, 10) or level == 2 and x.number == whole.number)
        return text if under > level or same else f'({text})'

    def node(self, f: Core, bound: Sequence[str]) -> str:
        """An operator with its parts."""
        o, parts = f.number, f.parts
        if o == NOT:
            return self.denied(parts[0], bound)
        if 20 <= o <= 23 and f.type is not None:
            return f'({OPS[o]}⦂{type_text(f.type)})'
        if not parts:
            return OPS[o]
        if o == NEGATE:
            return '−' + self.operand(f, parts[0], bound)
        if o in (CONVERSE, APPLY, IMAGE):
            enough = _level(parts[0]) >= (12 if o == CONVERSE else _ATOM)
            head = self.go(parts[0], bound) if enough else f'({self.go(parts[0], bound)})'
            return head + ('∼' if o == CONVERSE else ('(%s)' if o == APPLY else '[%s]') % self.go(parts[1], bound))
        if o == SET:
            return '{' + ', '.join(self.go(x, bound) for x in parts) + '}'
        if o == 13 or o >= 61:
            return f'{OPS[o]}({self.go(parts[0], bound)})'
        return f'{self.operand(f, parts[0], bound, True)} {OPS[o]} {self.operand(f, parts[1], bound)}'

    def denied(self, x: Core, bound: Sequence[str]) -> str:
        """A negation of x."""
        if x.kind == 'node' and x.number in _DENIED:
            return f'{self.go(x.parts[0], bound)} {_DENIED[x.number]} {self.go(x.parts[1], bound)}'
        bare = x.kind == 'node' and x.number in (0, 1, 13)
        return '¬' + self.go(x, bound) if bare else f'¬({self.go(x, bound)})'
