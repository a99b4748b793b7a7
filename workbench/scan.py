"""A loose reading of component texts: sections, labels and the tokens of formulas, with places.

For warnings, completion and counts alone. It takes any text; what the program wouldn't read comes out as far as it goes.
"""
from __future__ import annotations

import re
from typing import NamedTuple, Optional

from . import spell

STRUCTURE = ('context machine extends sets constants axioms end refines sees variables invariants variant events event any where when with then '
             'begin theorem ordinary convergent anticipated').split()
"""The structural words of docs/LANGUAGE.md."""

_TOKEN = re.compile(r"//[^\n]*|/\*.*?(?:\*/|\Z)|@[A-Za-z0-9_\-.']*|[A-Za-z_][A-Za-z0-9_]*'?|\d+|\s+|" + spell.SIGN.pattern + '|.', re.S)
_LISTS = ('sets', 'constants', 'variables', 'extends', 'refines', 'sees', 'any')
_FORMULAS = ('axioms', 'invariants', 'where', 'when', 'with', 'then', 'begin')
_CONVERGENCE = ('ordinary', 'convergent', 'anticipated')


class Token(NamedTuple):
    """A token with its sign spelled in Unicode, and where it begins in the text."""
    text: str
    at: int


class Labelled(NamedTuple):
    """A formula of a section: its label without `@`, where that stands, and the formula's tokens."""
    label: str
    at: int
    tokens: list[Token]
    theorem: bool

    def words(self) -> list[str]:
        """The tokens' texts."""
        return [token.text for token in self.tokens]


class Block:
    """The lists and the labelled formulas of a component or of one of its events, by section. `when` counts as `where`, `begin` as `then`."""

    def __init__(self, kind: str, at: int) -> None:
        self.kind, self.name, self.at, self.convergence = kind, '', at, ''
        self.lists: dict[str, list[Token]] = {}
        self.formulas: dict[str, list[Labelled]] = {}
        self.events: list[Block] = []
        self.variant = False

    def names(self, section: str) -> list[str]:
        """The names of a list."""
        return [token.text for token in self.lists.get(section, [])]

    def labelled(self, section: str) -> list[Labelled]:
        """The formulas of a section."""
        return self.formulas.get(section, [])


def tokens(text: str) -> list[Token]:
    """All tokens but blanks and comments."""
    found = []
    for m in _TOKEN.finditer(text):
        if not m[0].isspace() and not m[0].startswith(('//', '/*')):
            found.append(Token(spell.SIGNS.get(m[0], m[0]), m.start()))
    return found


def component(text: str) -> Optional[Block]:
    """The component of a text; None where no heading stands in it."""
    reader = _Reader()
    for token in tokens(text):
        reader.take(token)
    return reader.whole


class _Reader:
    """Takes tokens one by one; `section` is the list or the formulas that they belong to."""

    def __init__(self) -> None:
        self.whole: Optional[Block] = None
        self.block: Optional[Block] = None
        self.section, self.theorem, self.convergence = '', False, ''

    def take(self, token: Token) -> None:
        """One token."""
        word = token.text
        if self.block is None or self.whole is None:
            if word in ('context', 'machine'):
                self.whole = self.block = Block(word, token.at)
                self.section = 'name'
        elif word in STRUCTURE:
            self.structure(word, token.at)
        elif self.section == 'name':
            self.block.name, self.section = word, ''
        elif word.startswith('@') and self.section in _FORMULAS:
            section = {'when': 'where', 'begin': 'then'}.get(self.section, self.section)
            self.block.formulas.setdefault(section, []).append(Labelled(word[1:], token.at, [], self.theorem))
            self.theorem = False
        elif self.section in _FORMULAS:
            section = {'when': 'where', 'begin': 'then'}.get(self.section, self.section)
            if self.block.labelled(section):
                self.block.formulas[section][-1].tokens.append(token)
        elif self.section in _LISTS:
            self.block.lists.setdefault(self.section, []).append(token)

    def structure(self, word: str, at: int) -> None:
        """A structural word."""
        assert self.whole is not None and self.block is not None
        if word == 'theorem':
            self.theorem = True
        elif word in _CONVERGENCE:
            self.convergence = word
        elif word == 'event':
            self.block, self.section = Block('event', at), 'name'
            self.block.convergence, self.convergence = self.convergence or 'ordinary', ''
            self.whole.events.append(self.block)
        elif word == 'end':
            self.block, self.section = self.whole, ''
        else:
            self.section = word
            self.block.variant = self.block.variant or word == 'variant'


def place(text: str, at: int) -> tuple[int, int]:
    """Line and column of a place in a text, both from 1."""
    return text.count('\n', 0, at) + 1, at - text.rfind('\n', 0, at)
