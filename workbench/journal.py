"""Reads the session's files `rodin.left` and `rodin.right`: the stored trees with all that `tree` doesn't print, and the texts.

Reading only, also beside an open session: whole records are read up to the first gate that isn't set. By the layout of version 1 and 2.
What is read so isn't the session's answer: it serves to make lines that the session tests, and views that say where they come from.
"""
from __future__ import annotations

import os
import struct
import sys
import threading
from typing import Callable, NamedTuple, Optional, TypeVar

from . import rule_words
from .core_text import Core, Type

MAGIC = b'RODINJ1\n'
KINDS = [*rule_words.NUMBERED]
"""The kinds of rules by their numbers, from 1."""

sys.setrecursionlimit(max(sys.getrecursionlimit(), 60_000))  # a formula may be 4,096 high, a tree 2,048

_T = TypeVar('_T')


class Antecedent(NamedTuple):
    """What a rule leaves: new names with their types, hypotheses that it adds, and a goal where it is another one."""
    new: list[tuple[str, Type]]
    added: list[Core]
    goal: Optional[Core]


class Rule(NamedTuple):
    """A rule of a stored tree."""
    kind: str
    terms: list[Core]
    law: int
    place: list[int]
    multipliers: list[int]
    goal: Optional[Core]
    hypotheses: list[Core]
    antecedents: list[Antecedent]


class Tree(NamedTuple):
    """A rule with what stands below it; None is a leaf."""
    rule: Rule
    children: list[Optional['Tree']]


class Reader:
    """Fields of a record, one after another."""

    def __init__(self, data: bytes) -> None:
        self.data, self.at = data, 0

    def byte(self) -> int:
        """One byte."""
        self.at += 1
        return self.data[self.at - 1]

    def word(self) -> int:
        """Four bytes, the low one first."""
        self.at += 4
        return int(struct.unpack_from('<I', self.data, self.at - 4)[0])

    def wide(self) -> int:
        """Sixteen bytes with a sign."""
        self.at += 16
        return int.from_bytes(self.data[self.at - 16:self.at], 'little', signed=True)

    def text(self) -> str:
        """A length and so many bytes."""
        size = self.word()
        self.at += size
        return self.data[self.at - size:self.at].decode()

    def many(self, one: Callable[[], _T]) -> list[_T]:
        """A count and so many fields."""
        return [one() for _ in range(self.word())]

    def type(self) -> Type:
        """A type."""
        kind = self.byte()
        if kind == 2:
            return Type('G', self.text())
        if kind == 3:
            return Type('P', '', (self.type(),))
        if kind == 4:
            return Type('X', '', (self.type(), self.type()))
        return Type({0: 'Z', 1: 'B', 5: 'T'}[kind])

    def formula(self) -> Core:
        """A formula with its types."""
        kind = self.byte()
        if kind == 0:
            return Core('number', self.wide())
        if kind == 1:
            return Core('free', name=self.text(), type=self.type())
        if kind == 2:
            return Core('bound', self.word(), type=self.type())
        number = self.byte()
        types = tuple(self.many(self.type)) if kind == 4 else ()
        return Core('binder' if kind == 4 else 'node', number, '', tuple(self.many(self.formula)), types, self.type())

    def maybe(self) -> Optional[Core]:
        """A formula, or none."""
        return self.formula() if self.byte() else None

    def binding(self) -> tuple[str, Type]:
        """A name and its type."""
        return self.text(), self.type()

    def antecedent(self) -> Antecedent:
        """What a rule leaves."""
        return Antecedent(self.many(self.binding), self.many(self.formula), self.maybe())

    def rule(self) -> Rule:
        """A rule with all that it holds."""
        number = self.byte()
        kind = KINDS[number - 1]
        terms = self.many(self.formula) if kind in ('allL', 'exR') else []
        law, place = (self.byte(), self.many(self.word)) if kind in ('rwGoal', 'rwHyp') else (0, [])
        multipliers = self.many(self.wide) if kind == 'linear' else []
        goal, hypotheses = self.maybe(), self.many(self.formula)
        self.many(self.binding)
        return Rule(kind, terms, law, place, multipliers, goal, hypotheses, self.many(self.antecedent))

    def tree(self) -> Optional[Tree]:
        """None for a leaf."""
        return Tree(self.rule(), self.many(self.tree)) if self.byte() else None


class Journal:
    """The present texts and stored trees of a folder, read on from where the last reading stopped while the generation stays."""

    def __init__(self, folder: str) -> None:
        self.folder = folder
        self.side: Optional[str] = None
        self.generation, self.at = -1, 16
        self.texts: dict[str, str] = {}
        self.trees: dict[str, Optional[Tree]] = {}
        self.lock = threading.Lock()

    def _current(self) -> tuple[int, Optional[str]]:
        """The side with the greater generation among those whose first gate is open."""
        best: tuple[int, Optional[str]] = (-1, None)
        for side in ('right', 'left'):
            try:
                with open(os.path.join(self.folder, f'rodin.{side}'), 'rb') as file:
                    head = file.read(17)
            except FileNotFoundError:
                continue
            if len(head) == 17 and head[:8] == MAGIC and head[16] == 1:
                generation = int(struct.unpack_from('<Q', head, 8)[0])
                best = (generation, side) if generation > best[0] else best
        return best

    def read(self) -> tuple[dict[str, str], dict[str, Optional[Tree]]]:
        """Texts and trees, each by name; a tree is None for a bare leaf."""
        with self.lock:
            generation, side = self._current()
            if (generation, side) != (self.generation, self.side):
                self.generation, self.side, self.at, self.texts, self.trees = generation, side, 16, {}, {}
            if side is not None:
                with open(os.path.join(self.folder, f'rodin.{side}'), 'rb') as file:
                    file.seek(self.at)
                    self._records(file.read())
            return self.texts, self.trees

    def _records(self, data: bytes) -> None:
        at = 0
        while at + 5 <= len(data) and data[at] == 1:
            size = int(struct.unpack_from('<I', data, at + 1)[0])
            if at + 5 + size >= len(data):
                break
            self._record(data[at + 5:at + 5 + size])
            at += 5 + size
        self.at += at

    def _record(self, body: bytes) -> None:
        record = Reader(body)
        version = record.byte()
        while record.at < len(body):
            kind = record.byte()
            if kind == 1:
                name = record.text()
                self.texts[name] = record.text()
            elif kind == 2:
                self.texts.pop(record.text(), None)
            elif kind == 4:
                name = record.text()
                if version > 1:
                    record.byte()
                self.trees[name] = record.tree()
            elif kind == 5:
                for name in record.many(record.text):
                    self.trees.pop(name, None)


def state(folder: str) -> tuple[dict[str, str], dict[str, Optional[Tree]]]:
    """The present texts and trees of a folder."""
    return Journal(folder).read()
