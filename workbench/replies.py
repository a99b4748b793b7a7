"""Replies of the session as data: statuses, faults, sequents, trees."""
from __future__ import annotations

import re
from typing import Mapping, NamedTuple, Optional, Sequence

Status = tuple[str, str]
"""A status, and who made the stored proof: `user`, `prover`, `unknown` or nothing."""

STATUSES = ('unattempted', 'pending', 'reviewed', 'discharged', 'broken')
_STATUS = re.compile(rf'(\S+) ({"|".join(STATUSES)})(?: \((user|prover|unknown)\))?$')
_FAULT = re.compile(r'fault (\S+) (\d+) (\d+):(\d+) (.*)$')
_WARNING = re.compile(r'warning (\S+): (.*)$')


class Fault(NamedTuple):
    """The first fault of a component: line and column count from 1, columns in characters. Kind 0 is none of the program's."""
    component: str
    kind: int
    line: int
    column: int
    text: str


class Sequent(NamedTuple):
    """What `show` prints: the obligation's status, hypotheses in the order of their numbers, and the goal."""
    status: str
    hypotheses: list[str]
    goal: str


class Node(NamedTuple):
    """A line of `tree`: a path, a rule's word or None at an open leaf, and the leaf's goal if it is told."""
    path: str
    rule: Optional[str]
    goal: str


def refusal(reply: Sequence[str]) -> Optional[str]:
    """The words of a refusal, or None."""
    return reply[0][len('refused: '):] if reply and reply[0].startswith('refused: ') else None


def status(line: str) -> Optional[tuple[str, Status]]:
    """Of a line `PO STATUS` with or without an origin."""
    found = _STATUS.match(line)
    return (found[1], (found[2], found[3] or '')) if found else None


def statuses(reply: Sequence[str]) -> dict[str, Status]:
    """Of `status`: from name to status and origin; the line of counts is left out."""
    return dict(found for found in map(status, reply) if found)


def attempted(reply: Sequence[str]) -> Optional[tuple[str, str, str]]:
    """Of `auto`: what came of it, the obligation and its status; None for a refusal of the command."""
    found = re.match(r'(stored|noted|no memory|refused|stale) (\S+) (\w+)$', reply[0]) if reply else None
    return (found[1], found[2], found[3]) if found else None


def faults(reply: Sequence[str]) -> tuple[dict[str, Fault], list[tuple[str, str]]]:
    """Of `faults`: the faults by component, and the warnings as (machine, text)."""
    found = [Fault(m[1], int(m[2]), int(m[3]), int(m[4]), m[5]) for m in map(_FAULT.match, reply) if m]
    return {fault.component: fault for fault in found}, [(m[1], m[2]) for m in map(_WARNING.match, reply) if m]


def sequent(reply: Sequence[str]) -> Sequent:
    """Of `show`."""
    return Sequent(reply[0].rsplit(' ', 1)[1], [line.split(': ', 1)[1] for line in reply[1:-1]], reply[-1][2:])


def tree(reply: Sequence[str]) -> list[Node]:
    """Of `tree`."""
    nodes = []
    for line in reply:
        path, rest = line.split(' ', 1)
        opened = rest == 'open' or rest.startswith('open ⊢ ')
        nodes.append(Node(path, None if opened else rest, rest[7:] if rest.startswith('open ⊢ ') else ''))
    return nodes


def component_of(name: str) -> str:
    """The component of an obligation's name."""
    return name.split('/', 1)[0]


def summary(found: Mapping[str, Status]) -> dict[str, int]:
    """Counts by status."""
    counts = dict.fromkeys(STATUSES, 0)
    for word, _ in found.values():
        counts[word] += 1
    return counts
