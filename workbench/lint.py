"""Warnings of the workbench's own: what the program takes, and a user would rather know.

None of them is a fault, and none changes a status. They go by a loose reading of the texts.
"""
from __future__ import annotations

from typing import Iterator, Optional, Sequence

from . import scan
from .scan import Block, Labelled
from .texts import Folder, Warn

ARROWS = ('↔', '<<->', '<->>', '<<->>', '⇸', '→', '⤔', '↣', '⤀', '↠', '⤖')
_JUNCTIONS = ('∧', '∨', '⇒', '⇔', '¬', '∀', '∃')
_TYPES = ('ℤ', 'BOOL', 'ℙ', '×', '↔', '(', ')')


def warnings(folder: Folder) -> list[Warn]:
    """All warnings of a folder's texts, by file and line."""
    read = [(file, part, found) for file, part in folder.components().values() for found in [scan.component(part.text)] if found is not None]
    sets = {name for _, _, found in read if found.kind == 'context' for name in found.names('sets')}
    relations = {sides[0][0] for _, _, found in read for section in ('axioms', 'invariants') for formula in found.labelled(section)
                 for sides in [relation(formula.words())] if sides is not None}
    said = folder.warnings()
    for file, part, found in read:
        for at, words in sorted([*witness_cycles(found), *inclusions(found, sets, relations)]):
            line, column = scan.place(part.text, at)
            said.append(Warn(file, part.line + line - 1, column, words))
    return sorted(said)


def witness_cycles(machine: Block) -> Iterator[tuple[int, str]]:
    """Witnesses of an event each of which names the next one's variable, and the last one the first one's."""
    for event in machine.events:
        witnesses = {w.label: w for w in event.labelled('with')}
        names = {label: [word for word in w.words() if word in witnesses and word != label] for label, w in witnesses.items()}
        cycle = _cycle(names)
        if cycle:
            yield witnesses[cycle[0]].at, (f'the witnesses {", ".join(cycle)} of {event.name} name each other: they may contradict each other, '
                                           'and then all obligations of the event hold')


def _cycle(names: dict[str, list[str]]) -> Optional[list[str]]:
    """A cycle of a graph, the first one by the order of its nodes."""
    for start in names:
        found = _back(names, start, start, [start])
        if found:
            return found
    return None


def _back(names: dict[str, list[str]], start: str, here: str, path: list[str]) -> Optional[list[str]]:
    for there in names[here]:
        if there == start:
            return path
        if there not in path:
            found = _back(names, start, there, [*path, there])
            if found:
                return found
    return None


def inclusions(machine: Block, sets: set[str], relations: set[str]) -> Iterator[tuple[int, str]]:
    """Invariants that a variable is a relation between sets which aren't whole types, or in another relation, where an event changes a part.

    Such an invariant is an inclusion of relations; no rule takes a variable for a pair, so no proof closes it (docs/PROOFS.md).
    """
    changed = {name: event.name for event in reversed(machine.events) if event.name != 'INITIALISATION'
               for action in event.labelled('then') for name in assigned(action)}
    for invariant in machine.labelled('invariants'):
        words = invariant.words()
        sides = relation(words)
        inside = len(words) == 3 and words[1] == '⊆' and words[0] in relations
        if not inside and (sides is None or all(_whole(side, sets) for side in sides[1:])):
            continue
        moved = [word for word in words if word in changed]
        if moved:
            yield invariant.at, (f'no rule closes @{invariant.label} where {changed[moved[0]]} changes {moved[0]}: an inclusion of relations is better '
                                 + (f'written as ∀x,y·x ↦ y ∈ {words[0]} ⇒ x ↦ y ∈ {words[2]}' if inside else
                                    f'written with ↦, {words[0]} over whole types and ∀x,y·x ↦ y ∈ {words[0]} ⇒ ..'))


def relation(words: Sequence[str]) -> Optional[tuple[list[str], list[str], list[str]]]:
    """Of `f ∈ A → B`, for each arrow, and `f ⊆ A × B`: f, A, B; None of other formulas."""
    if len(words) < 5 or words[1] not in ('∈', '⊆') or any(word in _JUNCTIONS for word in words):
        return None
    depth, found = 0, []
    for n, word in enumerate(words):
        depth += (word in ('(', '{', '[')) - (word in (')', '}', ']'))
        if depth == 0 and (word in ARROWS if words[1] == '∈' else word == '×'):
            found.append(n)
    if not found:
        return None
    return [words[0]], list(words[2:found[-1]]), list(words[found[-1] + 1:])


def _whole(side: Sequence[str], sets: set[str]) -> bool:
    """Whether a side is a type, as far as the words tell."""
    return bool(side) and all(word in sets or word in _TYPES for word in side)


def assigned(action: Labelled) -> list[str]:
    """What an action changes. Not what gets the value of a name or ∅, or is chosen from a set: what is known of these may do."""
    names: list[str] = []
    words = action.words()
    for n, word in enumerate(words):
        if word == ':∈' or word == '≔' and len(words) == n + 2:
            return []
        if word in ('≔', ':∣', '('):
            return names
        if word != ',':
            names.append(word)
    return []
