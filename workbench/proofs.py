"""Stored proofs as `step` lines, and lines replayed. Text that replays is what a user keeps under version control."""
from __future__ import annotations

from typing import TYPE_CHECKING, Collection, Iterable, Iterator, Mapping, Optional, Sequence

from . import core_text, replies
from .engine import Engine
from .journal import Rule, Tree

if TYPE_CHECKING:
    from .project import Project


def path_text(path: Iterable[int]) -> str:
    """A path or a place as the session reads it."""
    return '.'.join(map(str, path)) or '-'


def numbers_of(path: Optional[str]) -> list[int]:
    """The numbers of a path."""
    return [] if path in (None, '-', '') else [int(n) for n in str(path).split('.')]


def items(rule: Rule, printed: Sequence[str]) -> list[str]:
    """The items of a rule of the journal, for hypotheses printed so. A hypothesis that isn't there is told as `?<..>`."""
    found = []
    for n, h in enumerate(rule.hypotheses):
        text = core_text.text_of(h)
        number = str(printed.index(text) + 1) if text in printed else f'?<{text}>'
        found.append(f'h {number}' + (f' {rule.multipliers[n]}' if rule.kind == 'linear' else ''))
    if rule.kind in ('allR', 'exL'):
        found += [f'n {name}' for name, _ in rule.antecedents[0].new]
    found += [f'e {core_text.text_of(t)}' for t in rule.terms]
    if rule.kind in _TERMS:
        letter, behind, parts = _TERMS[rule.kind]
        term = rule.antecedents[-behind].added[0]
        for part in parts:
            term = term.parts[part]
        found.append(f'{letter} {core_text.text_of(term)}')
    if rule.kind in ('rwGoal', 'rwHyp'):
        found.append(f'w {rule.law} {path_text(rule.place)}')
    return found


_TERMS: dict[str, tuple[str, int, tuple[int, ...]]] = {
    'cut': ('p', 1, ()), 'cases': ('p', 2, ()), 'boolCases': ('e', 2, (0,)), 'cardNat': ('e', 1, (1, 0)), 'funIn': ('e', 1, (0, 1))}
"""Where a rule's own term stands: its letter, which antecedent from the end adds a formula with it, and its place there."""


def steps(name: str, tree: Optional[Tree], printed: Sequence[str], path: tuple[int, ...] = ()) -> Iterator[str]:
    """The lines that make a tree anew; `printed` are the hypotheses at its root as `show` prints them."""
    if tree is None:
        return
    rule = tree.rule
    if rule.kind == 'review':
        yield f'review {name} {path_text(path)}'
        return
    yield f'step {name} {path_text(path)} {rule.kind} {" ;; ".join(items(rule, printed))}'.rstrip()
    for n, (antecedent, child) in enumerate(zip(rule.antecedents, tree.children)):
        yield from steps(name, child, [*printed, *map(core_text.text_of, antecedent.added)], (*path, n))


def export(project: 'Project', names: Optional[Collection[str]] = None, by_hand: bool = True) -> list[str]:
    """The lines of all stored proofs that apply (or of `names`), those of the prover only where `by_hand` is false."""
    _, trees = project.journal.read()
    lines = []
    for name, (status, origin) in list(project.statuses.items()):
        left_out = name not in names if names is not None else by_hand and origin == 'prover'
        if trees.get(name) is None or status == 'broken' or left_out:
            continue
        shown = project.engine.ask(f'show {name}')
        if not replies.refusal(shown):
            lines += [f'// {name} {status} ({origin})', *steps(name, trees[name], replies.sequent(shown).hypotheses)]
    return lines


UNSAID = '?<'
"""Stands in a line for a hypothesis that the sequent doesn't have."""


def renamed(name: str, old: str, new: str) -> Optional[str]:
    """An obligation's name where the obligation or its component `old` is called `new`; None of others."""
    if name == old:
        return new
    return new + name[len(old):] if name.startswith(f'{old}/') else None


def moved(engine: Engine, trees: Mapping[str, Optional[Tree]], old: str, new: str) -> list[tuple[str, list[str]]]:
    """The stored proofs of an obligation or a component that was renamed, as lines for the new names; hypotheses have the new sequents' numbers."""
    known, found = replies.statuses(engine.ask('status')), []
    for name, tree in trees.items():
        target = renamed(name, old, new)
        if tree is not None and target is not None and target in known:
            found.append((target, list(steps(target, tree, replies.sequent(engine.ask(f'show {target}')).hypotheses))))
    return found


def at(tree: Optional[Tree], path: Sequence[int]) -> tuple[Optional[Tree], list[str], dict[str, core_text.Type]]:
    """What stands at a path of a tree of the journal, and the hypotheses added and names made on the way."""
    added: list[str] = []
    names: dict[str, core_text.Type] = {}
    for n in path:
        if tree is None or n >= len(tree.children):
            return None, added, names
        antecedent = tree.rule.antecedents[n]
        names.update(antecedent.new)
        added += map(core_text.text_of, antecedent.added)
        tree = tree.children[n]
    return tree, added, names


def misfit(tree: Optional[Tree], sequent: replies.Sequent, path: tuple[int, ...] = ()) -> Optional[tuple[str, str, str]]:
    """Where a stored tree first doesn't apply to a sequent, as far as the characters tell: path, rule and what it wants; None where it all fits."""
    if tree is None:
        return None
    rule = tree.rule
    if rule.goal is not None and core_text.text_of(rule.goal) != sequent.goal:
        return path_text(path), rule.kind, f'the goal {core_text.text_of(rule.goal)}'
    for hypothesis in map(core_text.text_of, rule.hypotheses):
        if hypothesis not in sequent.hypotheses:
            return path_text(path), rule.kind, f'the hypothesis {hypothesis}'
    for n, (antecedent, child) in enumerate(zip(rule.antecedents, tree.children)):
        goal = sequent.goal if antecedent.goal is None else core_text.text_of(antecedent.goal)
        inner = replies.Sequent(sequent.status, [*sequent.hypotheses, *map(core_text.text_of, antecedent.added)], goal)
        found = misfit(child, inner, (*path, n))
        if found:
            return found
    return None


BATCH = 40
"""Lines that are sent as one request by `replay`."""


def replay(engine: Engine, lines: Iterable[str]) -> Iterator[tuple[str, str]]:
    """Sends `step` and `review` lines; yields the refused ones with the answer. What is discharged already is left alone."""
    done = {name for name, (status, _) in replies.statuses(engine.ask('status')).items() if status == 'discharged'}
    batch: list[str] = []
    for line in lines:
        words = line.split()
        if not words or words[0].startswith('//') or len(words) > 1 and words[1] in done:
            continue
        if words[0] not in ('step', 'review') or len(words) < 3:
            yield from _sent(engine, batch)
            batch = []
            yield line, 'not a line of a proof'
            continue
        batch.append(line.rstrip('\r\n'))
        if len(batch) >= BATCH:
            yield from _sent(engine, batch)
            batch = []
    yield from _sent(engine, batch)


def _sent(engine: Engine, batch: list[str]) -> list[tuple[str, str]]:
    """The refused ones of some lines, with the answer."""
    said = [(line, replies.refusal(reply)) for line, reply in zip(batch, engine.send(batch).result())]
    return [(line, refused) for line, refused in said if refused]
