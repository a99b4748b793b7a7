"""The prover at one leaf: the leaf's sequent as the only theorem of a context in a session of its own, and its proof as steps at the leaf.

The session has `auto` for whole obligations that are unattempted or broken alone. This goes round it: hypotheses become axioms, the goal a
theorem, carrier sets the sets of the project, everything else a constant, with an axiom `n ∈ T` for each name that a rule made new. What
comes back are lines `step`, which the real session tests like any other. It misses what can't be said in a context: names that no formula
gives a type, more than 128 brackets or 512 tokens in a formula.
"""
from __future__ import annotations

import re
import tempfile
from typing import TYPE_CHECKING, Iterable, Optional, Union

from . import core_text, formulas, journal, proofs, replies
from .engine import Ended, Engine, edit

if TYPE_CHECKING:
    from .project import Project

_SECTIONS = re.compile(r'\b(?:constants|axioms|end|extends)\b')
_PRIMED = re.compile(r"([A-Za-z_][A-Za-z0-9_]*)'")
_HIDDEN = re.compile(r'([A-Za-z_][A-Za-z0-9_]*)__primed\b')


def sets_of(texts: Iterable[str]) -> list[str]:
    """The carrier sets of the built texts, as far as the words tell."""
    found: list[str] = []
    for text in texts:
        bare = re.sub(r'//[^\n]*|/\*.*?\*/', ' ', text, flags=re.S)
        m = re.match(r'\s*context\s+\S+(.*)', bare, re.S)
        for part in re.findall(r'\bsets\b(.*)', m[1], re.S) if m else ():
            found += _SECTIONS.split(part)[0].split()
    return list(dict.fromkeys(found))


def hidden(text: str) -> str:
    """A formula without primes, which no context may have."""
    return _PRIMED.sub(r'\1__primed', text)


def context(sequent: replies.Sequent, sets: list[str], new: dict[str, core_text.Type]) -> str:
    """A context whose theorem is the sequent: `new` are the names with types that rules made on the way."""
    hypotheses, goal = [hidden(h) for h in sequent.hypotheses], hidden(sequent.goal)
    words = formulas.names(goal).union(*map(formulas.names, hypotheses)) - set(sets)
    body = ['context leaf'] + (['sets ' + ' '.join(sets)] if sets else []) + (['constants ' + ' '.join(sorted(words))] if words else []) + ['axioms']
    body += [f'@t{i} {hidden(n)} ∈ {core_text.type_text(t)}' for i, (n, t) in enumerate(new.items()) if hidden(n) in words]
    body += [f'@h{i} {h}' for i, h in enumerate(hypotheses)] + [f'theorem @goal {goal}', 'end', '']
    return '\n'.join(body)


def found_by(text: str, program: str) -> Union[str, Optional[journal.Tree]]:
    """The prover's tree for the theorem of a context, in a session of its own; words that say why there is none."""
    with tempfile.TemporaryDirectory() as folder:
        try:
            engine = Engine(folder, 0, program)
            try:
                said = engine.send([edit('leaf', text), 'build', 'faults', 'auto leaf/goal/THM']).result()
            finally:
                engine.close()
        except Ended as fault:
            return f'the session for the leaf ended: {fault}'
        if not said[-1][0].startswith('stored'):
            told = [f.text for f in replies.faults(said[2])[0].values()] or [w for r in said[:1] for w in [replies.refusal(r)] if w]
            return f'no proof found at the leaf ({told[0]})' if told else 'no proof found at the leaf'
        return journal.state(folder)[1]['leaf/goal/THM']


def steps(project: 'Project', name: str, path: Optional[str], sequent: Optional[replies.Sequent]) -> Union[str, list[str]]:
    """Lines for the leaf, or words that say why there are none."""
    if sequent is None:
        return 'no sequent there'
    texts, trees = project.journal.read()
    _, _, new = proofs.at(trees.get(name), proofs.numbers_of(path))
    tree = found_by(context(sequent, sets_of(texts.values()), new), project.engine.words[0])
    if isinstance(tree, str):
        return tree
    found = []
    for line in proofs.steps(name, tree, [hidden(h) for h in sequent.hypotheses]):
        word, obligation, at, *rest = line.split(' ', 3)
        place = proofs.path_text(proofs.numbers_of(path) + proofs.numbers_of(at))
        items = _HIDDEN.sub(r"\1'", rest[0]) if rest else ''
        if '?<' in items:
            return f'the proof uses the type of a name: {items}'
        found.append(f'{word} {obligation} {place} {items}'.rstrip())
    return found
