"""A copy of one obligation in a session of its own, where rules are tried and nodes are looked at, and nothing of the project changes.

The copy's folder is a scratch one with the texts of the obligation's component and of what that builds upon, and the obligation's proof is
replayed there down to the node in question. So what a rule would leave, and the sequent at a rule, are replies of a session, too; that
the copy shows the same sequent as the project is compared before anything is told of it.
"""
from __future__ import annotations

import re
import shutil
import tempfile
import threading
from typing import Mapping, NamedTuple, Optional, Sequence

from . import replies, scan
from .commands import Refused, edit, one_line
from .engine import Ended, Engine

MOST_LEAVES = 4
"""As many antecedents as any rule has, and one more."""


MOST_REPLAYED = 400
"""Rules of a proof that is replayed whole: each writes the whole tree."""


class NoCopy(Exception):
    """The copy can't show this; the text says why."""


class Leaf(NamedTuple):
    """An antecedent of a rule: its goal where that is another one, and the hypotheses that it has more."""
    goal: Optional[str]
    adds: list[str]


class Tried(NamedTuple):
    """What came of a rule: the words of a refusal, or the leaves."""
    refused: Optional[str]
    leaves: list[Leaf]


def needed(name: str, texts: Mapping[str, str]) -> dict[str, str]:
    """The texts of a component and of all that it builds upon."""
    found: dict[str, str] = {}
    wanted = [name]
    while wanted:
        name = wanted.pop()
        if name in found or name not in texts:
            continue
        found[name] = texts[name]
        block = scan.component(texts[name])
        if block is not None:
            wanted += [other for section in ('extends', 'refines', 'sees') for other in block.names(section)]
    return found


def child(path: str, number: int) -> str:
    """The path of a child."""
    return str(number) if path == '-' else f'{path}.{number}'


def above(path: str) -> list[str]:
    """The paths between the root and a node, the root first."""
    numbers = [] if path == '-' else path.split('.')
    return ['.'.join(numbers[:size]) or '-' for size in range(len(numbers))]


class Copy:
    """One scratch session. `look` and `leaves` may be called by many threads; one is served at a time."""

    def __init__(self, program: str) -> None:
        self.program, self.lock = program, threading.Lock()
        self.engine: Optional[Engine] = None
        self.folder, self.po = '', ''
        self.sent: dict[str, str] = {}
        self.chain: list[str] = []

    def close(self) -> None:
        """Ends the session and removes its folder."""
        with self.lock:
            self._drop()

    def _drop(self) -> None:
        if self.engine is not None:
            self.engine.close()
            shutil.rmtree(self.folder, ignore_errors=True)
        self.engine, self.sent, self.chain, self.po = None, {}, [], ''

    def _build(self, texts: Mapping[str, str]) -> Engine:
        """The session, with these texts built."""
        if self.engine is None:
            self.folder = tempfile.mkdtemp(prefix='rodin-copy-')
            self.engine = Engine(self.folder, 0, self.program)
        if self.sent != texts:
            commands = [edit(name, text) for name, text in texts.items() if self.sent.get(name) != text]
            commands += [f'delete {name}' for name in self.sent if name not in texts]
            self.engine.send([*commands, 'build']).result()
            self.sent, self.chain, self.po = dict(texts), [], ''
        return self.engine

    def _stand(self, po: str, path: str, texts: Mapping[str, str], lines: Sequence[str]) -> Engine:
        """Brings the copy of an obligation to where `path` is an open leaf: the rules above it are made, and no others."""
        engine = self._build(needed(replies.component_of(po), texts))
        by_path = {line.split(' ', 3)[2]: line for line in lines}
        missing = [place for place in above(path) if place not in by_path]
        if missing:
            raise NoCopy(f'the rule at {missing[0]} could not be read')
        wanted = [by_path[place] for place in above(path)]
        if (self.po, self.chain) != (po, wanted):
            self.po, self.chain = '', []
            said = engine.send([f'prune {po} -', *map(one_line, wanted)]).result()[1:]
            for line, reply in zip(wanted, said):
                if replies.refusal(reply):
                    raise NoCopy(f'{line.split(" ", 2)[2]}: {replies.refusal(reply)}')
            self.po, self.chain = po, wanted
        return engine

    def look(self, po: str, path: str, texts: Mapping[str, str], lines: Sequence[str]) -> replies.Sequent:
        """The sequent at a node of the proof with these lines."""
        with self.lock:
            try:
                engine = self._stand(po, path, texts, lines)
                return self._sequent(engine.ask(f'show {po}' + ('' if path == '-' else f' {path}')))
            except (Ended, Refused) as fault:
                self._drop()
                raise NoCopy(str(fault)) from fault

    def misfits(self, po: str, texts: Mapping[str, str], lines: Sequence[str]) -> dict[str, str]:
        """The rules of a proof that don't apply to the present sequent any more, the upper ones alone, with the words of their refusal."""
        if len(lines) > MOST_REPLAYED:
            raise NoCopy(f'the proof has more than {MOST_REPLAYED} rules')
        with self.lock:
            try:
                engine = self._build(needed(replies.component_of(po), texts))
                self.po, self.chain = '', []
                said = engine.send([f'prune {po} -', *map(one_line, lines)]).result()[1:]
            except (Ended, Refused) as fault:
                self._drop()
                raise NoCopy(str(fault)) from fault
        found: dict[str, str] = {}
        for line, reply in zip(lines, said):
            path, words = line.split(' ', 3)[2], replies.refusal(reply)
            if words and not any(place in found for place in above(path)):
                lost = re.search(r'\?<(.*?)>(?= -?\d+(?: ;;|$)| ;;|$)', line)
                found[path] = f'its hypothesis {lost[1]} is not there' if lost else words
        return found

    @staticmethod
    def _sequent(reply: Sequence[str]) -> replies.Sequent:
        refused = replies.refusal(list(reply))
        if refused:
            raise NoCopy(refused)
        return replies.sequent(list(reply))

    def leaves(self, po: str, path: str, texts: Mapping[str, str], lines: Sequence[str], real: replies.Sequent, words: Sequence[str]) -> list[Tried]:
        """What each of some rules would leave at an open leaf whose sequent in the project is `real`."""
        if not words:
            return []
        with self.lock:
            try:
                engine = self._stand(po, path, texts, lines)
                here = self._sequent(engine.ask(f'show {po}' + ('' if path == '-' else f' {path}')))
                if (here.hypotheses, here.goal) != (real.hypotheses, real.goal):
                    raise NoCopy('the copy shows another sequent')
                trials = [[one_line(f'step {po} {path} {rule}')] + [f'show {po} {child(path, n)}' for n in range(MOST_LEAVES)] + [f'prune {po} {path}']
                          for rule in words]
                said = engine.send([command for trial in trials for command in trial]).result()
            except (Ended, Refused) as fault:
                self._drop()
                raise NoCopy(str(fault)) from fault
            size = MOST_LEAVES + 2
            return [_tried(said[n * size:(n + 1) * size - 1], here) for n in range(len(words))]


def _tried(said: Sequence[list[str]], here: replies.Sequent) -> Tried:
    """Reads the replies to a step and to `show` at the leaves that it may have."""
    refused = replies.refusal(said[0])
    if refused:
        return Tried(refused, [])
    shown = [replies.sequent(reply) for reply in said[1:] if not replies.refusal(reply)]
    return Tried(None, [Leaf(None if s.goal == here.goal else s.goal, s.hypotheses[len(here.hypotheses):]) for s in shown])
