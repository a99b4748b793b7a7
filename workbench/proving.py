"""One obligation under proof: where the user stands, steps, undo and redo. Shared by the prompt and the page."""
from __future__ import annotations

from typing import NamedTuple, Optional, Sequence

from . import core_text, leaf_auto, proofs, replies, rules
from .commands import one_line
from .engine import Reply
from .project import Project


class Done(NamedTuple):
    """What undo takes back: a step at a path, or, where there are lines, a prune that took them out."""
    path: str
    pruned: Optional[list[str]] = None


def below(path: str, root: str) -> bool:
    """Whether a path is at or below another one."""
    return root == '-' or path == root or path.startswith(root + '.')


class Proof:
    """A current obligation and a current leaf (None where none is open). `refused` has the words of the last refusal of a look, or None."""

    def __init__(self, project: Project, name: str) -> None:
        self.project, self.name = project, one_line(name)
        self.leaf: Optional[str] = '-'
        self.done: list[Done] = []
        self.undone: list[list[str]] = []
        self.nodes: list[replies.Node] = []
        self.refused: Optional[str] = None
        self.read()

    # Looks.

    def read(self) -> None:
        """The tree as it stands; the current leaf stays if it is still open, else it is the first open one behind it, or the first."""
        reply = self.project.engine.ask(f'tree {self.name}')
        self.refused = replies.refusal(reply)
        self.nodes = [] if self.refused else replies.tree(reply)
        leaves = [node.path for node in self.nodes if node.rule is None]
        if self.leaf not in leaves:
            after = [path for path in leaves if proofs.numbers_of(path) >= proofs.numbers_of(self.leaf)]
            self.leaf = next(iter(after or leaves), None)

    def leaves(self) -> list[replies.Node]:
        """The open leaves."""
        return [node for node in self.nodes if node.rule is None]

    def show(self, path: Optional[str] = None) -> Reply:
        """The reply to `show` at a leaf, or of the whole obligation."""
        where = path or self.leaf
        return self.project.engine.ask(f'show {self.name}' if where in (None, '-') else one_line(f'show {self.name} {where}'))

    def sequent(self, path: Optional[str] = None) -> Optional[replies.Sequent]:
        """The sequent there, or None with `refused` set."""
        reply = self.show(path)
        self.refused = replies.refusal(reply)
        return None if self.refused else replies.sequent(reply)

    def view(self, path: Optional[str] = None) -> Optional[rules.View]:
        """The sequent there with its formulas read."""
        found = self.sequent(path)
        return None if found is None else rules.View(found.hypotheses, found.goal)

    # What changes the proof.

    def _act(self, command: str, path: str) -> Reply:
        """A command that puts something at a leaf."""
        reply = self.project.ask(one_line(command))
        if not replies.refusal(reply):
            self.done.append(Done(path))
            self.undone = []
            self.leaf = path
            self.read()
        return reply

    def step(self, words: str, path: Optional[str] = None) -> Reply:
        """Puts a rule at a leaf. Its reply."""
        where = path or self.leaf or '-'
        return self._act(f'step {self.name} {where} {words}'.strip(), where)

    def review(self, path: Optional[str] = None) -> Reply:
        """Takes the goal of a leaf for proved."""
        where = path or self.leaf or '-'
        return self._act(f'review {self.name} {where}', where)

    def auto(self) -> Reply:
        """The prover on the whole obligation: only where it is unattempted or broken, as the session has it."""
        reply = self.project.ask(f'auto {self.name}')
        if reply and reply[0].startswith('stored'):
            self.done, self.undone = self.done + [Done('-')], []
        self.read()
        return reply

    def prune(self, path: str = '-') -> Reply:
        """Takes out the rule at a path with all below it; the lines are kept for `undo`."""
        kept = self.lines(path)
        reply = self.project.ask(one_line(f'prune {self.name} {path}'))
        if not replies.refusal(reply):
            self.done.append(Done(path, kept))
            self.undone = []
            self.leaf = path
            self.read()
        return reply

    def undo(self) -> Optional[Reply]:
        """Takes back the last step or prune; None if there is none."""
        if not self.done:
            return None
        last = self.done.pop()
        if last.pruned is None:
            kept = self.lines(last.path)
            reply = self.project.ask(f'prune {self.name} {last.path}')
            if not replies.refusal(reply):
                self.undone.append(kept)
        else:
            reply = self._replay(last.pruned)
        self.leaf = last.path
        self.read()
        return reply

    def redo(self) -> Optional[Reply]:
        """Makes again what undo pruned; None if there is nothing."""
        if not self.undone:
            return None
        kept = self.undone.pop()
        reply = self._replay(kept)
        if kept:
            self.done.append(Done(kept[0].split(' ')[2]))
        self.read()
        return reply

    def attempt(self, path: Optional[str] = None) -> tuple[int, Reply]:
        """Asks the prover at one leaf (the session asks it only of whole obligations): how many steps it put there, and the last reply."""
        where = path or self.leaf or '-'
        found = leaf_auto.steps(self.project, self.name, where, self.sequent(where))
        if isinstance(found, str):
            return 0, [found]
        said = self.project.engine.send([*found, 'status']).result()[:-1]
        count = next((n for n, reply in enumerate(said) if replies.refusal(reply)), len(said))
        if count:
            self.done, self.undone = self.done + [Done(where)], []
        self.leaf = where
        self.read()
        return count, said[min(count, len(said) - 1)] if said else []

    def _replay(self, lines: Sequence[str]) -> Reply:
        """Sends lines of a proof; the first refusal, or the last reply."""
        said = self.project.engine.send([*lines, 'status']).result()[:-1]
        return next((reply for reply in said if replies.refusal(reply)), said[-1] if said else [])

    # What the session doesn't print, from its files.

    def lines(self, path: str = '-') -> list[str]:
        """The step lines of the stored tree at and below a path."""
        _, trees = self.project.journal.read()
        tree = trees.get(self.name)
        shown = self.project.engine.ask(f'show {self.name}')
        if tree is None or replies.refusal(shown):
            return []
        found = proofs.steps(self.name, tree, replies.sequent(shown).hypotheses)
        return [line for line in found if below(line.split(' ')[2], path)]

    def misfit(self) -> Optional[tuple[str, str, str]]:
        """Where the stored tree first doesn't apply: path, rule and what it wants; None where it isn't seen so."""
        whole = self.project.engine.ask(f'show {self.name}')
        if replies.refusal(whole):
            return None
        return proofs.misfit(self.project.journal.read()[1].get(self.name), replies.sequent(whole))

    def inside(self, path: str) -> tuple[replies.Sequent, str]:
        """The sequent at a rule, and the rule's line."""
        tree = self.project.journal.read()[1].get(self.name)
        whole = replies.sequent(self.project.engine.ask(f'show {self.name}'))
        goal, numbers = whole.goal, proofs.numbers_of(path)
        _, added, _ = proofs.at(tree, numbers)
        for n in numbers:
            if tree is None or n >= len(tree.children):
                break
            found = tree.rule.antecedents[n].goal
            goal = core_text.text_of(found) if found is not None else goal
            tree = tree.children[n]
        line = [line for line in self.lines(path) if line.split(' ')[2] == path]
        return replies.Sequent(whole.status, whole.hypotheses + added, goal), line[0] if line else ''
