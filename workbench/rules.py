"""The rule kinds with their items, the laws with their shapes, and proposals for a sequent. The program makes the rules."""
from __future__ import annotations

from typing import Collection, NamedTuple, Optional, Sequence

from . import formulas, linear, rule_words
from .formulas import Formula

KINDS = {kind: row.items for kind, row in rule_words.KINDS.items()}
"""Kinds that `step` makes, with the items that each takes; `*` for as many as are needed. `review` is a command of its own."""

LAW_SAYS = rule_words.LAWS
"""What each law does."""

_ARROWS = ('⇸', '→', '⤔', '↣', '⤀', '↠', '⤖')
_ARROW_LAWS = {'↔': 35, '<<->': 36, '<->>': 37, '<<->>': 38, '⇸': 39, '→': 40, '⤔': 41, '↣': 42, '⤀': 43, '↠': 44, '⤖': 45}
_MEMBER = {'∪': 12, '∩': 13, '∖': 14, '{}': 15, '∅': 16, 'ℙ': 21, 'ℙ1': 22, 'dom': 23, 'ran': 24, 'image': 31, '{·}': 46, 'union': 47, 'inter': 48,
           '⋃': 49, '⋂': 50, 'ℕ': 61, 'ℕ1': 62, '‥': 63, **_ARROW_LAWS}
_PAIR_MEMBER = {'×': 11, '∼': 25, '◁': 26, '⩤': 27, '▷': 28, '⩥': 29, '<+': 30, ';': 32, '⊗': 33, '∥': 34, 'id': 51, 'prj1': 52, 'prj2': 53, 'succ': 64,
                'pred': 65}
_NOT = {'¬': 1, '∧': 2, '∨': 3, '⇒': 4, '⇔': 5, '∀': 6, '∃': 7, '<': 66, '≤': 67}
_RELATION = {'⊆': (17,), '⊂': (18,), '<': (69,)}
_FINITE = {'∅': 56, '{}': 57, '∪': 58, '‥': 59}
_SUMS = ('+', '−', '∗', '÷', 'mod', '^')


class Hint(NamedTuple):
    """A proposal: the words of the step behind the path, what it does, and the items that the user has to give ('e', 'p' or 'n NAME')."""
    words: str
    says: str
    asks: tuple[str, ...]

    def asked(self) -> str:
        """The words with a gap for each item that is wanted."""
        gaps = ' ;; '.join(f'{ask.split()[0]} ..' for ask in self.asks)
        return self.words + (' ;; ' if ' ' in self.words and gaps else ' ' if gaps else '') + gaps


def laws(formula: Formula) -> list[int]:
    """The laws whose left side has the shape of a formula. Types aren't printed, so a law of sets may be told for integers, too."""
    op, parts = formula.op, formula.parts
    found: list[int] = []
    if op == '¬':
        found += [_NOT[parts[0].op]] if parts[0].op in _NOT else []
    if op == '=':
        left, right = parts
        if left.op == 'bool' and right.op in ('TRUE', 'FALSE'):
            found.append(8 if right.op == 'TRUE' else 9)
        if left.op == right.op == '↦':
            found.append(54)
        if right.op == '∅':
            found.append(20)
        found += [10] + ([] if left.op in _SUMS + ('number', 'neg', 'card') or right.op in _SUMS + ('number', 'neg') else [19])
        found += [] if right.op in ('∅', '{}', 'TRUE', 'FALSE', '↦') else [68]
    if op == '∈':
        left, right = parts
        if left.op == '↦' and right.op in _PAIR_MEMBER:
            found.append(_PAIR_MEMBER[right.op])
        if right.op in _MEMBER:
            found.append(_MEMBER[right.op])
        found.append(55)
    found += _RELATION.get(op, ())
    if op == 'finite' and parts[0].op in _FINITE:
        found.append(_FINITE[parts[0].op])
    if op == 'apply' and parts[0].op == '<+':
        found.append(60)
    if op in _SUMS and all(p.op == 'number' or p.op == 'neg' and p.parts[0].op == 'number' for p in parts):
        found.append(70)
    return found


def fresh(names: Collection[str], count: int) -> list[str]:
    """So many names that aren't among `names`."""
    found: list[str] = []
    n = 1
    while len(found) < count:
        name = f'v{n}'
        if name not in names:
            found.append(name)
        n += 1
    return found


class View:
    """A sequent with its formulas read once."""

    def __init__(self, hypotheses: Sequence[str], goal: str) -> None:
        self.hypotheses, self.goal = list(hypotheses), goal
        self.trees, self.aim = [formulas.try_read(h) for h in hypotheses], formulas.try_read(goal)
        self.taken: set[str] = formulas.names(goal).union(*map(formulas.names, hypotheses))

    def near(self) -> tuple[list[int], list[int]]:
        """Hypothesis numbers that share names with the goal, those with most of it first, then the others in order."""
        wanted = formulas.names(self.goal)
        score = {n: len(wanted & formulas.names(h)) for n, h in enumerate(self.hypotheses, 1)}
        return sorted((n for n in score if score[n]), key=lambda n: (-score[n], n)), [n for n in score if not score[n]]

    def linear_steps(self, only: Collection[int] = ()) -> Optional[list[str]]:
        """Rules of which the last one is a linear step that closes the sequent, from the hypotheses or those of `only`; None where none is found."""
        return linear.steps(self.trees, self.hypotheses, self.aim, self.goal, only)

    def linear(self, only: Collection[int] = ()) -> Optional[str]:
        """The words of one linear step that closes the sequent; None where none is found."""
        found = self.linear_steps(only)
        return found[0] if found and len(found) == 1 else None

    def of_goal(self) -> list[Hint]:
        """Proposals for the goal as a whole."""
        hints: list[Hint] = []
        aim = self.aim
        for n, h in enumerate(self.hypotheses, 1):
            if h == self.goal:
                hints.append(Hint(f'hyp h {n}', f'it is hypothesis {n}', ()))
                break
        op = aim.op if aim else ''
        plain = {'⊤': ('top', 'it is ⊤'), '∧': ('andR', 'prove both sides'), '∨': ('orR', 'deny the left side, prove the right one'),
                 '⇒': ('impR', 'assume the left side'), '⇔': ('iffR', 'prove both directions'), '¬': ('notR', 'assume it, prove ⊥')}
        if op in plain:
            hints.append(Hint(plain[op][0], plain[op][1], ()))
        if aim and op == '∀':
            names = fresh(self.taken, len(aim.names))
            hints.append(Hint('allR ' + ' ;; '.join(f'n {n}' for n in names), 'take any ' + ', '.join(aim.names), ()))
        if aim and op == '∃':
            hints.append(Hint('exR', 'say which ' + ', '.join(aim.names), tuple(f'e {n}' for n in aim.names)))
        if aim and op == '=' and aim.parts[0].text(self.goal) == aim.parts[1].text(self.goal):
            hints.append(Hint('eqRefl', 'both sides are the same', ()))
        if op in ('≤', '<', '⊥'):
            found = self.linear()
            if found:
                hints.append(Hint(found, 'a linear step from the hypotheses told', ()))
        hints += [Hint('contra', 'assume its denial, prove ⊥', ()), Hint('cases', 'two cases', ('p',)), Hint('cut', 'a lemma', ('p',)),
                  Hint('boolCases', 'E is TRUE or FALSE', ('e',)), Hint('cardNat', '0 ≤ card(S)', ('e',))]
        return hints

    def of_hypothesis(self, n: int, chosen: Collection[int] = ()) -> list[Hint]:
        """Proposals for a hypothesis; `chosen` are further hypotheses that the user marked."""
        tree, text = self.trees[n - 1], self.hypotheses[n - 1]
        hints = [Hint(f'hyp h {n}', 'it is the goal', ())] if text == self.goal else []
        if tree is None:
            return hints
        op = tree.op
        plain = {'⊥': ('bot', 'it is ⊥'), '∧': ('andL', 'take both sides'), '∨': ('orL', 'a case for each side'),
                 '⇔': ('iffL', 'both directions'), '¬': ('notL', 'prove what it denies')}
        for m, (other, said) in enumerate(zip(self.trees, self.hypotheses), 1):
            if other is not None and other.op == '¬' and _denies(other, said, text):
                hints.append(Hint(f'contr h {n} ;; h {m}', f'it and {m} deny each other', ()))
            if op == '¬' and _denies(tree, text, said):
                hints.append(Hint(f'contr h {m} ;; h {n}', f'{m} and it deny each other', ()))
            if op == '⇒' and said == tree.parts[0].text(text):
                hints.append(Hint(f'mp h {n} ;; h {m}', f'its left side is {m}', ()))
            if op == '∈' and tree.parts[0].op == '↦' and other is not None and other.op == '∈' and other.parts[1].op in _ARROWS \
                    and other.parts[0].text(said) == tree.parts[1].text(text):
                hints.append(Hint(f'funEq h {n} ;; h {m}', f'the function by {m}', ()))
        if op in plain:
            hints.append(Hint(f'{plain[op][0]} h {n}', plain[op][1], ()))
        if op == '⇒':
            hints.append(Hint(f'impL h {n}', 'prove its left side, take its right one', ()))
        if op == '∀':
            hints.append(Hint(f'allL h {n}', 'say for which ' + ', '.join(tree.names), tuple(f'e {x}' for x in tree.names)))
        if op == '∃':
            hints.append(Hint(f'exL h {n} ;; ' + ' ;; '.join(f'n {x}' for x in fresh(self.taken, len(tree.names))), 'give it a name', ()))
        if op == '=':
            left = tree.parts[0].text(text)
            if (tree.parts[0].op, tree.parts[1].op) == ('TRUE', 'FALSE'):
                hints.append(Hint(f'boolDiff h {n}', 'TRUE is not FALSE', ()))
            if left in self.goal:
                hints.append(Hint(f'eqGoal h {n}', f'put its right side for {left} in the goal', ()))
            hints += [Hint(f'eqHyp h {n} ;; h {m}', f'put its right side for {left} in {m}', ()) for m in chosen if m != n]
        if op == '∈' and tree.parts[1].op in _ARROWS:
            hints.append(Hint(f'funIn h {n}', 'the value of the function at E', ('e',)))
        if op == '¬' and tree.parts[0].op == '=' and '<+' in self.goal:
            hints.append(Hint(f'overOther h {n}', 'f <+ {x ↦ y} elsewhere', ()))
        return hints

    def of_place(self, n: int, place: Sequence[int]) -> list[Hint]:
        """Laws at a part and at the parts round it, inner ones first; n is 0 for the goal."""
        tree = self.trees[n - 1] if n else self.aim
        text = self.hypotheses[n - 1] if n else self.goal
        hints: list[Hint] = []
        if tree is None:
            return hints
        for size in range(len(place), -1, -1):
            part = tree.at(place[:size])
            for law in laws(part):
                where = f'w {law} {formulas.place_text(place[:size])}'
                words = f'rwHyp h {n} ;; {where}' if n else f'rwGoal {where}'
                hints.append(Hint(words, f'{LAW_SAYS[law]}: {part.text(text)}', ()))
        return hints


def _denies(tree: Formula, text: str, said: str) -> bool:
    """Whether a negation denies a printed formula, as far as the characters tell."""
    inner = tree.parts[0]
    if text.startswith('¬'):
        return inner.text(text) == said
    left, right = (part.text(text) for part in inner.parts)
    return said == f'{left} {inner.op} {right}'
