"""What each kind of rule and each law is, in a line, for `help` and for buttons. docs/PROOFS.md has an example of each."""
from __future__ import annotations

from typing import NamedTuple


class Kind(NamedTuple):
    """A kind of rule: the items that it takes (`*` for as many as are needed), what it does, the same in a few words, and the
    operators of the hypotheses that its first item may name, where not all may be."""
    items: str
    says: str
    short: str
    heads: str = ''


NUMBERED = {
    'hyp': Kind('h', 'the goal is hypothesis N', 'the goal is a hypothesis'),
    'top': Kind('', 'the goal is ⊤', 'the goal is ⊤'),
    'bot': Kind('h', 'hypothesis N is ⊥', 'a hypothesis is ⊥', '⊥'),
    'contr': Kind('h h', 'the second hypothesis denies the first one', 'two hypotheses deny each other'),
    'andR': Kind('', 'prove both sides of a goal P ∧ Q', 'both sides'),
    'andL': Kind('h', 'take both sides of P ∧ Q', 'take both sides', '∧'),
    'orR': Kind('', 'of a goal P ∨ Q deny P and prove Q', 'deny one side, prove the other'),
    'orL': Kind('h', 'of P ∨ Q a case for each side', 'a case for each side', '∨'),
    'impR': Kind('', 'of a goal P ⇒ Q assume P and prove Q', 'assume the left side'),
    'impL': Kind('h', 'of P ⇒ Q prove P, and go on with Q', 'prove the left side, take the right one', '⇒'),
    'mp': Kind('h h', 'of P ⇒ Q and P take Q', 'the left side is there', '⇒'),
    'iffR': Kind('', 'of a goal P ⇔ Q prove both directions', 'both directions'),
    'iffL': Kind('h', 'of P ⇔ Q take both directions', 'take both directions', '⇔'),
    'notR': Kind('', 'of a goal ¬P assume P and prove ⊥', 'assume it, prove ⊥'),
    'notL': Kind('h', 'of ¬P prove P', 'prove what it denies', '¬'),
    'contra': Kind('', 'assume that the goal is false and prove ⊥', 'assume the denial, prove ⊥'),
    'allR': Kind('n*', 'of a goal ∀x·P take any x, by a new name for each', 'take any'),
    'allL': Kind('h e*', 'of ∀x·P take P for a value of each name', 'say for which', '∀'),
    'exR': Kind('e*', 'of a goal ∃x·P say which value of each name', 'say which'),
    'exL': Kind('h n*', 'of ∃x·P take P, by a new name for each', 'give it a name', '∃'),
    'cut': Kind('p', 'prove a lemma, and go on with it', 'a lemma'),
    'cases': Kind('p', 'a case where P holds and one where it does not', 'two cases'),
    'review': Kind('', 'take the goal for proved', 'taken for proved'),
    'eqRefl': Kind('', 'the goal is E = E', 'both sides are the same'),
    'eqGoal': Kind('h', 'of E = F put F for each E in the goal', 'replace in the goal', '='),
    'eqHyp': Kind('h h', 'of E = F put F for each E in another hypothesis', 'replace in a hypothesis', '='),
    'boolCases': Kind('e', 'a case where E is TRUE and one where it is FALSE', 'TRUE or FALSE'),
    'boolDiff': Kind('h', 'hypothesis N is TRUE = FALSE', 'TRUE is not FALSE', '='),
    'rwGoal': Kind('w', 'rewrite a part of the goal by a law', 'rewrite the goal'),
    'rwHyp': Kind('h w', 'rewrite a part of a hypothesis by a law', 'rewrite a hypothesis'),
    'linear': Kind('hk*', 'the denied goal and the hypotheses, each times its multiplier, add up to what can not be; without items they are looked for',
                   'linear arithmetic', '≤ < ='),
    'cardNat': Kind('e', 'of a finite set S take 0 ≤ card(S)', '0 ≤ card'),
    'funIn': Kind('h e', 'of f ∈ S → T and a value E of dom(f) take f(E) ∈ T', 'the value of a function', '∈'),
    'funEq': Kind('h h', 'of E ↦ F ∈ f and f ∈ S → T take f(E) = F', 'the function at a pair', '∈'),
    'overOther': Kind('h', 'of z ≠ x put f(z) for (f <+ {x ↦ y})(z) in the goal', 'f <+ elsewhere', '¬'),
}
"""The kinds in the order of their numbers, from 1."""

KINDS = {kind: row for kind, row in NUMBERED.items() if kind != 'review'}
"""Kinds that `step` makes. `review` is a command of its own."""

ITEMS = {'h': 'h N', 'hk': 'h N K', 'n': 'n NAME', 'e': 'e EXPRESSION', 'p': 'p PREDICATE', 'w': 'w LAW PLACE'}

LAWS = {
    1: '¬¬P becomes P', 2: '¬ into ∧', 3: '¬ into ∨', 4: '¬ into ⇒', 5: '¬ into ⇔', 6: '¬∀ becomes ∃¬', 7: '¬∃ becomes ∀¬', 8: 'bool(P)=TRUE becomes P',
    9: 'bool(P)=FALSE becomes ¬P', 10: 'turn the equation', 11: 'pair in a product', 12: '∈∪ becomes ∨', 13: '∈∩ becomes ∧', 14: '∈∖', 15: 'in an enumeration',
    16: '∈∅ becomes ⊥', 17: '⊆ becomes ∀', 18: '⊂ becomes ⊆ and ≠', 19: '= of sets becomes two ⊆', 20: '=∅ becomes ∀∉', 21: '∈ℙ becomes ⊆', 22: '∈ℙ1',
    23: '∈dom becomes ∃', 24: '∈ran becomes ∃', 25: 'in a converse', 26: 'in ◁', 27: 'in ⩤', 28: 'in ▷', 29: 'in ⩥', 30: 'in <+', 31: 'in an image',
    32: 'in ;', 33: 'in ⊗', 34: 'in ∥', 35: '↔ becomes ⊆ of ×', 36: 'total relation', 37: 'surjective relation', 38: 'total surjective relation',
    39: 'partial function', 40: 'total function', 41: 'partial injection', 42: 'total injection', 43: 'partial surjection', 44: 'total surjection',
    45: 'bijection', 46: 'in a comprehension', 47: 'in union', 48: 'in inter', 49: 'in ⋃', 50: 'in ⋂', 51: 'in id', 52: 'in prj1', 53: 'in prj2',
    54: 'pairs are equal', 55: 'the whole set of a type', 56: 'finite(∅)', 57: 'finite enumeration', 58: 'finite union', 59: 'finite range',
    60: '(f<+{E↦F})(E) becomes F', 61: '∈ℕ becomes 0≤', 62: '∈ℕ1 becomes 1≤', 63: '∈ a‥b', 64: 'in succ', 65: 'in pred', 66: '¬< becomes ≤',
    67: '¬≤ becomes <', 68: '= of integers becomes two ≤', 69: '< becomes +1≤', 70: 'reckon'}
"""What each law does."""


def form(kind: str) -> str:
    """How a rule is typed, with its items."""
    found = []
    for item in KINDS[kind].items.split():
        letter = item.rstrip('*')
        found.append(ITEMS[letter] + (' ;; ..' if item.endswith('*') else ''))
    return ' '.join([kind, ' ;; '.join(found)]).rstrip()
