"""Multipliers for the rule `linear`, found by linear programming over fractions. What it finds is tested by the program."""
from __future__ import annotations

from fractions import Fraction
from math import lcm
from typing import Collection, Mapping, Optional, Sequence

from .formulas import Formula

Form = dict[str, Fraction]
"""A linear form: from a term's text to its factor, with '' for the constant."""


def form(formula: Formula, text: str) -> Form:
    """The linear form of an expression of the printed text."""
    op, parts = formula.op, formula.parts
    if op == 'number':
        return {'': Fraction(int(formula.text(text)))}
    if op == 'neg':
        return _scaled(form(parts[0], text), Fraction(-1))
    if op in ('+', '−'):
        return _sum(form(parts[0], text), _scaled(form(parts[1], text), Fraction(1 if op == '+' else -1)))
    if op == '∗':
        left, right = form(parts[0], text), form(parts[1], text)
        for one, other in ((left, right), (right, left)):
            if all(k == '' or not v for k, v in one.items()):
                return _scaled(other, one.get('', Fraction(0)))
    return {formula.text(text): Fraction(1)}


def _scaled(f: Form, k: Fraction) -> Form:
    return {t: v * k for t, v in f.items()}


def _sum(f: Form, g: Form) -> Form:
    return {t: f.get(t, Fraction(0)) + g.get(t, Fraction(0)) for t in {**f, **g}}


def at_most_zero(formula: Optional[Formula], text: str, denied: bool = False) -> Optional[tuple[Form, bool]]:
    """The form that is at most 0 where a relation of integers holds (or, denied, doesn't), and whether it is 0; None for others."""
    if formula is None or formula.op not in ('≤', '<', '=') or denied and formula.op == '=':
        return None
    left, right = form(formula.parts[0], text), form(formula.parts[1], text)
    strict = formula.op == '<'
    if denied:
        left, right, strict = right, left, not strict
    return _sum(_sum(left, _scaled(right, Fraction(-1))), {'': Fraction(1 if strict else 0)}), formula.op == '='


def steps(trees: Sequence[Optional[Formula]], hypotheses: Sequence[str], aim: Optional[Formula], goal: str,
          only: Collection[int] = ()) -> Optional[list[str]]:
    """Rules that close a sequent by one linear step, the last one: mostly it alone. Before it stand, where they are needed, `contra` with the
    denied goal turned, and memberships in ℕ, ℕ1 and intervals unfolded. Of `only` where hypotheses are told. None where nothing is found."""
    bare = aim is not None and aim.op == '⊥'
    denied = None if bare else at_most_zero(aim, goal, denied=True)
    if not bare and denied is None:
        return None
    plain: dict[int, tuple[Form, bool]] = {}
    unfolded: dict[int, tuple[Form, bool]] = {}
    for n, (tree, text) in enumerate(zip(trees, hypotheses), 1):
        found = at_most_zero(tree, text) if not only or n in only else None
        if found is not None:
            plain[n] = found
        for part, form_found in enumerate(_memberships(tree, text) if not only or n in only else ()):
            unfolded[-(2 * n + part)] = (form_found, False)
    for forms in (plain, {**plain, **unfolded}):
        for turned in ((False,) if bare else (False, True)):
            extra = {0: (denied[0], False)} if turned and denied else {}
            factors = multipliers(None if bare or turned or not denied else denied[0], {**forms, **extra})
            if factors is not None:
                return _lines(factors, len(hypotheses), trees, turned, aim)
    return None


def _memberships(tree: Optional[Formula], text: str) -> list[Form]:
    """What is at most 0 where a whole number is in ℕ, ℕ1 or an interval: one form, or two."""
    if tree is None or tree.op != '∈' or tree.parts[1].op not in ('ℕ', 'ℕ1', '‥'):
        return []
    value = form(tree.parts[0], text)
    low = _scaled(value, Fraction(-1))
    if tree.parts[1].op != '‥':
        return [_sum(low, {'': Fraction(tree.parts[1].op == 'ℕ1')})]
    first, last = (form(part, text) for part in tree.parts[1].parts)
    return [_sum(low, first), _sum(value, _scaled(last, Fraction(-1)))]


def _lines(factors: Mapping[int, int], count: int, trees: Sequence[Optional[Formula]], turned: bool, aim: Optional[Formula]) -> list[str]:
    """The rules for multipliers: 0 is the denied goal, what is below 0 a membership (twice its hypothesis, and 1 more for its second half)."""
    lines, number = [], {n: n for n in factors if n > 0}
    if turned and aim is not None:
        lines += ['contra', f'rwHyp h {count + 1} ;; w {66 if aim.op == "<" else 67} -']
        number[0], count = count + 2, count + 2
    for n in sorted({-key // 2 for key in factors if key < 0}):
        tree = trees[n - 1]
        op = tree.parts[1].op if tree else ''
        lines.append(f'rwHyp h {n} ;; w {LAWS[op]} -')
        number[-2 * n] = count = count + 1
        if op == '‥':
            lines.append(f'andL h {count}')
            number[-2 * n], number[-2 * n - 1], count = count + 1, count + 2, count + 2
    return [*lines, ('linear ' + ' ;; '.join(f'h {n} {k}' for n, k in sorted((number[key], k) for key, k in factors.items()))).rstrip()]


LAWS = {'ℕ': 61, 'ℕ1': 62, '‥': 63}
"""The laws that unfold a membership."""


def multipliers(goal: Optional[Form], forms: Mapping[int, tuple[Form, bool]]) -> Optional[dict[int, int]]:
    """From hypothesis number to a whole multiplier, or None. `goal` is the form of the negated goal or None where the goal is ⊥; `forms`
    maps numbers to (form, is_equation). With a goal its own multiplier is 1, as the rule has it."""
    numbers = sorted(forms)
    columns = [(n, 1) for n in numbers] + [(n, -1) for n in numbers if forms[n][1]]
    terms = sorted(({t for f, _ in forms.values() for t in f} | set(goal or {})) - {''})
    rows = [[sign * forms[n][0].get(t, Fraction(0)) for n, sign in columns] for t in terms]
    want = [-(goal or {}).get(t, Fraction(0)) for t in terms]
    constants = [sign * forms[n][0].get('', Fraction(0)) for n, sign in columns]
    # sum of constants >= 1 - the goal's constant, with a slack column
    rows = [[*row, Fraction(0)] for row in rows] + [[*constants, Fraction(-1)]]
    want.append(Fraction(1) - (goal or {}).get('', Fraction(0)))
    found = _feasible(rows, want)
    if found is None:
        return None
    result: dict[int, Fraction] = {}
    for (n, sign), value in zip(columns, found):
        result[n] = result.get(n, Fraction(0)) + sign * value
    result = {n: v for n, v in result.items() if v}
    denominator = lcm(*(value.denominator for value in result.values()))
    if denominator != 1 and goal is not None:
        return None
    return {n: int(v * denominator) for n, v in result.items()}


def _feasible(rows: Sequence[Sequence[Fraction]], want: Sequence[Fraction]) -> Optional[list[Fraction]]:
    """Values >= 0 with rows * values = want, by the first phase of the simplex method with Bland's rule; None if there are none."""
    n, m = len(rows[0]), len(rows)
    table: list[list[Fraction]] = []
    for i, (row, w) in enumerate(zip(rows, want)):
        sign = -1 if w < 0 else 1
        table.append([sign * v for v in row] + [Fraction(int(i == j)) for j in range(m)] + [sign * w])
    basis = [n + i for i in range(m)]
    none = Fraction(0)
    cost = [-sum((row[j] for row in table), none) if j < n else none for j in range(n + m)] + [-sum((row[-1] for row in table), none)]
    while True:
        enter = next((j for j in range(n) if cost[j] < 0), None)
        if enter is None:
            break
        ratios = [(row[-1] / row[enter], basis[i], i) for i, row in enumerate(table) if row[enter] > 0]
        if not ratios:
            return None
        _, _, out = min(ratios)
        pivot = table[out][enter]
        table[out] = [v / pivot for v in table[out]]
        for i, row in enumerate(table):
            if i != out and row[enter]:
                k = row[enter]
                table[i] = [a - k * b for a, b in zip(row, table[out])]
        k = cost[enter]
        cost = [a - k * b for a, b in zip(cost, table[out])]
        basis[out] = enter
    if cost[-1] != 0:
        return None
    values = [Fraction(0)] * n
    for i, b in enumerate(basis):
        if b < n:
            values[b] = table[i][-1]
    return values
