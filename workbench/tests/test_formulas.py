"""Places of printed formulas are those of the program; spellings; multipliers; proposals."""
from __future__ import annotations

import random
import re
import unittest

from rooms import PROGRAM, TOP, Room, needs_program
from workbench import formulas, linear, rules, spell, texts
from workbench.engine import Engine, edit
from workbench.replies import sequent, statuses

OPS = '''context ops
sets S T
constants f g r s e d x n a b A B
axioms
  @a1 f ∈ S ⇸ ℤ @a2 g ∈ S → ℤ @a3 r ∈ S ↔ T @a4 s ∈ T ↔ S @a5 e ∈ S @a6 d ∈ T @a7 x ∈ ℤ @a8 n ∈ ℤ @a9 a ⊆ S @a10 b ⊆ S @a11 A ⊆ ℤ @a12 B ∈ BOOL
  @b1 f <+ {e ↦ 1} ; id ∈ S ⇸ ℤ @b2 r;s ⊗ (s∼;r∼)∼ ⊆ S × (S × S) @b3 ∀p,q·p ∈ a ∧ q ∈ b ⇒ (∃z·z ↦ p ∈ r;s ∨ q = z)
  @b4 {z·z ∈ A ∣ z + −z ∗ 2 ^ 3 mod 5} ⊈ (⋃z·z > 0 ∣ {z} ∪ 1‥z) @b5 (x − (n − 1)) ÷ (−3) = −x ∗ (−n) @b6 bool(x < n) = B ∧ (x = 1 ⇔ n = 2)
  @b7 prj1[{e ↦ d}] ∪ a = b ∖ {e} @b8 (r ∥ s)∼[({d} × a)] = ∅ ∨ finite(a) @b9 ¬(x < n) ∧ ¬finite(A) ∧ a ⊄ b ∧ e ∉ b
  @b10 (λ u ↦ v · u ∈ a ∧ v ∈ A ∣ v + 1)(e ↦ x) = f(e) + card(a)
  @b11 union({a,b}) = inter({a}) ∩ dom(r ▷ {d}) @b12 succ(x) = pred(n) ∧ min({x,n}) ≤ max(A) @b13 ℙ1(a) ⊂ ℙ(b) @b14 a ◁ r ⩥ {d} ∈ a <<->> {d} @b15 f∼[A] ⊆ a
  theorem @t x = 1 ⇒ (∀k·k∈A ⇒ {k} ∪ {m·m ∈ A ∣ m} ∈ ℙ(A))
end
'''
KEYS = '''context c sets S constants a b r f x axioms @a a <: S & b <<: S & r : S <-> S & f : S +-> INT & x : NAT1
@b !y.y : a => (#z.(z |-> y : r & true) or not z /= y)
@c (%q.q : a | 1) <+ f : a +-> INT & (x*1 |-> x-1) /: {1 |-> 2} & {} <: POW(a)
@d a \\/ b /\\ a \\ b <<: a & x >= 2 <=> x <= 3 & r~ ; r >< r <: S ** (S ** S) // a : b
end
'''


@needs_program
class Places(Room):
    """Against the program."""

    def engine(self) -> Engine:
        """A session in the room."""
        engine = Engine(self.room, 0, PROGRAM)
        self.addCleanup(engine.close)
        return engine

    def test_each_part_is_a_place_and_nothing_else(self) -> None:
        """Law 34 fits nowhere here, and the program tells a place that isn't there first."""
        engine = self.engine()
        engine.send([edit('ops', OPS), 'build']).result()
        asked, wanted = [], []
        for name in statuses(engine.ask('status')):
            shown = sequent(engine.ask(f'show {name}'))
            for n, text in [(0, shown.goal), *enumerate(shown.hypotheses, 1)]:
                for part in formulas.read(text).walk():
                    for place, there in ((part.place, True), (part.place + [len(part.parts)], False)):
                        words = f'w 34 {formulas.place_text(place)}'
                        asked.append(f'step {name} - rwHyp h {n} ;; {words}' if n else f'step {name} - rwGoal {words}')
                        wanted.append('refused: the rule does not fit' if there else 'refused: no such place')
        said = [reply[0] for reply in engine.send(asked).result()]
        self.assertGreater(len(said), 2000)
        self.assertEqual([x for x in zip(asked, said, wanted) if x[1] != x[2] and not x[1].startswith('refused: formula')], [])

    def test_each_spelling_is_read_as_its_sign(self) -> None:
        engine = self.engine()
        said = [engine.send([edit('c', text), 'build', 'faults']).result() for text in (KEYS, spell.unicode_of(KEYS))]
        self.assertEqual(said[0], said[1])
        self.assertEqual(said[0][2], ['0 faults'])
        self.assertNotIn(':=', spell.unicode_of('x := 1'))
        self.assertEqual(spell.unicode_of('@a-b.c x <<-> y // a : b'), '@a-b.c x <<-> y // a : b')

    def test_each_law_of_the_document_is_proposed(self) -> None:
        """The example of each law: the printed goal, its law among the proposals at some place, and the program makes that step."""
        engine = self.engine()
        rows = [(int(m[1]), m[2]) for m in re.finditer(r'^\| (\d+) \|.*?\| `([^`]*)` (?:at `\S+` )?\|', texts.read(f'{TOP}/docs/PROOFS.md').split('## The laws')[1], re.M)]
        self.assertEqual([law for law, _ in rows], [*rules.LAW_SAYS])
        lacking = []
        for law, example in rows:
            text = ('context e sets S Q constants T U R f g r s q p e d x n y V W t k axioms @a T ⊆ S @b U ⊆ S @c f ∈ S ⇸ ℤ @d g ∈ S ⇸ ℤ @f e ∈ S @g d ∈ S '
                    f'@h x ∈ ℤ @i n ∈ ℤ @j y ∈ ℤ @k V ⊆ ℤ @l W ⊆ ℤ @m t ∈ BOOL @n q ∈ ℤ ↔ S @o p ∈ S ↔ S @p r ∈ S ↔ S @q s ∈ S ↔ S @s k ∈ ℤ @t R ⊆ ℙ(S) theorem @g{law} {example} end\n')
            said = engine.send([edit('e', text), 'build', f'show e/g{law}/THM']).result()
            if said[2][0].startswith('refused'):
                lacking.append((law, example, said[1]))
                continue
            view = rules.View(sequent(said[2]).hypotheses, sequent(said[2]).goal)
            assert view.aim is not None
            places = [part.place for part in view.aim.walk()]
            found = [hint.words for place in places for hint in view.of_place(0, place) if hint.words.startswith(f'rwGoal w {law} ')]
            if not any(not reply[0].startswith('refused') for reply in engine.send([f'step e/g{law}/THM - {words}' for words in found]).result()):
                lacking.append((law, example, found))
        self.assertEqual(lacking, [])


class Proposals(unittest.TestCase):
    """By shape."""

    def test_by_shape(self) -> None:
        view = rules.View(['x ∈ A ⇒ y = 1', 'x ∈ A', 'x ∉ B', 'x ∈ B', 'y = z', '∀x1⦂ℤ·x1 < x'], 'r ∪ s ⊆ t ∧ y < 2')

        def words(hints: list[rules.Hint]) -> list[str]:
            return [hint.words for hint in hints]
        self.assertEqual(words(view.of_goal())[0], 'andR')
        self.assertIn('rwGoal w 17 0', words(view.of_place(0, [0])))
        self.assertIn('mp h 1 ;; h 2', words(view.of_hypothesis(1)))
        self.assertIn('contr h 4 ;; h 3', words(view.of_hypothesis(3)))
        self.assertIn('contr h 4 ;; h 3', words(view.of_hypothesis(4)))
        self.assertEqual(words(view.of_hypothesis(5, [4]))[-2:], ['eqGoal h 5', 'eqHyp h 5 ;; h 4'])
        self.assertEqual(view.of_hypothesis(6)[0].asks, ('e x1',))
        self.assertEqual(view.near(), ([1, 5], [2, 3, 4, 6]))

    def test_texts_that_are_no_printed_formulas(self) -> None:
        chance = random.Random(50)
        for _ in range(300):
            formulas.try_read(''.join(chance.choice('(){}[]∀∃·∣⦂x1 ,=∈¬−∼ℤ∅') for _ in range(chance.randrange(12))))
        self.assertIsNone(formulas.try_read('(' * 5000))
        self.assertEqual(rules.View(['?'], '?').of_place(0, []), [])


class Multipliers(unittest.TestCase):
    """Of linear steps."""

    def test_multipliers(self) -> None:
        self.assertEqual(rules.View(['2 ∗ x ≤ y', 'y < 6', 'z ∈ ℕ'], 'x < 3').linear(), None)
        self.assertEqual(rules.View(['2 ∗ x ≤ y', 'y < 6', '3 ≤ x'], '⊥').linear(), 'linear h 1 1 ;; h 2 1 ;; h 3 2')
        self.assertEqual(rules.View(['x = y + 1', 'y < n'], 'x ≤ n').linear(), 'linear h 1 1 ;; h 2 1')
        self.assertEqual(rules.View(['x < n'], 'n ≤ x').linear(), None)
        self.assertEqual(rules.View([], '0 < 1').linear(), 'linear')
        self.assertEqual(rules.View(['x < n', 'y < n'], 'y < n').linear([1]), None)
        self.assertEqual(rules.View(['s ⊆ t'], 's = t').linear_steps(), None)

    def test_many_hypotheses(self) -> None:
        """A chain of 60 inequalities, shuffled."""
        chain = [f'v{n} < v{n + 1}' for n in range(60)]
        random.Random(1).shuffle(chain)
        found = rules.View(chain, 'v0 + 59 < v60').linear()
        assert found is not None
        self.assertEqual(found.count(' 1'), found.count('h ') + found.count('h 1'))

    def test_random_sums(self) -> None:
        """Of hypotheses and a goal that is their sum with random factors the multipliers are found, and add up."""
        chance = random.Random(7)
        for _ in range(40):
            rows = [[chance.randrange(-3, 4) for _ in range(3)] for _ in range(4)]
            hypotheses = [' + '.join(f'{k} ∗ {v}' if k >= 0 else f'(−{-k}) ∗ {v}' for k, v in zip(row, 'xyz')) + ' ≤ 0' for row in rows]
            factors = [chance.randrange(3) for _ in rows]
            total = [sum(f * row[n] for f, row in zip(factors, rows)) for n in range(3)]
            goal = ' + '.join(f'{k} ∗ {v}' if k >= 0 else f'(−{-k}) ∗ {v}' for k, v in zip(total, 'xyz')) + ' ≤ 0'
            self.assertIsNotNone(rules.View(hypotheses, goal).linear_steps(), (hypotheses, goal))

    def test_forms(self) -> None:
        text = '2 ∗ (x − y) + 3 ≤ x ∗ 1'
        found = linear.at_most_zero(formulas.read(text), text)
        assert found is not None
        self.assertEqual(({k: int(v) for k, v in found[0].items()}, found[1]), ({'x': 1, 'y': -2, '': 3}, False))


if __name__ == '__main__':
    unittest.main()
