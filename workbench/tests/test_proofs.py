"""Steps, undo, prune and redo; what the session's files hold; exported lines replay; the prover at a leaf."""
from __future__ import annotations

import io
import os
import re
import shutil
import subprocess
import tempfile
import unittest
from contextlib import redirect_stderr, redirect_stdout

from rooms import BOOM, EXAMPLES, PROGRAM, SETS, TOP, Room, needs_program
from workbench import export, journal, proofs, replies, texts
from workbench.engine import Engine
from workbench.project import Project
from workbench.proving import Proof


@needs_program
class Proving(Room):
    """One obligation."""

    def by_hand(self, project: Project) -> Proof:
        """A proof of four rules."""
        proof = Proof(project, 'boom/thm1/THM')
        said: list[str] = []
        for words in ('exR e 1', 'andR', 'linear', 'linear h 1 1'):
            said = proof.step(words)
        self.assertEqual(said, ['boom/thm1/THM discharged'])
        return proof

    def test_steps_undo_and_prune(self) -> None:
        proof = self.by_hand(self.project(boom=BOOM))
        self.assertIsNone(proof.leaf)
        sequent, line = proof.inside('0.1')
        self.assertEqual((sequent.hypotheses, sequent.goal, line), (['10 ≤ up'], '1 ∗ 1 < up', 'step boom/thm1/THM 0.1 linear h 1 1'))
        proof.undo()
        self.assertEqual(proof.leaf, '0.1')
        proof.redo()
        proof.prune('0')
        self.assertEqual((proof.leaf, len(proof.nodes)), ('0', 2))
        proof.undo()
        self.assertEqual(proof.project.statuses[proof.name], ('discharged', 'user'))

    def test_the_current_leaf(self) -> None:
        """It stays while it is open; else it is the first one behind it, or the first of all."""
        proof = Proof(self.project(boom=BOOM), 'boom/thm1/THM')
        proof.step('cases p up = 3')
        proof.step('cases p up = 4', '0')
        proof.step('cases p up = 5', '1')
        self.assertEqual([node.path for node in proof.leaves()], ['0.0', '0.1', '1.0', '1.1'])
        proof.review('0.1')
        self.assertEqual(proof.leaf, '1.0')
        proof.leaf = '1.1'
        proof.review()
        self.assertEqual(proof.leaf, '0.0')
        proof.review('0.0')
        self.assertEqual(proof.leaf, '1.0')

    def test_a_rule_with_a_line_feed_is_not_sent(self) -> None:
        proof = Proof(self.project(boom=BOOM), 'boom/thm1/THM')
        self.assertRaisesRegex(Exception, 'one line', proof.step, 'andR\nquit')

    def test_auto_is_undone(self) -> None:
        proof = Proof(self.project(boom=BOOM), 'boom/thm2/THM')
        self.assertEqual(proof.auto(), ['stored boom/thm2/THM discharged'])
        self.assertEqual(proof.undo(), ['boom/thm2/THM unattempted'])
        self.assertEqual(proof.redo(), ['boom/thm2/THM discharged'])

    def test_the_prover_at_a_leaf(self) -> None:
        proof = Proof(self.project(boom=BOOM), 'boom/thm1/THM')
        proof.step('exR e 1')
        self.assertEqual(proof.attempt()[1], ['boom/thm1/THM discharged'])
        proof.undo()
        self.assertEqual(proof.leaf, '0')

    def test_lines_that_no_longer_fit_are_told(self) -> None:
        project = self.project(boom=BOOM)
        lines = ['step boom/thm1/THM - andR', 'nonsense', '// x', '', 'step boom/gone/THM - top', 'quit', 'edit x']
        self.assertEqual([words for _, words in proofs.replay(project.engine, lines)],
                         ['the rule does not fit', 'not a line of a proof', 'no obligation boom/gone/THM', 'not a line of a proof', 'not a line of a proof'])

    def test_a_misfit(self) -> None:
        project = self.project(boom=BOOM)
        proof = self.by_hand(project)
        self.assertIsNone(proof.misfit())
        project.save('boom', BOOM.replace('∃k·0 < k', '∃k·1 < k'))
        self.assertEqual(proof.misfit(), ('-', 'exR', 'the goal ∃x1⦂ℤ·0 < x1 ∧ x1 ∗ x1 < up'))


@needs_program
class Replayed(Room):
    """Exports, to an empty folder."""

    def exported(self) -> tuple[int, str, str]:
        """Of the room into a folder of its own: exit status, what was printed, the folder."""
        to, out, err = tempfile.mkdtemp(dir=self.room), io.StringIO(), io.StringIO()
        kept = os.environ.get('RODIN')
        os.environ['RODIN'] = PROGRAM
        try:
            with redirect_stdout(out), redirect_stderr(err):
                status = export.main([self.room, '--to', to])
        finally:
            os.environ['RODIN'] = kept or PROGRAM
        return status, out.getvalue() + err.getvalue(), to

    def again(self, to: str, before: dict[str, str]) -> None:
        """The lines replay in a new session without refusal, and all statuses come back but those of broken proofs."""
        project = Project(to, 0, PROGRAM)
        self.addCleanup(project.close)
        project.sync()
        self.assertEqual(list(proofs.replay(project.engine, texts.read(os.path.join(to, 'proofs.steps')).splitlines())), [])
        project.refresh()
        self.assertEqual({name: status for name, (status, _) in project.statuses.items()},
                         {name: 'unattempted' if status == 'broken' else status for name, status in before.items()})

    def test_proofs_of_the_prover(self) -> None:
        """Of two examples, with one worker beside."""
        for name in ('counter', 'file_transfer'):
            shutil.copy(os.path.join(EXAMPLES, f'{name}.eventb'), self.room)
        project = Project(self.room, 1, PROGRAM)
        project.sync()
        project.engine.ask('wait')
        project.refresh()
        before = {name: status for name, (status, _) in project.statuses.items()}
        project.close()
        status, said, to = self.exported()
        self.assertEqual(status, 0, said)
        self.assertGreater(sum(status == 'discharged' for status in before.values()), 40)
        self.again(to, before)

    def test_the_proofs_of_the_documents(self) -> None:
        """The sessions in examples/ use the rules by hand; their proofs replay. The kinds that stand in them are told."""
        with open(os.path.join(EXAMPLES, 'proofs.session'), encoding='utf-8') as session:
            subprocess.run([PROGRAM, 'session', '0'], stdin=session, cwd=self.room, capture_output=True, check=True)
        engine = Engine(self.room, 0, PROGRAM)
        before = {name: status for name, (status, _) in replies.statuses(engine.ask('status')).items()}
        engine.close()
        kinds = set(re.findall(r"'(\w+)'", str([_kinds(tree) for tree in journal.state(self.room)[1].values()])))
        self.assertGreater(len(kinds), 12, kinds)
        status, said, to = self.exported()
        self.assertIn(status, (0, 1), said)
        self.again(to, before)

    def test_each_kind_of_rule_is_written_as_a_line(self) -> None:
        """A step of each kind that the sequent of a context takes: the line in the journal's words is the one that was sent."""
        text = ('context k sets S constants f t x y T e axioms @a f ∈ S ⇸ ℤ @b t ∈ BOOL @c x ∈ ℤ @d y ∈ ℤ @e T ⊆ S @g e ↦ 1 ∈ f @h x = y @i x < 3 @j e ∈ S '
                '@k ∀z·z < x @l ∃z·z < x @m ¬x = 4 @n x = 1 ⇒ y = 2 @o x = 1 theorem @t x = 5 end\n')
        project = self.project(k=text)
        numbers = {h: n for n, h in enumerate(replies.sequent(project.engine.ask('show k/t/THM')).hypotheses, 1)}

        def n(text: str) -> int:
            return numbers[text]
        sent = ['cut p x = 7 ∨ x = 8', 'cases p x = 9', 'boolCases e t', 'cardNat e T', f'funIn h {n("f ∈ S ⇸ ℤ")} ;; e e', f'funEq h {n("e ↦ 1 ∈ f")} ;; h {n("f ∈ S ⇸ ℤ")}',
                f'eqGoal h {n("x = y")}', f'eqHyp h {n("x = y")} ;; h {n("x < 3")}', f'allL h {n("∀x1⦂ℤ·x1 < x")} ;; e y + 1', f'exL h {n("∃x1⦂ℤ·x1 < x")} ;; n v',
                f'notL h {n("x ≠ 4")}', f'mp h {n("x = 1 ⇒ y = 2")} ;; h {n("x = 1")}', f'impL h {n("x = 1 ⇒ y = 2")}', 'contra', 'rwGoal w 68 -',
                f'rwHyp h {n("x < 3")} ;; w 69 -', f'overOther h {n("x ≠ 4")}', 'review']
        proof = Proof(project, 'k/t/THM')
        for words in sent:
            proof.step(words) if words != 'review' else proof.review()
            line = [line for line in proof.lines() if line.split(' ')[2] == '-']
            wanted = f'step k/t/THM - {words}' if words != 'review' else 'review k/t/THM -'
            self.assertEqual(line, [wanted])
            proof.prune()

    def test_what_is_left_out_is_told(self) -> None:
        project = self.project(boom=BOOM, rel=SETS)
        for words in ('exR e 1', 'andR', 'linear', 'linear h 1 1'):
            Proof(project, 'boom/thm1/THM').step(words)
        project.ask('auto rel/thm1/THM')
        project.save('boom', BOOM.replace('10', '20'))
        project.drop('rel')
        project.close()
        status, said, to = self.exported()
        self.assertEqual((status, said.splitlines()), (1, ['1 texts, 0 proofs, 0 lines', 'rodin-export: boom/thm1/THM is broken: left out',
                                                          'rodin-export: rel/thm1/THM has a proof, and is no obligation of the last build: left out']))
        self.assertEqual(texts.read(os.path.join(to, 'boom.eventb')), BOOM.replace('10', '20'))

    def test_the_command(self) -> None:
        link = os.path.join(self.room, 'x')
        os.symlink(os.path.join(TOP, 'rodin-export'), link)
        environment = {**os.environ, 'RODIN': PROGRAM}

        def run(*words: str) -> tuple[int, str]:
            done = subprocess.run([link, *words], capture_output=True, text=True, check=False, env=environment)
            return done.returncode, done.stdout
        self.assertEqual(run(self.room)[0], 3)
        project = self.project(boom=BOOM)
        Proof(project, 'boom/thm1/THM').step('exR e 1')
        self.assertEqual(run(self.room)[0], 3, 'a session is open')
        project.ask('auto boom/thm2/THM')
        project.close()
        self.assertEqual(run(self.room, '--by-hand'), (0, '// boom/thm1/THM pending (user)\nstep boom/thm1/THM - exR e 1\n'))
        project = self.project(boom=BOOM.replace('boom', 'arm'))
        project.close()
        self.assertEqual(run(self.room)[0], 1)
        self.assertEqual(run(self.room, '--move', 'boom', 'arm'), (0, '// arm/thm1/THM moved (from boom)\nstep arm/thm1/THM - exR e 1\n'
                                                                   '// arm/thm2/THM moved (from boom)\nstep arm/thm2/THM - linear h 1 1\n'))
        self.project(boom=BOOM).close()
        to = os.path.join(self.room, 'to')
        self.assertEqual(run(self.room, '--to', to), (0, '1 texts, 2 proofs, 2 lines\n'))
        self.assertEqual(run(self.room, '--to', to)[0], 3)
        self.assertEqual(run(self.room, '--to', to, '--over')[0], 0)


def _kinds(tree: 'journal.Tree | None') -> list[object]:
    """The kinds of the rules of a tree, nested."""
    return [] if tree is None else [tree.rule.kind, *map(_kinds, tree.children)]


if __name__ == '__main__':
    unittest.main()
