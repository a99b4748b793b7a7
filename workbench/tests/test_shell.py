"""The prompt: words, a current leaf, undo and redo, multipliers that are found, the prover at a leaf, completion."""
from __future__ import annotations

import fcntl
import io
import os
import pty
import re
import select
import subprocess
import sys
import termios
import threading
import time
import unittest
from contextlib import redirect_stdout
from typing import Iterator
from unittest import mock

from rooms import BOOM, PROGRAM, SETS, TOP, Room, needs_program
from workbench import rule_words, shell_words, texts
from workbench.commands import Refused
from workbench.completion import Completer
from workbench.project import Project
from workbench.prompt import Prompt
from workbench.shell import Shell

RANGE = 'context r constants a b n axioms @a a ∈ ℕ1 @b b ∈ a ‥ n theorem @t 0 < b theorem @u 2 ∗ a ≤ 2 ∗ n end\n'


class Asked(Room):
    """A shell on the room."""

    def shell(self, **given: str) -> Shell:
        """A shell on texts."""
        self.put(**given)
        self.current = Shell(self.project())
        return self.current

    def say(self, line: str) -> list[str]:
        """What a line says."""
        return list(self.current.lines(line))


@needs_program
class Words(Asked):
    """What lines say."""

    def test_a_proof_at_the_prompt(self) -> None:
        shell = self.shell()
        self.put(boom=BOOM)
        self.assertEqual(self.say('load'), ['built: 1 components, 0 faulted, 2 obligations'])
        self.assertEqual(self.say('next')[-1], '⊢ ∃x1⦂ℤ·0 < x1 ∧ x1 ∗ x1 < up')
        self.assertEqual(self.say('exR e 1'), ['boom/thm1/THM pending, 1 open', 'at 0', '⊢ 0 < 1 ∧ 1 ∗ 1 < up'])
        self.say('andR')
        self.assertEqual(self.say('leaves'), ['0.0 ⊢ 0 < 1', '0.1 ⊢ 1 ∗ 1 < up'])
        self.assertEqual(self.say('linear'), ['linear', 'boom/thm1/THM pending, 1 open', 'at 0.1', '⊢ 1 ∗ 1 < up'])
        self.assertEqual(self.say('linear')[:2], ['linear h 1 1', 'boom/thm1/THM discharged'])
        self.assertEqual(self.say('undo')[-1], '⊢ 1 ∗ 1 < up')
        self.assertEqual(self.say('redo'), ['boom/thm1/THM discharged'])
        self.assertEqual(self.say('prune 0')[0], 'boom/thm1/THM pending')
        self.assertEqual(self.say('undo')[0], 'boom/thm1/THM discharged')
        self.say('prune 0.1')
        self.assertEqual(self.say('cut p up : NAT')[0], 'boom/thm1/THM pending, 2 open')
        self.assertEqual(self.say('leaf 0.1.1')[-1], '⊢ 1 ∗ 1 < up')
        self.assertEqual(self.say('why')[:3], ['boom/thm1/THM pending', 'open at 0.1.0: ⊢ up ∈ ℕ', '  1: 10 ≤ up   (up)'])
        self.assertEqual(self.say('review'), ['boom/thm1/THM pending'])
        self.assertEqual(self.say('digest')[0], shell.project.engine.ask('digest')[0])
        self.assertEqual(self.say('// nothing'), [])
        self.assertEqual(self.say('open')[0], 'boom/thm1/THM pending (user)')
        self.assertEqual(self.say('ls thm2'), ['boom/thm2/THM unattempted'])

    def test_what_cannot_be_done(self) -> None:
        self.shell(boom=BOOM)
        for line in ('g', 'undo', 'andR', 'try', 'linear', 'hint', 'do 1', 'po nothing/x/THM', 'ls (', 'edit ../x', 'text nothing', 'load x.txt'):
            with self.assertRaises(Refused, msg=line):
                self.say(line)
        self.say('po boom/thm1/THM')
        for line in ('leaf 7', 'do 1', 'hint 9', 'hint x', 'do x'):
            with self.assertRaises(Refused, msg=line):
                self.say(line)
        self.assertEqual(self.say('andR'), ['refused: the rule does not fit'])
        self.assertEqual((self.say('undo')[0], self.say('redo')), ('nothing to undo', ['nothing to redo']))

    def test_a_proof_that_broke_says_where(self) -> None:
        self.shell(boom=BOOM)
        for line in ('po boom/thm1/THM', 'exR e 1', 'andR', 'linear', 'linear'):
            self.say(line)
        self.put(boom=BOOM.replace('10', '20'))
        self.say('load')
        self.say('po boom/thm1/THM')
        self.assertEqual(self.say('why'), ['boom/thm1/THM broken', 'the rule linear at 0.1 wants the hypothesis 10 ≤ up, which is not there any more (by the '
                                           'files of the session)', 'prune 0.1 takes it out with all below it'])
        self.say('prune 0.1')
        self.assertEqual(self.say('linear')[-1], 'boom/thm1/THM discharged')

    def test_linear_unfolds_what_it_needs(self) -> None:
        self.shell(r=RANGE)
        self.say('po r/t/THM')
        self.assertEqual(self.say('linear'), ['rwHyp h 1 ;; w 62 -', 'rwHyp h 2 ;; w 63 -', 'andL h 4', 'linear h 3 1 ;; h 5 1', 'r/t/THM discharged'])
        self.say('po r/u/THM')
        self.assertEqual(self.say('linear')[-1], 'r/u/THM discharged')
        self.say('prune')
        self.assertEqual(self.say('contra')[0], 'r/u/THM pending, 1 open')
        self.say('undo')
        self.put(s='context s constants x y axioms @a 2 ∗ x ≤ y @b y < 6 theorem @t x < 3 theorem @u y < 5 end\n')
        self.say('load')
        self.say('po s/t/THM')
        self.assertEqual(self.say('linear'), ['contra', 'rwHyp h 3 ;; w 66 -', 'linear h 1 1 ;; h 2 1 ;; h 4 2', 's/t/THM discharged'])
        self.say('po s/u/THM')
        self.assertEqual(self.say('linear'), ['no multipliers found'])

    def test_proposals(self) -> None:
        self.shell(rel=SETS)
        self.say('po rel/thm1/THM')
        hints = self.say('hint')
        self.assertIn('rwGoal w 17 -   ⊆ becomes ∀: r ∪ {a} ⊆ s', [hint.split(': ', 1)[1] for hint in hints])
        number = next(hint.split(':')[0] for hint in hints if 'w 17' in hint)
        self.assertEqual(self.say(f'do {number}')[:2], ['rwGoal w 17 -', 'rel/thm1/THM pending, 1 open'])
        cut = next(hint.split(':')[0] for hint in self.say('hint') if ' cut ' in hint)
        self.assertEqual(self.say(f'do {cut} p a : s')[0], 'cut p a : s')
        self.assertEqual(self.say('hint 2')[-1].split('   ')[0].split(': ')[1], 'rwHyp h 2 ;; w 17 -')

    def test_the_prover_at_leaves(self) -> None:
        self.shell(rel=SETS)
        self.say('po rel/thm1/THM')
        self.say('cut p a : s')
        said = self.say('try all')
        self.assertRegex(said[0], r'^0: \d+ steps: rel/thm1/THM pending$')
        self.assertRegex(said[1], r'^1: \d+ steps: rel/thm1/THM discharged$')
        self.put(c='context c sets S axioms theorem @t S ≠ ∅ end\n')
        self.say('load')
        self.say('po c/t/THM')
        self.assertEqual(self.say('try')[0], '-: no proof found at the leaf')

    def test_the_prover_at_a_leaf_with_new_and_primed_names(self) -> None:
        self.shell(c='context c sets S constants A B axioms @a A ⊆ S @b B ⊆ A theorem @t ∀y·y ∈ B ⇒ y ∈ A end\n',
                   m='machine m variables x invariants @i x ∈ ℤ @j x ≤ 5 events event INITIALISATION then @a x ≔ 0 end event e then @a x :∣ x\' < 3 end end\n')
        self.say('po c/t/THM')
        self.say('allR n v')
        self.assertIn('steps: c/t/THM discharged', self.say('try')[0])
        self.say('po m/e/j/INV')
        self.assertIn('steps: m/e/j/INV discharged', self.say('try')[0])

    def test_texts_and_files(self) -> None:
        shell = self.shell(boom=BOOM)
        self.assertEqual(self.say('text boom'), ['   1 ' + BOOM.strip()])
        elsewhere = os.path.join(self.room, 'sub')
        os.mkdir(elsewhere)
        texts.write(os.path.join(elsewhere, 'rel.eventb'), SETS.replace('a ∈ s', 'a ∈ q'))
        self.assertEqual(self.say(f'load {elsewhere}/*.eventb'), ['built: 2 components, 1 faulted, 2 obligations', 'rel.eventb:7:13: q is unknown'])
        self.assertEqual(self.say('faults'), ['rel.eventb:7:13: q is unknown'])
        os.environ['VISUAL'] = 'sed -i s/q/s/'
        self.addCleanup(os.environ.pop, 'VISUAL')
        self.assertEqual(self.say('edit rel'), ['built: 2 components, 0 faulted, 3 obligations'])
        self.say('po boom/thm1/THM')
        for line in ('exR e 1', 'andR', 'linear', 'linear'):
            self.say(line)
        path = os.path.join(self.room, 'p.steps')
        self.assertEqual(self.say(f'proofs {path}'), ['5 lines'])
        self.say('prune')
        self.assertEqual(self.say(f'replay {path}'), ['3 obligations: 2 unattempted, 0 pending, 0 reviewed, 1 discharged, 0 broken'])
        shell.project.held = set()
        self.assertEqual(self.say('wait'), ['3 obligations: 0 unattempted, 0 pending, 0 reviewed, 3 discharged, 0 broken'])
        self.assertEqual(self.say('next'), ['nothing open'])

    def test_proofs_of_what_was_renamed(self) -> None:
        self.shell(boom=BOOM)
        for line in ('po boom/thm1/THM', 'exR e 1', 'andR', 'linear', 'linear', 'auto boom/thm2/THM'):
            self.say(line)
        self.put(boom=BOOM.replace('boom', 'arm').replace('@axm1', '@axm0 0 ≤ up @axm1').replace('thm2', 'low'))
        self.say('load')
        self.assertEqual(self.say('ls'), ['arm/thm1/THM unattempted', 'arm/low/THM unattempted'])
        self.assertEqual(self.say('move boom arm'), ['arm/thm1/THM discharged (user)'])
        self.assertEqual(self.say('move boom/thm2/THM arm/low/THM'), ['arm/low/THM discharged (user)'])
        self.assertEqual(self.say('move boom arm'), ['arm/thm1/THM is discharged: left as it is'])
        self.assertEqual(self.say('purge'), ['purged 2'])
        self.assertEqual(self.say('move boom arm'), [])
        self.assertRaises(Refused, self.say, 'move boom')

    def test_help_for_each_word(self) -> None:
        self.shell()
        for word in [*shell_words.WORDS, *shell_words.RAW, *rule_words.KINDS, *map(str, rule_words.LAWS)]:
            self.assertNotIn('no word', self.say(f'help {word}')[0])
            self.assertTrue(self.say(f'help {word}')[0])
        self.assertEqual(self.say('help allL'), ['allL h N ;; e EXPRESSION ;; ..: of ∀x·P take P for a value of each name'])
        self.assertEqual(self.say('help nonsense'), ['no word nonsense: help'])
        for word in shell_words.WORDS:
            self.assertTrue(any(line.startswith(word + ' ') for line in self.say('help')), word)

    def test_completion(self) -> None:
        shell = self.shell(boom=BOOM, rel=SETS)
        completer = Completer(shell)
        self.assertEqual(completer.offers('po boo', 'boo'), ['boom/thm1/THM', 'boom/thm2/THM'])
        self.assertEqual(completer.offers('lin', 'lin'), ['linear'])
        self.assertEqual(completer.offers('step boom/thm1/THM - and', 'and'), ['andR', 'andL'])
        self.assertEqual(completer.offers('text r', 'r'), ['rel'])
        self.assertEqual(completer.offers('andL h ', ''), [])
        self.say('po rel/thm1/THM')
        self.assertEqual(completer.offers('cut p ', ''), ['S', 'a', 'r', 's'])
        self.assertEqual(completer.offers('hyp h ', ''), ['1', '2', '3'])
        self.assertEqual(completer.shown['2'], '2: r ⊆ s')
        self.assertEqual(completer.offers('funIn h ', ''), ['3'])
        self.assertEqual(completer.offers('rwHyp h 1 ;; w 1', '1')[:2], ['1', '10'])
        self.assertEqual(completer.offers('leaf ', ''), ['-'])


@needs_program
class Tutorial(Asked):
    """docs/TUTORIAL.md: its texts as files, its commands at the prompt."""

    def test_the_story(self) -> None:
        shell = self.shell()
        blocks = re.findall(r'```session\n(.*?)```', texts.read(os.path.join(TOP, 'docs', 'TUTORIAL.md')), re.S)
        asked = 0
        for command, wanted in [turn for block in blocks for turn in self.turns(block)]:
            word, _, rest = command.split('\n', 1)[0].partition(' ')
            if word == 'edit':
                self.put(**{rest: command.split('\n', 1)[1]})
            elif word == 'build':
                shell.project.sync()
                self.assertEqual([shell.project.built], wanted)
            elif word == 'faults':
                self.assertEqual(len(self.say('faults')), len(wanted) - 1)
            elif word == 'wait':
                self.say('wait')
            elif word != 'quit':
                self.assertEqual(self.say(command), wanted, command)
                asked += 1
        self.assertGreater(asked, 15)

    @staticmethod
    def turns(block: str) -> Iterator[tuple[str, list[str]]]:
        """Commands with their answers; an edit has its text behind its first line."""
        lines = iter([*block.splitlines(), ''])
        command, answer = '', list[str]()
        for line in lines:
            if line.startswith('> '):
                answer.append(line[2:])
                continue
            if command:
                yield command, answer
            command, answer = line, []
            if line.startswith('edit '):
                command += ''.join(f'\n{text}' for text in iter(lines.__next__, '.')) + '\n'


def own_terminal() -> None:
    """Makes standard input the terminal that Ctrl-C comes from."""
    os.setsid()
    fcntl.ioctl(0, termios.TIOCSCTTY, 0)


@needs_program
class Doors(Asked):
    """The command."""

    def test_lines_from_a_pipe(self) -> None:
        self.put(boom=BOOM)
        link = os.path.join(self.room, 's')
        os.symlink(os.path.join(TOP, 'rodin-shell'), link)
        lines = 'po boom/thm1/THM\nexR e 1\nnonsense\nwait 1\nandR\nlinear\nlinear\nquit\ndigest\n'
        run = subprocess.run([sys.executable, link, self.room, '--no-prover'], input=lines, capture_output=True, text=True, check=False,
                             env={**os.environ, 'RODIN': PROGRAM})
        self.assertEqual((run.returncode, run.stderr), (0, ''))
        self.assertIn('refused: bad command', run.stdout.splitlines())
        self.assertEqual(run.stdout.splitlines()[-1], 'boom/thm1/THM discharged')

    def test_a_terminal(self) -> None:
        """A line of more than 4,095 bytes, TAB, Ctrl-C and Ctrl-D at a real terminal."""
        self.put(boom=BOOM)
        leader, follower = pty.openpty()
        environment = {**os.environ, 'RODIN': PROGRAM, 'HOME': self.room, 'TERM': 'dumb', 'LC_ALL': 'C.UTF-8'}
        with subprocess.Popen([sys.executable, os.path.join(TOP, 'rodin-shell'), self.room, '--no-prover'], stdin=follower, stdout=follower, stderr=follower,
                              env=environment, close_fds=True, preexec_fn=own_terminal) as run:
            self.addCleanup(run.kill)
            timer = threading.Timer(40, run.kill)
            timer.start()
            self.addCleanup(timer.cancel)
            os.close(follower)
            said = ''

            def until(wanted: str) -> None:
                nonlocal said
                end = time.monotonic() + 20
                while wanted not in said:
                    if not select.select([leader], [], [], max(0, end - time.monotonic()))[0]:
                        self.fail(f'{wanted!r} in {said!r}')
                    said += os.read(leader, 65536).decode('utf-8', 'replace')
                said = said.split(wanted, 1)[1]
            until('rodin> ')
            os.write(leader, b'po boom/thm1/T\t\n')
            until('⊢ ∃x1⦂ℤ·0 < x1 ∧ x1 ∗ x1 < up')
            until('THM -> ')
            os.write(leader, b'nonsense')
            until('nonsense')
            while 'THM -> ' not in said:  # a Ctrl-C that comes while readline takes a key waits for the next key, so it's pressed again
                os.write(leader, b'\x03')
                while select.select([leader], [], [], 1)[0]:
                    said += os.read(leader, 65536).decode('utf-8', 'replace')
            until('THM -> ')
            os.write(leader, b'// ' + b'x' * 5000 + b'\n')
            until('THM -> ')
            os.write(leader, b'exR e 1\n')
            until('boom/thm1/THM pending, 1 open')
            until('THM 0> ')
            os.write(leader, b'\x04')
            self.assertEqual(run.wait(20), 0)
        os.close(leader)
        self.assertIn('exR e 1', texts.read(os.path.join(self.room, '.rodin_shell_history')))

    def test_a_session_that_ends(self) -> None:
        project: Project = self.project(boom=BOOM)
        prompt = Prompt(project, False)
        project.engine.close()
        out = io.StringIO()
        with redirect_stdout(out), mock.patch('builtins.input', return_value='status'):
            self.assertEqual(prompt.run(), 3)
        self.assertEqual(out.getvalue().splitlines()[-1], 'the session ended: closed')


if __name__ == '__main__':
    unittest.main()
