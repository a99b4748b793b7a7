"""Replies belong to their commands, whatever the commands are; edits go before attempts; what was answered outlives every crash."""
from __future__ import annotations

import functools
import os
import random
import signal
import subprocess
import sys
import tempfile
import threading
import time
import unittest

from rooms import BOOM, PROGRAM, TOP, Room, needs_program
from workbench import engine as engines
from workbench.commands import encoded
from workbench.engine import EDIT, LOOK, SWEEP, Ended, Engine, Lost, Refused, Reply, edit, raw
from workbench.project import Project
from workbench.replies import statuses

NONE = '0 obligations: 0 unattempted, 0 pending, 0 reviewed, 0 discharged, 0 broken'


class Lines(unittest.TestCase):
    """What is sent at all."""

    def test_raw_lines_that_would_take_the_mark(self) -> None:
        for line in ('edit c', ' \xa0edit c', 'edit\tc', 'quit', ' quit ', 'wait', 'a\nb'):
            self.assertRaises(Refused, raw, line)
        self.assertEqual(raw('editor'), 'editor')

    def test_commands_without_an_end(self) -> None:
        for command in ('edit c', 'edit c\na', 'edit c\n.\nquit\n.', 'edit c\n.\r\nb\n.', 'quit', 'build\nbuild', 'show \ud800/x/THM'):
            self.assertRaises(Refused, encoded, command)
        self.assertEqual(encoded(edit('c', 'a\n.\nb')), 'edit c\na\n. \nb\n.\n'.encode())
        self.assertEqual(encoded(edit('c', '')), b'edit c\n.\n')


class Talking(Room):
    """An engine without workers in the room."""

    def setUp(self) -> None:
        super().setUp()
        self.engine = Engine(self.room, 0, PROGRAM)
        self.addCleanup(self.engine.close)

    def boom(self) -> None:
        """A component with two obligations."""
        self.engine.send([edit('boom', BOOM), 'build']).result()

    def die(self, how: int = signal.SIGKILL) -> None:
        """A signal to the session."""
        os.kill(self.engine.process.pid, how)


@needs_program
class Talk(Talking):
    """Marks and ranks."""

    def test_refused_lines_and_silent_lines_keep_step(self) -> None:
        said = self.engine.send(['?', '// nothing', '', 'bad', 'status', 'show no/thm/THM', 'x' * 5000, edit('1', 'a\n.\nb'), edit('c', 'a\n.\nb\n'), 'status']).result()
        self.assertEqual([r[-1] if r else None for r in said],
                         ['refused: bad command', None, None, 'refused: bad command', NONE, 'refused: no obligation no/thm/THM', 'refused: line too long',
                          'refused: bad name', 'edited c', NONE])

    def test_a_line_that_is_a_dot_stays_text(self) -> None:
        text = 'context c\nconstants x\naxioms\n@a ∀y\n.\ny = x ∧ x ∈ ℤ\nend\n'
        said = self.engine.send([edit('c', text), 'build', 'faults']).result()
        self.assertEqual([r[-1] for r in said], ['edited c', 'built: 1 components, 0 faulted, 0 obligations', '0 faults'])

    def test_edits_go_before_attempts(self) -> None:
        self.boom()
        order: list[int] = []
        self.engine.log = lambda sent, reply, seconds, rank: order.append(rank)
        futures = [self.engine.send(['auto boom/thm1/THM'], SWEEP) for _ in range(5)] + [self.engine.send(['build'], EDIT)]
        for future in futures:
            future.result()
        self.assertLess(order.index(EDIT), 2)

    def test_many_threads(self) -> None:
        self.boom()
        wrong = []

        def ask(n: int) -> None:
            for _ in range(20):
                if self.engine.ask(f'show x/{n}/THM') != [f'refused: no obligation x/{n}/THM']:
                    wrong.append(n)
        _together([threading.Thread(target=ask, args=(n,)) for n in range(8)])
        self.assertEqual(wrong, [])

    def test_a_fault_of_a_listener_ends_nothing(self) -> None:
        def fails(sent: str, reply: Reply, seconds: float, rank: int) -> None:
            raise ValueError('a listener')
        self.engine.log = fails
        with open(os.devnull, 'w', encoding='utf-8') as nowhere:
            kept, sys.stderr = sys.stderr, nowhere
            try:
                self.assertEqual(self.engine.ask('status'), [NONE])
            finally:
                sys.stderr = kept

    def test_what_was_logged_is_what_a_bare_session_says(self) -> None:
        """Random commands from four threads; then the lines of the log, without marks, to a session of its own."""
        log: list[tuple[str, Reply]] = []
        self.engine.log = lambda sent, reply, seconds, rank: log.append((sent, reply))

        def run(seed: int) -> None:
            chance = random.Random(seed)
            for _ in range(25):
                path, lines = chance.choice(['-', '0', '1', '0.1']), BOOM.split(' ')
                lines.insert(chance.randrange(len(lines)), chance.choice(['\n.\n', '\n .\n', '\n.\r\n', '\n']))
                choices = [edit('boom', ' '.join(lines)), 'build', 'status', 'faults', f'show boom/thm1/THM {path}', 'tree boom/thm1/THM', '?', '', '// c',
                           f'step boom/thm1/THM {path} exR e 1', f'step boom/thm1/THM {path} andR', f'prune boom/thm1/THM {path}', 'digest', 'purge',
                           'x' * 5000, 'auto boom/thm2/THM', 'refused: bad command', f'review boom/thm1/THM {path}']
                self.engine.send([chance.choice(choices) for _ in range(chance.randrange(1, 5))], chance.randrange(4)).result()
        _together([threading.Thread(target=run, args=(n,)) for n in range(4)])
        with tempfile.TemporaryDirectory() as room:
            bare = subprocess.run([self.engine.words[0], 'session', '0'], input='\n'.join(sent for sent, _ in log) + '\n', capture_output=True, text=True,
                                  cwd=room, check=True).stdout
        self.assertEqual(bare.splitlines(), [line for _, reply in log for line in reply])


@needs_program
class Crashes(Talking):
    """The session killed, stopped and full; our side killed; two in one folder."""

    def test_a_killed_session_is_begun_anew(self) -> None:
        self.boom()
        self.engine.ask('step boom/thm1/THM - exR e 1')
        self.die()
        self.engine.process.wait()
        self.assertEqual(self.engine.ask('tree boom/thm1/THM'), ['- exR', '0 open ⊢ 0 < 1 ∧ 1 ∗ 1 < up'])
        self.assertEqual((self.engine.starts, self.engine.ended), (2, None))

    def test_kills_at_random_moments_lose_nothing_that_was_answered(self) -> None:
        """Each text that was answered is there, the last one of each name, and each answer belongs to its command."""
        chance, kept, stop = random.Random(50), {}, threading.Event()
        engines_deaths = engines.DEATHS
        engines.DEATHS = 1000
        self.addCleanup(setattr, engines, 'DEATHS', engines_deaths)

        def kill() -> None:
            while not stop.wait(chance.random() * 0.1):
                try:
                    self.die()
                except ProcessLookupError:
                    pass
        killer = threading.Thread(target=kill)
        killer.start()
        try:
            n = 0
            while n < 150 or self.engine.starts <= 5 and n < 20000:
                n += 1
                name, number = f'c{n % 7}', str(n)
                try:
                    said = self.engine.send([edit(name, f'context {name} constants x axioms @a x = {number} theorem @t x = {number} end'), 'build',
                                             f'show {name}/t/THM']).result()
                except Lost:
                    continue
                kept[name] = number
                self.assertEqual(said[0], [f'edited {name}'])
                self.assertEqual(said[2][1:], [f'1: x = {number}', f'⊢ x = {number}'])
        finally:
            stop.set()
            killer.join()
        self.assertGreater(self.engine.starts, 5)
        self.engine.close()
        again = Engine(self.room, 0, PROGRAM)
        self.addCleanup(again.close)
        shown = again.send(['build'] + [f'show {name}/t/THM' for name in sorted(kept)]).result()[1:]
        self.assertEqual(sorted(kept), [f'c{n}' for n in range(7)])
        for (name, number), reply in zip(sorted(kept.items()), shown):
            self.assertTrue(int(reply[-1].rsplit(' ', 1)[1]) >= int(number), (name, number, reply))

    def test_a_session_that_dies_over_one_command_twice_loses_it_alone(self) -> None:
        """A program that ends at a certain line and else is the session."""
        script = os.path.join(self.room, 'fragile')
        with open(script, 'w', encoding='utf-8') as file:
            file.write(f'#!/bin/sh\nwhile IFS= read -r line; do case $line in digest) exit 9;; esac; printf "%s\\n" "$line"; done | {PROGRAM} session 0\n'
                       'exit 9\n')
        os.chmod(script, 0o755)
        room = tempfile.mkdtemp(dir=self.room)
        fragile = Engine(room, 0, script)
        self.addCleanup(fragile.close)
        with self.assertRaises(Lost):
            fragile.ask('digest')
        self.assertEqual(fragile.ask('status'), [NONE])
        for _ in range(2):
            with self.assertRaises((Lost, Ended)):
                fragile.ask('digest')
        with self.assertRaises(Ended):
            fragile.send(['digest']).result()
            fragile.send(['status']).result()
        self.assertIsNotNone(fragile.ended)

    def test_an_attempt_that_a_session_dies_over_is_not_tried_again(self) -> None:
        """A program that ends at each `auto` of one obligation; the minder goes on with the others, once each."""
        script = os.path.join(self.room, 'fragile')
        with open(script, 'w', encoding='utf-8') as file:
            file.write('#!/bin/sh\nwhile IFS= read -r line; do case $line in "auto boom/thm1/THM") exit 9;; esac; printf "%s\\n" "$line"; done | '
                       f'{PROGRAM} session 0\nexit 9\n')
        os.chmod(script, 0o755)
        room = tempfile.mkdtemp(dir=self.room)
        with open(os.path.join(room, 'boom.eventb'), 'w', encoding='utf-8') as file:
            file.write(BOOM)
        project = Project(room, 0, script)
        self.addCleanup(project.close)
        threading.Thread(target=project.mind, kwargs={'every': 0.05}, daemon=True).start()
        self.until(lambda: project.resting)
        self.assertEqual(({name: status for name, (status, _) in project.statuses.items()}, [*project.tried]),
                         ({'boom/thm1/THM': 'unattempted', 'boom/thm2/THM': 'discharged'}, ['boom/thm1/THM']))
        self.assertEqual((project.engine.starts, project.engine.ended), (2, None))

    def test_a_stopped_session_goes_on_where_it_was(self) -> None:
        self.boom()
        self.die(signal.SIGSTOP)
        text = BOOM + '//' + 'x' * 60000 + '\n'
        futures = [self.engine.send([edit('boom', text), 'build', 'status']) for _ in range(5)]
        time.sleep(0.3)
        self.assertFalse(any(future.done() for future in futures))
        self.assertGreater(self.engine.silent(), 0.2)
        self.assertEqual(self.engine.at_work, 'edit boom')
        self.die(signal.SIGCONT)
        self.assertEqual({future.result()[2][-1] for future in futures}, {NONE.replace('0 ob', '2 ob').replace('0 un', '2 un')})
        self.assertEqual((self.engine.silent(), self.engine.starts), (0.0, 1))

    def test_a_stopped_session_is_closed(self) -> None:
        self.boom()
        self.die(signal.SIGSTOP)
        waiting = self.engine.send([edit('boom', BOOM + '//' + 'x' * 60000 + '\n')] * 5)
        time.sleep(0.1)
        self.engine.close(0.3)
        self.assertRaises(Ended, waiting.result)
        again = Engine(self.room, 0, PROGRAM)
        self.addCleanup(again.close)
        self.assertEqual(list(statuses(again.ask('status'))), ['boom/thm1/THM', 'boom/thm2/THM'])

    def test_a_full_session_is_begun_anew(self) -> None:
        """More edits than have room in a session; each is answered, and the last one stands."""
        text = 'context c constants x axioms @a x = %d theorem @t x = %d end //' + 'x' * 65000
        futures = [self.engine.send([edit('c', text % (n, n))]) for n in range(1100)] + [self.engine.send(['build', 'show c/t/THM'])]
        self.assertEqual({future.result()[0][0] for future in futures[:-1]}, {'edited c'})
        self.assertEqual(futures[-1].result()[1][-1], '⊢ x = 1099')
        self.assertEqual(self.engine.starts, 2)

    def test_a_full_input_is_begun_anew(self) -> None:
        self.boom()
        line = 'show boom/thm1/THM 7.' + '7.' * 1980 + '7'
        said = [reply for _ in range(17) for reply in self.engine.send([line] * 1000).result()]
        self.assertEqual({reply[0] for reply in said}, {'refused: no open leaf there'})
        self.assertEqual(self.engine.starts, 2)

    def test_another_session_in_the_folder(self) -> None:
        self.assertEqual(self.engine.ask('status'), [NONE])
        begun = time.monotonic()
        other = Engine(self.room, 0, PROGRAM)
        with self.assertRaisesRegex(Ended, 'project: disk fault'):
            other.ask('status')
        self.assertLess(time.monotonic() - begun, 5)
        late = Engine(self.room, 0, PROGRAM)
        self.addCleanup(late.close)
        waiting = late.send(['status'])
        time.sleep(0.3)
        self.engine.close()
        self.assertEqual(waiting.result(), [[NONE]])

    def test_no_program(self) -> None:
        self.assertRaises(Ended, Engine, self.room, 0, '/nowhere/rodin')

    def test_a_closed_engine_answers_nothing_more(self) -> None:
        self.engine.close()
        self.assertRaises(Ended, self.engine.ask, 'status')
        self.engine.close()


@needs_program
class OurSide(Room):
    """The workbench itself killed, and saves that come too fast."""

    def test_our_side_killed(self) -> None:
        """Another process steps and says what was answered; it is killed; what it said is there."""
        words = ('import sys; sys.path.insert(0, sys.argv[1]); from workbench.project import Project; p = Project(sys.argv[2], 1, sys.argv[3]); p.sync()\n'
                 'print(p.ask("step boom/thm1/THM - exR e 1")[0], flush=True); p.ask("wait" if False else "status"); import time; time.sleep(60)')
        self.put(boom=BOOM)
        with subprocess.Popen([sys.executable, '-c', words, TOP, self.room, PROGRAM], stdout=subprocess.PIPE, text=True) as other:
            assert other.stdout is not None
            self.assertEqual(other.stdout.readline(), 'boom/thm1/THM pending\n')
            other.kill()
        project = self.project()
        self.assertEqual(project.statuses['boom/thm1/THM'], ('pending', 'user'))

    def test_two_hundred_saves_in_a_second(self) -> None:
        """Saves from many threads are built together; what stands at the end is the last one of each component."""
        self.put(**{f'c{n}': f'context c{n} constants x axioms @a x = 0 theorem @t x = 0 end\n' for n in range(10)})
        project = self.project()
        begun = time.monotonic()

        def save(n: int) -> None:
            for k in range(20):
                project.save(f'c{n}', f'context c{n} constants x axioms @a x = {k} theorem @t x = {k} end\n')
        _together([threading.Thread(target=save, args=(n,)) for n in range(10)])
        took = time.monotonic() - begun
        goals = [project.engine.ask(f'show c{n}/t/THM')[-1] for n in range(10)]
        self.assertEqual(goals, ['⊢ x = 19'] * 10)
        self.assertLess(took, 20, 'two hundred saves')

    def test_saves_of_another_editor(self) -> None:
        """The watcher looks at the folder while files change two hundred times a second; the last text is built."""
        project = self.project(boom=BOOM)
        minder = threading.Thread(target=project.mind, kwargs={'every': 0.02, 'sweep': False}, daemon=True)
        minder.start()
        for k in range(200):
            self.put(boom=BOOM.replace('10', str(k)))
            time.sleep(0.005)
        self.until(lambda: project.engine.ask('show boom/thm2/THM', LOOK)[1] == '1: 199 ≤ up')
        self.assertEqual(project.faults, {})


@needs_program
class Words(Room):
    """No status is older than the session's last word."""

    def test_what_is_shown_is_what_was_said_last(self) -> None:
        """Looks from many threads while saves change a status to and fro; the events, put together, are the last reply each time."""
        shown: dict[str, tuple[str, str]] = {}

        def hear(event: str, data: object) -> None:
            if event == 'statuses':
                assert isinstance(data, tuple)
                for name in data[1]:
                    del shown[name]
                shown.update(data[0])
        project = self.project(listener=hear, boom=BOOM)
        project.ask('step boom/thm1/THM - exR e 1')
        stop = threading.Event()

        def look() -> None:
            while not stop.is_set():
                project.refresh()
        threads = [threading.Thread(target=look) for _ in range(4)]
        for thread in threads:
            thread.start()
        try:
            for n in range(40):
                project.save('boom', BOOM if n % 2 else BOOM.replace('∃k·0', '∀k·0'))
                want = 'pending' if n % 2 else 'broken'
                self.assertEqual((project.statuses['boom/thm1/THM'][0], shown['boom/thm1/THM'][0]), (want, want))
        finally:
            stop.set()
            for thread in threads:
                thread.join()

    def test_an_answer_to_a_step_is_shown_at_once(self) -> None:
        project = self.project(boom=BOOM)
        seen: list[tuple[str, str]] = []
        project.listeners.append(lambda event, data: seen.append(project.statuses['boom/thm1/THM']) if event == 'log' else None)
        project.engine.send(['step boom/thm1/THM - exR e 1', 'auto boom/thm2/THM', 'prune boom/thm1/THM -']).result()
        self.assertEqual(seen, [('pending', 'user'), ('pending', 'user'), ('unattempted', '')])
        self.assertEqual(project.statuses['boom/thm2/THM'], ('discharged', 'prover'))

    def test_a_text_that_is_refused_leaves_no_old_obligations(self) -> None:
        project = self.project(boom=BOOM)
        project.save('boom', BOOM + '//' + 'x' * 66000 + '\n')
        self.assertEqual((project.statuses, project.faults['boom'].text), ({}, 'text too long'))
        said = project.count
        self.assertFalse(project.sync())
        self.assertEqual(project.count, said)
        project.save('boom', BOOM)
        self.assertEqual((len(project.statuses), project.faults), (2, {}))


@needs_program
class Restarts(Room):
    """A project over a session that dies."""

    @staticmethod
    def bound_is(project: Project, wanted: str) -> bool:
        """Whether the hypothesis is that of the last text."""
        return project.engine.ask('show boom/thm2/THM')[1] == wanted

    def test_the_minder_goes_on_over_a_killed_session(self) -> None:
        project: Project = self.project(boom=BOOM)
        minder = threading.Thread(target=project.mind, kwargs={'every': 0.05}, daemon=True)
        minder.start()
        for n in range(3):
            os.kill(project.engine.process.pid, signal.SIGKILL)
            self.put(boom=BOOM.replace('10', str(20 + n)))
            self.until(functools.partial(self.bound_is, project, f'1: {20 + n} ≤ up'))
        self.until(lambda: project.statuses['boom/thm2/THM'] == ('discharged', 'prover'))
        self.assertEqual((project.engine.ended, minder.is_alive()), (None, True))


def _together(threads: list[threading.Thread]) -> None:
    for thread in threads:
        thread.start()
    for thread in threads:
        thread.join()


if __name__ == '__main__':
    unittest.main()
