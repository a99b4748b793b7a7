"""Folders, faults at their places, warnings, exit statuses, reports."""
from __future__ import annotations

import io
import os
import re
import shutil
import signal
import subprocess
import sys
import threading
import time
import unittest
import xml.etree.ElementTree as ET
from typing import Any
from unittest import mock

from rooms import BOOM, EXAMPLES, PROGRAM, SETS, TOP, Room, needs_program
from workbench import lint, scan, texts, watch
from workbench.watch import Once

CYCLE = '''machine a
variables x y
invariants
  @i1 x ∈ ℤ
  @i2 y ∈ ℤ
events
  event INITIALISATION then @a1 x ≔ 0 @a2 y ≔ 0 end
  event e then @a1 x :∈ ℤ @a2 y :∈ ℤ end
end
'''
CYCLE_BELOW = '''machine b refines a
events
  event INITIALISATION end
  event e refines e
    with
      @x' x' = y' + 1
      @y' y' = x' + 1
  end
end
'''


class Files(Room):
    """What a folder holds."""

    def folder(self) -> texts.Folder:
        """The room's folder, looked at."""
        folder = texts.Folder(self.room)
        folder.look(patient=False)
        return folder

    def test_several_components_in_a_file(self) -> None:
        self.put(two='// x\ncontext a\nend\nmachine b\nevents event INITIALISATION end\nend\n', lone='nothing\n')
        folder = texts.Folder(self.room)
        self.assertTrue(folder.look())
        self.assertFalse(folder.look())
        self.assertEqual({n: (f, p.line) for n, (f, p) in folder.components().items()},
                         {'a': ('two.eventb', 1), 'b': ('two.eventb', 4), 'lone': ('lone.eventb', 1)})
        self.assertEqual(folder.place('b', 2), ('two.eventb', 5))
        folder.put('a', 'context a // new\nend\n')
        folder.look()
        self.assertEqual(texts.read(os.path.join(self.room, 'two.eventb')), 'context a // new\nend\nmachine b\nevents event INITIALISATION end\nend\n')
        folder.drop('b')
        folder.look()
        self.assertEqual(set(folder.components()), {'a', 'lone'})

    def test_a_name_is_no_path(self) -> None:
        for name in ('../x', '', 'a b', 'x' * 65, 'é', 'a/b', 'x\n'):
            self.assertRaises(ValueError, self.folder().put, name, '')

    def test_files_that_are_no_text(self) -> None:
        with open(os.path.join(self.room, 'bytes.eventb'), 'wb') as file:
            file.write(b'context bytes\n\xff\nend\n')
        self.put(**{'no name': 'end\n', 'long': f'context {"n" * 65} end\n', 'good': 'context good end\n'})
        folder = self.folder()
        self.assertEqual(set(folder.components()), {'good'})
        self.assertEqual(folder.bad, {'bytes.eventb': 'not UTF-8 at byte 14', 'no name.eventb': 'no heading, and the name of the file is no name',
                                      'long.eventb': 'a name has more than 64 letters'})

    def test_a_file_in_writing_waits(self) -> None:
        self.put(c='context c end\n')
        folder = self.folder()
        self.put(c='')
        self.assertFalse(folder.look())
        self.assertEqual(folder.text('c'), 'context c end\n')
        os.utime(os.path.join(self.room, 'c.eventb'), (1e9, 1e9))
        self.assertTrue(folder.look())
        self.assertEqual(folder.text('c'), '')

    def test_a_byte_order_mark_is_told_and_not_sent(self) -> None:
        self.put(c='\ufeffcontext c\nend\n', d='context _end_1\nend\n')
        folder = self.folder()
        self.assertEqual(folder.text('c'), 'context c\nend\n')
        self.assertEqual([(w.file, w.line) for w in folder.warnings()], [('c.eventb', 1), ('d.eventb', 1)])

    def test_a_new_component_takes_no_file_of_another_one(self) -> None:
        self.put(A='context b\nend\n')
        self.assertEqual(self.folder().unused('a'), 'a_2.eventb')


class Warnings(Room):
    """The workbench's own."""

    def test_witnesses_that_name_each_other(self) -> None:
        self.put(a=CYCLE, b=CYCLE_BELOW)
        folder = texts.Folder(self.room)
        folder.look()
        self.assertEqual([(w.file, w.line, w.column) for w in lint.warnings(folder)], [('b.eventb', 6, 7)])
        self.put(b=CYCLE_BELOW.replace("x' + 1\n  end", "3\n  end"))
        folder.look()
        self.assertEqual(lint.warnings(folder), [])

    def test_inclusions_of_relations(self) -> None:
        def found(invariant: str, action: str) -> list[str]:
            self.put(c='context c sets S T end\n', m='machine m sees c variables f a b invariants @i0 f ∈ S ↔ T ' + invariant +
                     ' events event INITIALISATION then @a1 f ≔ ∅ end event e any x where @g x ∈ S then ' + action + ' end end\n')
            folder = texts.Folder(self.room)
            folder.look()
            return [w.text.split(' ')[3] for w in lint.warnings(folder)]
        self.assertEqual(found('@i f : a --> T', '@a f(x) := x'), ['@i'])
        self.assertEqual(found('@i f ∈ S → a', '@a a ≔ a ∪ {x}'), ['@i'])
        self.assertEqual(found('@i f ∈ S → a', '@a b ≔ b ∪ {x}'), [])
        self.assertEqual(found('@i f ∈ S ⇸ ℙ(T × ℤ)', '@a f ≔ f ∪ {x}'), [])
        self.assertEqual(found('@i f ⊆ a × T', '@a f :∣ f\' = f'), ['@i'])
        self.assertEqual(found('@i f ∈ a → T', '@a f :∈ a → T'), [])
        self.assertEqual(found('@i f ⊆ f', '@a f ≔ f ∪ f'), ['@i'])
        self.assertEqual(found('@i f ∈ a → T', '@a f ≔ b'), [])
        self.assertEqual(found('@i x ∈ a ⇒ f ∈ S → a', '@a f ≔ f ∪ f'), [])

    def test_warned_invariants_of_the_examples_are_open(self) -> None:
        """By what `rodin check` prints of them: an obligation of each is unattempted."""
        warned = 0
        for name in sorted(file for file in os.listdir(EXAMPLES) if file.endswith('.eventb')):
            shutil.copy(os.path.join(EXAMPLES, name), os.path.join(self.room, 'x.eventb'))
            opened = [line.split(' ')[0] for line in texts.read(os.path.join(EXAMPLES, name.replace('.eventb', '.out'))).splitlines()
                      if line.endswith(' unattempted')]
            folder = texts.Folder(self.room)
            folder.look()
            for warn in lint.warnings(folder):
                if not warn.text.startswith('no rule closes '):
                    continue
                part = max((part for _, part in folder.components().values() if part.line <= warn.line), key=lambda part: part.line)
                label = warn.text.split('@')[1].split(' ')[0]
                self.assertTrue([po for po in opened if re.fullmatch(f'{part.name}/.*/{label}/INV', po)], (name, warn))
                warned += 1
        self.assertGreater(warned, 2)

    def test_sections_of_an_example(self) -> None:
        text = texts.read(os.path.join(EXAMPLES, 'bridge.eventb'))
        for part in texts.parts(text, 'x'):
            found = scan.component(part.text)
            assert found is not None
            self.assertEqual(found.name, part.name)
            labels = [f.label for block in [found, *found.events] for section in block.formulas.values() for f in section]
            marks = [token.text[1:] for token in scan.tokens(part.text) if token.text.startswith('@')]
            self.assertEqual(len(labels), len(marks) - len(re.findall(r'variant\s+@', part.text)))
            self.assertEqual([event.name for event in found.events], re.findall(r'\bevent (\w+)', part.text))


@needs_program
class OnceRun(Room):
    """`--once`."""

    def once(self, **more: Any) -> tuple[int, str]:
        """Its exit status and what it printed."""
        out = io.StringIO()
        return watch.once(Once(self.room, 0, **more), out), out.getvalue()

    def test_statuses_and_reports(self) -> None:
        self.put(c='context c constants up axioms @axm1 10 ≤ up theorem @thm2 0 < up end\n')
        self.assertEqual(self.once()[0], 0)
        junit, page = os.path.join(self.room, 'j.xml'), os.path.join(self.room, 'r.html')
        self.put(c='context c sets S constants up axioms @axm1 10 ≤ up // <b>&\x0b\n theorem @thm1 S ≠ ∅ theorem @thm2 0 < up end\n')
        status, said = self.once(junit=junit, html=page)
        self.assertEqual((status, said.splitlines()[0]), (2, 'c/thm1/THM unattempted'))
        suite = ET.parse(junit).getroot()
        self.assertEqual((len(suite), suite.get('tests'), suite.get('failures'), suite.get('errors')), (2, '2', '1', '0'))
        self.assertIn('⊢ S ≠ (∅⦂ℙ(S))', str(suite[0][0].text))
        html = texts.read(page)
        self.assertIn('&lt;b&gt;&amp;', html)
        self.assertNotIn('<b>', html)
        self.assertIn('⊢ S ≠ (∅⦂ℙ(S))', html)
        self.assertEqual([f for f in os.listdir(self.room) if f.startswith('rodin.')], [])

    def test_faults(self) -> None:
        self.put(c='context c\naxioms\n  @a x = 1\nend\n', d='context d extends c end\n')
        page = os.path.join(self.room, 'r.html')
        status, said = self.once(html=page, junit=os.path.join(self.room, 'j.xml'))
        self.assertEqual((status, said.splitlines()[:2]), (1, [f'{self.room}/c.eventb:3:6: x is unknown', f'{self.room}/d.eventb:1:19: blocked by c']))
        self.assertIn('@a <span class="mark">x</span> = 1', texts.read(page))
        self.assertEqual(ET.parse(os.path.join(self.room, 'j.xml')).getroot().get('errors'), '2')

    def test_faults_of_files(self) -> None:
        with open(os.path.join(self.room, 'b.eventb'), 'wb') as file:
            file.write(b'\xff')
        self.put(c='context c\nend\ncontext c\nend\n')
        status, said = self.once()
        self.assertEqual((status, said.splitlines()[:2]), (1, [f'{self.room}/b.eventb:1:1: not UTF-8 at byte 0',
                                                           f'{self.room}/c.eventb:1:1: a second text of this name stands in c.eventb']))

    def test_what_failed(self) -> None:
        self.assertEqual(self.once()[0], 3)
        self.put(c='context c end\n')
        kept = os.environ.get('RODIN')
        try:
            for program in ('/nowhere/rodin', '/bin/false'):
                os.environ['RODIN'] = program
                self.assertEqual(self.once()[0], 3)
        finally:
            os.environ['RODIN'] = kept or PROGRAM
        self.assertEqual(watch.main([os.path.join(self.room, 'nowhere'), '--once']), 3)

    def test_proofs_are_replayed_and_reviews_counted(self) -> None:
        self.put(c='context c sets S axioms theorem @thm1 S ≠ ∅ end\n')
        steps = os.path.join(self.room, 'c.steps')
        texts.write(steps, '// a remark\nreview c/thm1/THM -\n')
        self.assertEqual(self.once(proofs=[steps])[0], 2)
        self.assertEqual(self.once(proofs=[steps], reviewed=True)[0], 0)
        texts.write(steps, 'step c/thm1/THM - hyp h 1\n')
        status, said = self.once(proofs=[steps], reviewed=True)
        self.assertEqual((status, said.splitlines()[0]), (2, f'{steps}: refused: no such place: step c/thm1/THM - hyp h 1'))

    def test_proofs_of_the_folder_are_kept(self) -> None:
        project = self.project(boom=BOOM)
        project.ask('review boom/thm1/THM -')
        project.close()
        self.assertEqual((self.once(keep=True)[0], self.once(keep=True, reviewed=True)[0], self.once(reviewed=True)[0]), (2, 0, 2))

    def test_a_warning_of_the_program_stands_at_its_machine(self) -> None:
        self.put(two='context c\nend\n' + CYCLE + CYCLE_BELOW.replace('event e refines e', 'event f').replace("x' = y' + 1", '').replace("y' = x' + 1", '')
                 .replace("    with\n      @x' \n      @y' \n", ''))
        self.assertIn(f'{self.room}/two.eventb:12:1: warning: event e is not refined', self.once()[1].splitlines())

    def test_each_example_has_the_statuses_of_check(self) -> None:
        shutil.copy(os.path.join(EXAMPLES, 'press.eventb'), self.room)
        out = io.StringIO()
        watch.once(Once(self.room, 2), out)
        wanted = [line for line in texts.read(os.path.join(EXAMPLES, 'press.out')).splitlines() if line.endswith(' unattempted')]
        self.assertEqual([line for line in out.getvalue().splitlines() if line.endswith(' unattempted')], wanted)


@needs_program
class Watching(Room):
    """Saves while it runs."""

    def test_saves_are_seen(self) -> None:
        told: list[tuple[str, Any]] = []
        project = self.project(listener=lambda event, data: told.append((event, data)), boom=BOOM)
        minder = threading.Thread(target=project.mind, kwargs={'every': 0.05}, daemon=True)
        minder.start()
        self.until(lambda: any(event == 'idle' for event, _ in told))
        self.put(boom=BOOM.replace('10', 'ten'))
        self.until(lambda: 'boom' in project.faults)
        self.put(boom=BOOM, rel=SETS)
        self.until(lambda: not project.faults and 'rel/thm1/THM' in project.statuses)
        os.rename(os.path.join(self.room, 'rel.eventb'), os.path.join(self.room, 'other.eventb'))
        self.until(lambda: project.folder.components()['rel'][0] == 'other.eventb')
        self.assertIn('rel/thm1/THM', project.statuses)
        os.remove(os.path.join(self.room, 'other.eventb'))
        self.until(lambda: 'rel/thm1/THM' not in project.statuses)
        shutil.move(self.room, self.room + '.away')
        self.until(lambda: any(event == 'trouble' for event, _ in told))
        shutil.move(self.room + '.away', self.room)
        self.put(boom=BOOM.replace('10', '11'))
        self.until(lambda: project.engine.ask('show boom/thm2/THM')[1] == '1: 11 ≤ up')
        project.close()
        minder.join(5)
        self.assertNotIn('ended', [event for event, _ in told])

    def test_files_that_went_while_nothing_watched(self) -> None:
        """What no file has any more is dropped, its text kept aside; a project without any file has its texts written."""
        self.project(boom=BOOM, rel=SETS).close()
        os.remove(os.path.join(self.room, 'rel.eventb'))
        told: list[str] = []
        project = self.project(listener=lambda event, data: told.append(data) if event == 'trouble' else None)
        self.assertEqual((list(project.statuses), told), (['boom/thm1/THM', 'boom/thm2/THM'], ['no file has rel: dropped; its text is kept in .rodin-dropped']))
        self.assertEqual(texts.read(os.path.join(self.room, '.rodin-dropped', 'rel.eventb')), SETS)
        project.close()
        os.remove(os.path.join(self.room, 'boom.eventb'))
        project = self.project()
        self.assertEqual(list(project.statuses), ['boom/thm1/THM', 'boom/thm2/THM'])
        self.assertEqual(texts.read(os.path.join(self.room, 'boom.eventb')), BOOM)

    def test_a_stopped_session_is_told_once(self) -> None:
        out = io.StringIO()
        project, stop = self.project(boom=BOOM), threading.Event()
        with mock.patch.object(watch, 'LONG', 0.1):
            threading.Thread(target=watch.patience, args=(project, watch.Printer(out, False), stop), daemon=True).start()
            os.kill(project.engine.process.pid, signal.SIGSTOP)
            waiting = project.engine.send(['build'])
            time.sleep(3.5)
            os.kill(project.engine.process.pid, signal.SIGCONT)
            waiting.result()
            stop.set()
        self.assertRegex(out.getvalue(), r'^no answer for \d s: build\n$')

    def test_the_command(self) -> None:
        """The script, by a link, with what it prints of a fault, its mending, a rename and a removal; an interrupt ends it with status 0."""
        self.put(c='context c\naxioms\n  @a x = 1\nend\n')
        link = os.path.join(self.room, 'w')
        os.symlink(os.path.join(TOP, 'rodin-watch'), link)
        with subprocess.Popen([sys.executable, link, self.room, '--workers', '0'], stdout=subprocess.PIPE, text=True, env={**os.environ, 'RODIN': PROGRAM}) as run:
            assert run.stdout is not None
            timer = threading.Timer(60, run.kill)
            timer.start()
            self.addCleanup(timer.cancel)

            def until(wanted: str) -> None:
                assert run.stdout is not None
                for line in run.stdout:
                    if line.rstrip('\n') == wanted:
                        return
                self.fail(wanted)
            until(f'{self.room}/c.eventb:3:6: x is unknown')
            until('checked: 1 faults, 0 warnings')
            self.put(c='context c constants x axioms @a x = 1 theorem @t x = 1 end\n')
            until('checked: 0 faults, 0 warnings')
            until('c/t/THM discharged (prover), was unattempted')
            until('idle: 1 discharged')
            self.put(c='context d constants x axioms @a x = 1 theorem @t x = 1 end\n')
            until('c/t/THM gone')
            os.remove(os.path.join(self.room, 'c.eventb'))
            until('built: 0 components, 0 faulted, 0 obligations')
            run.send_signal(signal.SIGINT)
            self.assertEqual(run.wait(10), 0)


class Lines(unittest.TestCase):
    """What editors read."""

    def test_before_a_file(self) -> None:
        self.assertEqual([texts.prefix(folder) for folder in ('.', './', 'models', 'models/', '/a/b', '..')], ['', '', 'models/', 'models/', '/a/b/', '../'])


if __name__ == '__main__':
    unittest.main()
