"""Projects of Rodin as texts."""
from __future__ import annotations

import io
import os
import pathlib
import unittest
import zipfile
from contextlib import redirect_stderr, redirect_stdout

from rooms import Room, needs_program
from workbench import bring, texts
from workbench.commands import Refused

BUC = '''<?xml version="1.0" encoding="UTF-8"?>
<org.eventb.core.contextFile org.eventb.core.comment="limits" version="3">
<org.eventb.core.carrierSet name="a" org.eventb.core.identifier="S"/>
<org.eventb.core.constant name="b" org.eventb.core.identifier="δ" org.eventb.core.comment="the limit"/>
<org.eventb.core.constant name="e" org.eventb.core.identifier="end"/>
<org.eventb.core.constant name="f" org.eventb.core.identifier="delta"/>
<org.eventb.core.axiom name="c" org.eventb.core.label="axm 1" org.eventb.core.predicate="δ ∈ ℕ1 ∧ end ∈ ℤ&#13;&#10; ∧ delta∈ℕ" org.eventb.core.comment="at least&#10; one"/>
<org.eventb.core.axiom name="g" org.eventb.core.label="axm_1" org.eventb.core.predicate="(λδ1·δ1∈ℕ∣δ1)(1) = 1"/>
<org.eventb.core.axiom name="d" org.eventb.core.label="thm1" org.eventb.core.predicate="0 &lt; δ" org.eventb.core.theorem="true"/>
<org.example.diagram name="x"/>
</org.eventb.core.contextFile>'''
BUM = '''<?xml version="1.0" encoding="UTF-8"?>
<org.eventb.core.machineFile version="5">
<org.eventb.core.seesContext name="a" org.eventb.core.target="C 0"/>
<org.eventb.core.variable name="v" org.eventb.core.identifier="n"/>
<org.eventb.core.invariant name="i" org.eventb.core.label="inv1" org.eventb.core.predicate="n ∈ 0‥δ"/>
<org.eventb.core.variant name="w" org.eventb.core.expression="δ − n"/>
<org.eventb.core.variant name="x" org.eventb.core.expression="0"/>
<org.eventb.core.event name="e" org.eventb.core.convergence="0" org.eventb.core.extended="false" org.eventb.core.label="INITIALISATION">
<org.eventb.core.action name="x" org.eventb.core.assignment="n ≔ 0" org.eventb.core.label="act1"/></org.eventb.core.event>
<org.eventb.core.event name="f" org.eventb.core.convergence="1" org.eventb.core.extended="false" org.eventb.core.label="up" org.eventb.core.comment="goes&#10;up">
<org.eventb.core.parameter name="p" org.eventb.core.identifier="κ"/>
<org.eventb.core.guard name="g" org.eventb.core.label="grd1" org.eventb.core.predicate="n + κ ≤ δ &#10;∧ κ ∈ ℕ1"/>
<org.eventb.core.action name="x" org.eventb.core.assignment="n ≔ n + κ" org.eventb.core.label="act1"/></org.eventb.core.event>
</org.eventb.core.machineFile>'''
BELOW = '''<?xml version="1.0" encoding="UTF-8"?>
<org.eventb.core.machineFile version="5">
<org.eventb.core.refinesMachine name="a" org.eventb.core.target="M0"/>
<org.eventb.core.variable name="v" org.eventb.core.identifier="n"/>
<org.eventb.core.event name="e" org.eventb.core.convergence="0" org.eventb.core.extended="true" org.eventb.core.label="INITIALISATION"/>
<org.eventb.core.event name="f" org.eventb.core.convergence="0" org.eventb.core.extended="false" org.eventb.core.label="up">
<org.eventb.core.refinesEvent name="r" org.eventb.core.target="up"/>
<org.eventb.core.guard name="g" org.eventb.core.label="grd1" org.eventb.core.predicate="n &lt; δ"/>
<org.eventb.core.witness name="w" org.eventb.core.label="κ" org.eventb.core.predicate="κ = 1"/>
<org.eventb.core.action name="x" org.eventb.core.assignment="n ≔ n + 1" org.eventb.core.label="act1"/></org.eventb.core.event>
</org.eventb.core.machineFile>'''
BPS = '''<?xml version="1.0" encoding="UTF-8"?>
<org.eventb.core.psFile>
<org.eventb.core.psStatus name="INITIALISATION/inv1/INV" org.eventb.core.confidence="1000" org.eventb.core.psManual="false"/>
<org.eventb.core.psStatus name="up/inv1/INV" org.eventb.core.confidence="500"/>
<org.eventb.core.psStatus name="up/VAR" org.eventb.core.confidence="1000" org.eventb.core.psBroken="true"/>
</org.eventb.core.psFile>'''
C0 = '''// limits
context C_0
sets S
constants
  delta_ // the limit
  end_
  delta
axioms
  @axm_1_ delta_ ∈ ℕ1 ∧ end_ ∈ ℤ ∧ delta∈ℕ // at least one
  @axm_1 (λdelta1·delta1∈ℕ∣delta1)(1) = 1
  theorem @thm1 0 < delta_
end
'''


def archive(**more: str) -> io.BytesIO:
    """An export of Rodin."""
    data = io.BytesIO()
    with zipfile.ZipFile(data, 'w') as made:
        for name, text in {'project/C 0.buc': BUC, 'project/M0.bum': BUM, 'project/M1.bum': BELOW, 'project/M0.bps': BPS, 'project/M0.bpr': '<x/>', **more}.items():
            made.writestr(name, text)
    data.seek(0)
    return data


class Texts(unittest.TestCase):
    """What comes of files."""

    def test_an_archive(self) -> None:
        made = bring.collected(bring.zipped(archive()))
        self.assertEqual(made.texts['C_0'], C0)
        self.assertEqual(made.notes, ['C 0: C 0 is now C_0', 'C_0: an element org.example.diagram is left out', 'C_0: δ is now delta_', 'C_0: end is now end_',
                                      'C_0: label axm 1 is now axm_1_', 'C_0: δ1 is now delta1', 'M0: 2 variants; only the first is kept', 'M0: κ is now kappa'])
        self.assertIn('  // goes\n  // up\n  convergent event up\n    any kappa\n    where\n      @grd1 n + kappa ≤ delta_ ∧ kappa ∈ ℕ1\n', made.texts['M0'])
        self.assertIn('    with\n      @kappa kappa = 1\n', made.texts['M1'])
        self.assertFalse(made.failed)
        self.assertEqual([bring.counted(n, made.texts[n], made.counts.get(n)) for n in ('C_0', 'M0')],
                         ['C_0: context, 1 set, 3 constants, 2 axioms, 1 theorem', 'M0: machine, 1 variable, 1 invariant, 2 events (1 guard, 0 witnesses, 2 actions), '
                          'in Rodin 3 obligations, 1 discharged, 1 reviewed'])

    def test_files_that_are_not_read(self) -> None:
        entity = BUC.replace('?>', '?><!DOCTYPE a [<!ENTITY b "c">]>', 1)
        for data in (b'<', b'<a/>', entity.encode(), entity.replace('UTF-8', 'UTF-16').encode('utf-16')):
            made = bring.collected([('x', data)])
            self.assertEqual((made.texts, len(made.notes), made.failed), ({}, 1, True), data[:60])
        made = bring.collected([('x', BUC.encode()), ('x', BUC.encode())])
        self.assertIn('x: a second file of this name was left out', made.notes)

    def test_several_projects(self) -> None:
        data = archive(**{'other/C0.buc': BUC})
        self.assertRaisesRegex(Refused, 'several projects: other, project', list, bring.zipped(data))
        self.assertEqual([stem for stem, _ in bring.zipped(data, 'other')], ['C0'])
        self.assertRaises(Refused, list, bring.zipped(io.BytesIO(b'PK no archive')))

    def test_names(self) -> None:
        made = bring.Bring(['a_b'])
        self.assertEqual([made.name('c', word) for word in ('a b', 'a b', '1x', 'or', 'x' * 70, 'ok', 'α_β', '漢')],
                         ['a_b_', 'a_b_', 'n1x', 'or_', 'x' * 56, 'ok', 'alpha_beta', '_'])
        self.assertEqual(made.formula('c', 'f\ue103{1↦2}∈ℕ\ue100ℕ'), 'f<+{1↦2}∈ℕ<<->ℕ')
        self.assertEqual(made.formula('c', "or' = λα·α∈ℕ1∣ℙ1(id)"), "or_' = λalpha·alpha∈ℕ1∣ℙ1(id)")


@needs_program
class Built(Room):
    """What the program says of it."""

    def test_the_archive_is_built(self) -> None:
        made, _ = bring.bring(bring.zipped(archive()))
        self.put(**made)
        project = self.project()
        self.assertEqual(project.faults, {})
        self.assertIn('M1/up/act1/SIM', project.statuses)

    def test_the_command(self) -> None:
        path, to = os.path.join(self.room, 'p.zip'), os.path.join(self.room, 'new', 'place')
        pathlib.Path(path).write_bytes(archive().getvalue())
        out, err = io.StringIO(), io.StringIO()
        with redirect_stdout(out), redirect_stderr(err):
            self.assertEqual(bring.main([path, '--to', to]), 0)
            self.assertEqual(bring.main([path, '--to', to]), 3)
            self.assertEqual(bring.main([path, '--to', to, '--over']), 0)
            self.assertEqual(bring.main([self.room, '--to', to]), 1)
            self.assertEqual(bring.main([os.path.join(self.room, 'nothing.zip'), '--to', to]), 3)
            broken = os.path.join(self.room, 'x.buc')
            texts.write(broken, '<')
            self.assertEqual(bring.main([broken, '--to', to]), 1)
        self.assertEqual(sorted(os.listdir(to)), ['C_0.eventb', 'M0.eventb', 'M1.eventb'])
        self.assertEqual(out.getvalue().splitlines()[8], 'C_0: context, 1 set, 3 constants, 2 axioms, 1 theorem')
        self.assertIn('has C_0.eventb, M0.eventb, M1.eventb already', err.getvalue())


if __name__ == '__main__':
    unittest.main()
