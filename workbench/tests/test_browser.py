"""The page in a real browser: the tutorial's story by clicks and keys, typing, hostile texts, narrow and wide windows. `browser_check` runs it."""
from __future__ import annotations

import json
import os
import re
import subprocess
import sys
import time
import unittest
from typing import Any, Optional

import archive
import browser
from browser import Browser
from rooms import BOOM, EXAMPLES, PROGRAM, SETS, TOP, needs_program
from test_web import Served

PICTURES = os.environ.get('PICTURES')
ALT, CONTROL, SHIFT = 1, 2, 8


def quoted(text: str) -> str:
    """A text as JavaScript writes it."""
    return json.dumps(text)


def by_id(name: str) -> str:
    """An element by its id."""
    return f'document.getElementById({quoted(name)})'


def one(selector: str, text: str) -> str:
    """The first element of a kind whose words begin so."""
    return f'[...document.querySelectorAll({quoted(selector)})].find(e => e.textContent.trim().startsWith({quoted(text)}))'


def area() -> str:
    """The field of the text that is shown."""
    return 'document.querySelector("#sheet textarea:not([hidden])")'


def obligation(name: str) -> str:
    """A row of the tree of obligations."""
    return f'[...document.querySelectorAll("#tree .obligation")].find(e => e.title.startsWith({quoted(name + " ")}))'


def component(name: str) -> str:
    """The name of a component in the tree."""
    return f'[...document.querySelectorAll("#tree .component .name")].find(e => e.textContent === {quoted(name)})'


def offer(words: str) -> str:
    """A rule that is offered."""
    return f'[...document.querySelectorAll("#offers .offer")].find(e => e.querySelector("code").textContent.startsWith({quoted(words)}))'


def row(n: int) -> str:
    """A hypothesis by its number, or the goal."""
    return f'[...document.querySelectorAll("#sequent .row")].find(e => e.n === {n})'


@needs_program
@unittest.skipUnless(os.environ.get('BROWSER_CHECK') and browser.program(), 'workbench/browser_check runs these')
class Page(Served):
    """A browser over a room."""

    b: Browser

    @classmethod
    def setUpClass(cls) -> None:
        cls.b = Browser(1360, 760)
        cls.addClassCleanup(cls.b.close)

    def setUp(self) -> None:
        super().setUp()
        self.b.size(1360, 760)
        self.b.dark(False)
        self.b.told.clear()
        self.addCleanup(self.b.open, 'about:blank')

    def picture(self, name: str) -> None:
        """A picture, where they are wanted."""
        if PICTURES:
            self.b.picture(os.path.join(PICTURES, f'{name}.png'))

    def open(self, address: Optional[str] = None) -> None:
        """Opens the page."""
        self.b.open(address or self.server.address)
        self.b.until('document.querySelector("#project").textContent !== "rodin"')

    def status(self, name: str, wanted: str) -> None:
        """Waits until the tree shows a status."""
        self.b.until(f'{obligation(name)} && {obligation(name)}.classList.contains({quoted(wanted)})')

    def goal(self, wanted: str) -> None:
        """Waits until the goal is so."""
        self.b.until(f'document.querySelector("#goal-row .formula") && document.querySelector("#goal-row .formula").textContent === {quoted(wanted)}')

    def words(self, name: str) -> str:
        """What an element shows."""
        return str(self.b.ask(f'{by_id(name)}.textContent'))

    def fill(self, text: str) -> None:
        """Puts a text in the place of the one that is shown, as pasting does."""
        self.b.ask(f'(() => {{ const t = {area()}; t.focus(); t.select(); document.execCommand("insertText", false, {quoted(text)}) }})()')

    def save(self, built: str) -> None:
        """Saves by the key, and waits for the build."""
        self.b.press('s', CONTROL)
        self.b.until(f'{by_id("activity")}.title.startsWith({quoted(built)})')

    def make(self, name: str, kind: str, text: str) -> None:
        """A new component by the dialog."""
        self.b.click(by_id('new'))
        self.b.until(f'{by_id("new-dialog")}.open')
        self.b.type(name)
        self.b.click(f'document.querySelector("#new-dialog [value={kind}]")')
        self.b.click('document.querySelector("#new-dialog [value=ok]")')
        self.b.until(f'{by_id("text-name")}.textContent === {quoted(name)}')
        self.fill(text)

    def nothing_wrong(self) -> None:
        """No exception and no error on the page, and nothing asked of anyone else."""
        self.assertEqual(self.b.errors, [])
        own = ('http://127.0.0.1:', 'about:', 'blob:http://127.0.0.1:')
        self.assertEqual([address for address in self.b.asked if not address.startswith(own)], [])


def blocks() -> list[str]:
    """The texts of the tutorial, in order: what stands between `edit NAME` and `.`."""
    with open(os.path.join(TOP, 'docs', 'TUTORIAL.md'), encoding='utf-8') as file:
        return re.findall(r'^edit (\w+\n.*?)^\.$', file.read(), re.M | re.S)


class Tutorial(Page):
    """The whole story of docs/TUTORIAL.md."""

    def text(self, n: int) -> tuple[str, str]:
        """Name and text of the nth edit of the tutorial."""
        name, body = blocks()[n].split('\n', 1)
        return name, body

    def test_story(self) -> None:
        b = self.b
        self.room = os.path.join(self.room, 'crossing')
        os.mkdir(self.room)
        self.serve(workers=0, sweep=True)
        self.open()
        self.assertIn('No components', b.ask('getComputedStyle(document.getElementById("tree"), "::after").content'))
        # A fault, and what it blocks.
        for n, kind in ((0, 'context'), (1, 'machine')):
            name, text = self.text(n)
            self.make(name, kind, text)
            self.save(f'built: {n + 1} components')
        b.until(f'{by_id("fault")}.textContent === "1:24 blocked by site"')
        b.press('F4')
        b.until(f'{by_id("text-name")}.textContent === "site" && {by_id("fault")}.textContent === "1:24 tracks has no type"')
        self.assertEqual(b.ask('document.querySelector("#behind .fault").textContent'), 'tracks')
        self.assertEqual(b.ask(f'{area()}.selectionStart'), 23)
        self.assertEqual(b.ask(f'{area()}.getAttribute("aria-invalid")'), 'true')
        self.picture('fault')
        self.fill(self.text(2)[1])
        self.save('built: 2 components, 0 faulted, 11 obligations')
        b.until('!document.querySelector("#behind .fault")')
        # The obligation that is left.
        b.until('document.querySelectorAll("#tree .obligation.discharged").length === 10')
        b.until(f'{by_id("activity")}.textContent === "idle"')
        b.press('F8')
        self.goal('trains + 1 = 0 ∨ cars = 0')
        self.assertEqual(self.words('proof-name'), 'crossing0/train_in/safe/INV')
        self.assertEqual(b.ask('[...document.querySelectorAll("#hypotheses .row")].map(e => e.n)'), [4, 2, 3, 5])
        b.until(f'{offer("orR")}?.querySelector(".leaf")')
        self.picture('obligation')
        # The missing guard, found by way of the obligation.
        b.click(by_id('in-text'))
        b.until(f'{by_id("text-name")}.textContent === "crossing0"')
        self.assertEqual(self.words('caret'), 'line 4, column 3')
        self.fill(self.text(3)[1])
        self.save('built: 2 components, 0 faulted, 11 obligations')
        b.until('[...document.querySelectorAll("#hypotheses .row")].some(e => e.textContent.includes("cars = 0") && e.n === 6)')
        b.click('document.querySelector("[data-act=auto]")')
        self.status('crossing0/train_in/safe/INV', 'discharged')
        name, text = self.text(4)
        self.make(name, 'machine', text)
        self.save('built: 3 components, 0 faulted, 20 obligations')
        self.status('crossing1/train_in/barrier/INV', 'discharged')
        self.open_proof('crossing1/train_in/barrier/INV')
        self.goal('closed = FALSE ⇒ trains + 1 = 0')
        b.until('document.querySelectorAll("#proof-tree [role=treeitem]").length === 3')
        self.assertEqual(b.ask('[...document.querySelectorAll("#proof-tree [role=treeitem]")].map(e => e.getAttribute("aria-label"))'), ['rule eqGoal', 'rule impR', 'rule boolDiff'])
        # A proof by clicks.
        name, text = self.text(5)
        self.make(name, 'context', text)
        self.save('built: 4 components, 0 faulted, 22 obligations')
        self.status('boom/thm2/THM', 'discharged')
        b.click(obligation('boom/thm1/THM'))
        self.goal('∃x1⦂ℤ·0 < x1 ∧ x1 ∗ x1 < up')
        b.click(offer('exR e ..'))
        b.until('document.activeElement.matches("#offers .items input")')
        b.type('1')
        b.until('document.querySelector("#offers .items .leaf")')
        self.assertEqual(b.ask('document.querySelector("#offers .items .leaf").textContent'), '○ ⊢ 0 < 1 ∧ 1 ∗ 1 < up')
        b.press('Enter')
        self.goal('0 < 1 ∧ 1 ∗ 1 < up')
        b.until(f'{offer("andR")}?.querySelectorAll(".leaf").length === 2')
        self.picture('proof')
        b.click(offer('andR'))
        self.goal('0 < 1')
        b.click(offer('linear'))
        self.goal('1 ∗ 1 < up')
        b.click(offer('linear h 1 1'))
        self.status('boom/thm1/THM', 'discharged')
        b.until(f'{by_id("proof-status")}.textContent.includes("discharged (user)")')
        # It breaks and is mended.
        b.click(by_id('in-text'))
        b.until(f'{by_id("text-name")}.textContent === "boom"')
        self.fill(self.text(6)[1])
        self.save('built: 4 components, 0 faulted, 21 obligations')
        self.status('boom/thm1/THM', 'broken')
        b.until(f'!{by_id("proof-note")}.hidden')
        b.until('document.querySelector("#proof-tree .misfit[aria-selected=true]")')
        self.picture('broken')
        b.click('document.querySelector("#proof-tree .misfit")')
        self.assertEqual(b.ask('[...document.querySelectorAll("#proof-tree [role=treeitem]")].map(e => e.className)'), ['', '', '', 'misfit'])
        b.until('document.querySelector("[data-act=prune]:not(:disabled)")')
        b.click('document.querySelector("[data-act=prune]")')
        self.goal('1 ∗ 1 < up')
        b.click('document.querySelector("[data-act=linear]")')
        self.status('boom/thm1/THM', 'discharged')
        b.click('document.querySelector("[data-view=log]")')
        b.click(by_id('raw-line'))
        b.type('purge\n')
        b.until(one('#entries li div', 'purged 1'))
        b.click('document.querySelector("[data-view=log]")')
        # A gluing invariant, a review that is taken back.
        name, text = self.text(7)
        self.desk.sweep = False
        self.make(name, 'machine', text)
        self.desk.project.held = {'crossing2/car_in/grd1/GRD'}
        self.save('built: 5 components, 0 faulted, 39 obligations')
        self.open_proof('crossing2/car_in/grd1/GRD')
        if b.ask(f'{obligation("crossing2/car_in/grd1/GRD")}.classList.contains("discharged")'):
            b.click('document.querySelector("[data-act=prune]")')
            self.status('crossing2/car_in/grd1/GRD', 'unattempted')
        b.click('document.querySelector("[data-act=review]")')
        self.status('crossing2/car_in/grd1/GRD', 'reviewed')
        b.click('document.querySelector("[data-act=undo]")')
        self.status('crossing2/car_in/grd1/GRD', 'unattempted')
        b.click('document.querySelector("[data-act=auto]")')
        self.status('crossing2/car_in/grd1/GRD', 'discharged')
        b.until(f'{by_id("counts")}.textContent.includes("39 discharged")', 60)
        digest = self.ask('raw', line='digest')['reply'][0]
        self.assertEqual(b.ask(f'{by_id("counts")}.textContent').strip(), '✓ 39 discharged')
        self.nothing_wrong()
        # Another day, with workers.
        self.server.shutdown()
        self.desk.close()
        b.until(f'!{by_id("banner")}.hidden')
        self.serve(workers=2, sweep=True)
        self.open()
        self.assertEqual(self.ask('raw', line='digest')['reply'][0], digest)
        b.until(f'{by_id("counts")}.textContent.includes("39 discharged")')
        name, text = self.text(8)
        self.make(name, 'machine', text)
        self.save('built: 6 components, 0 faulted, 54 obligations')
        b.until(f'{by_id("counts")}.textContent.trim() === "✓ 54 discharged"', 60)
        self.open_proof('crossing3/lower/k/WFIS')
        b.until('document.querySelectorAll("#proof-tree [role=treeitem]").length === 2')
        self.picture('done')
        b.told = [t for t in b.told if 'ERR_' not in json.dumps(t)]  # the connection that was lost with the first server
        self.nothing_wrong()

    def open_proof(self, name: str) -> None:
        """Clicks an obligation."""
        self.b.click(obligation(name))
        self.b.until(f'{by_id("proof-name")}.textContent === {quoted(name)}')


class Newcomer(Page):
    """The walk of docs/WORKBENCH.md: from an archive of the Rodin platform to the last green."""

    def test_walk(self) -> None:
        b = self.b
        path = os.path.join(self.room, 'library.zip')
        archive.write(path)
        self.room = os.path.join(self.room, 'library')
        out = subprocess.run([sys.executable, os.path.join(TOP, 'rodin-import'), path, '--to', self.room], capture_output=True, text=True, check=True)
        self.assertIn('shelves: μ is now mu\nshelves: label axm 1 is now axm_1\n', out.stdout)
        self.serve(workers=2, sweep=True)
        self.open()
        b.until(f'{by_id("counts")}.textContent.includes("5 unattempted") && {by_id("activity")}.textContent === "idle"')
        b.click('document.querySelector("#warnings summary")')
        self.picture('walk-1')
        b.click(one('#warnings button', 'library0'))
        b.until(f'{by_id("text-name")}.textContent === "library0" && {by_id("caret")}.textContent === "line 7, column 3"')
        for _ in range(2):
            b.press('End', SHIFT)
        b.type('@inv3 lent : BOOK +-> MEMBER\n@inv3d !x,y.x |-> y : lent => x : books & y : members ')
        self.assertIn('  @inv3 lent ∈ BOOK ⇸ MEMBER\n  @inv3d ∀x,y·x ↦ y ∈ lent ⇒ x ∈ books ∧ y ∈ members \n', b.ask(f'{area()}.value'))
        b.press('s', CONTROL)
        b.until(f'{by_id("counts")}.textContent.includes("14 discharged") && {by_id("activity")}.textContent === "idle"')
        self.assertEqual(b.ask('document.querySelectorAll("#warnings li").length'), 0)
        b.press('F8')
        self.goal('∃x1⦂ℤ·x1 ∈ ℕ ∧ x1 ∗ x1 < mu')
        b.click(offer('exR e ..'))
        b.type('0')
        b.until('document.querySelector("#offers .items .leaf")')
        self.picture('walk-2')
        b.press('Enter')
        self.goal('0 ∈ ℕ ∧ 0 ∗ 0 < mu')
        b.click(offer('andR'))
        self.goal('0 ∈ ℕ')
        b.click('document.querySelector("[data-act=attempt]")')
        self.goal('0 ∗ 0 < mu')
        b.click(f'{row(1)}.querySelector(".part")')
        b.click(offer('rwHyp h 1 ;; w 62 -'))
        b.until(row(2))
        b.click('document.querySelector("[data-act=linear]")')
        b.until(f'{by_id("counts")}.textContent.trim() === "✓ 15 discharged"')
        self.picture('walk-3')
        self.nothing_wrong()


class Proving(Page):
    """Proofs by clicks and by keys alone."""

    def test_clicks_into_formulas(self) -> None:
        b = self.b
        self.serve(rel=SETS)
        self.open()
        b.click(obligation('rel/thm1/THM'))
        self.goal('r ∪ {a} ⊆ s')
        b.click('document.querySelector("#goal-row .part")')
        b.click(offer('rwGoal w 17 -'))
        self.goal('∀x1⦂S·x1 ∈ r ∪ {a} ⇒ x1 ∈ s')
        b.click(offer('allR n v1'))
        b.click(offer('impR'))
        self.goal('v1 ∈ s')
        b.until(f'{row(4)}.classList.contains("new")')
        b.click(f'{row(4)}.querySelector(".part .part")')
        b.click(offer('rwHyp h 4 ;; w 12 -'))
        b.until(row(5))
        b.click(f'{row(5)}.querySelector(".part .part")')
        b.click(offer('orL h 5'))
        b.until('document.querySelectorAll("#proof-tree .open").length === 2')
        b.click('document.querySelector("[data-act=undo]")')
        b.until('document.querySelectorAll("#proof-tree .open").length === 1')
        b.click('document.querySelector("[data-act=redo]")')
        b.until('document.querySelectorAll("#proof-tree .open").length === 2')
        for left in (1, 0):
            b.click('document.querySelector("[data-act=attempt]")')
            b.until(f'document.querySelectorAll("#proof-tree .open").length === {left}')
        self.status('rel/thm1/THM', 'discharged')
        self.assertEqual(self.desk.project.engine.ask('status')[0], 'rel/thm1/THM discharged (user)')
        # Each node shows its sequent.
        b.click(one('#proof-tree [role=treeitem]', 'impR'))
        self.goal('v1 ∈ r ∪ {a} ⇒ v1 ∈ s')
        self.assertIn('impR', self.words('offers-for'))
        b.click(one('#proof-tree [role=treeitem]', 'rwGoal'))
        self.goal('r ∪ {a} ⊆ s')
        self.nothing_wrong()

    def test_by_keys_alone(self) -> None:
        b = self.b
        self.serve(rel=SETS)
        self.open()
        b.until(obligation('rel/thm1/THM'))
        b.press('/')
        b.type('thm1')
        b.until('document.querySelectorAll("#tree .obligation").length === 1')
        b.press('ArrowDown')
        b.press('ArrowDown')
        b.until('document.activeElement.matches(".obligation")')
        b.press('Enter')
        self.goal('r ∪ {a} ⊆ s')
        b.press('F6')
        b.until('document.activeElement.closest("#text")')
        b.press('F6')
        b.until('document.activeElement.matches("#sequent [role=option]")')
        self.assertEqual(b.ask('document.activeElement.getAttribute("aria-label")'), 'goal r ∪ {a} ⊆ s')
        b.press('ArrowRight')
        b.until('document.querySelector("#goal-row .part.at")')
        b.press('Enter')
        b.until('document.activeElement.matches(".offer")')
        b.until(f'{offer("rwGoal w 17 -")}')
        for _ in range(30):
            if b.ask('document.activeElement.querySelector("code")?.textContent') == 'rwGoal w 17 -':
                break
            b.press('ArrowDown')
        b.press('Enter')
        self.goal('∀x1⦂S·x1 ∈ r ∪ {a} ⇒ x1 ∈ s')
        b.press('F6')
        b.press('F6', SHIFT)
        b.until('document.activeElement.closest("#proof")')
        b.press('h')
        still = '!document.getElementById("proof").hasAttribute("aria-busy") && !document.querySelector("[data-act=undo]").disabled'
        self.status('rel/thm1/THM', 'discharged')
        b.until(still)
        b.press('u')
        b.until('document.querySelectorAll("#proof-tree .open").length === 1')
        b.until(still.split(' && ', maxsplit=1)[0])
        b.press('r')
        b.until('document.querySelectorAll("#proof-tree .open").length === 0')
        b.press('Home')
        b.press('?')
        b.until(f'{by_id("help-dialog")}.open')
        b.press('Escape')
        b.until(f'!{by_id("help-dialog")}.open')
        self.nothing_wrong()

    def test_hypotheses_sorted_searched_hidden_chosen(self) -> None:
        b = self.b
        self.serve(c='context c\nconstants p q r\naxioms @a1 r = 7 @a2 q = 2 @a3 p = q @a4 p ∈ 1‥9\n  theorem @t p = 2\nend\n')
        self.open()
        b.click(obligation('c/t/THM'))
        self.goal('p = 2')
        shown = '[...document.querySelectorAll("#hypotheses .row")].map(e => e.n)'
        self.assertEqual(b.ask(shown), [3, 4])
        b.click('document.querySelector("#hypotheses .divider")')
        self.assertEqual(b.ask(shown), [3, 4, 1, 2])
        b.click(by_id('by-number'))
        self.assertEqual(b.ask(shown), [1, 2, 3, 4])
        b.click(by_id('hypothesis-filter'))
        b.type('q')
        self.assertEqual(b.ask(shown), [2, 3])
        b.ask(f'{by_id("hypothesis-filter")}.select()')
        b.press('Delete')
        b.click(f'{row(1)}.querySelector(".formula")')
        b.press('x')
        self.assertEqual(b.ask(shown), [2, 3, 4])
        b.click(by_id('unhide'))
        self.assertEqual(b.ask(shown), [1, 2, 3, 4])
        b.click(f'{row(4)}.querySelector(".number")')
        self.assertEqual(b.ask(f'{row(4)}.getAttribute("aria-selected")'), 'true')
        b.click(f'{row(3)}.querySelector(".part .part")')
        b.until(offer('eqHyp h 3 ;; h 4'))
        b.click(offer('eqGoal h 3'))
        self.goal('q = 2')
        b.until(f'{offer("hyp h 2")} && {offer("hyp h 2")}?.querySelector(".closes")')
        b.click(offer('hyp h 2'))
        self.status('c/t/THM', 'discharged')
        self.nothing_wrong()


class Editing(Page):
    """Typing, undo, find, files that others change, hostile texts."""

    def test_typing(self) -> None:
        b = self.b
        self.serve(c='context c\n\nend\n')
        self.open()
        b.until(f'{by_id("text-name")}.textContent === "c"')
        b.click(area())
        b.ask(f'{area()}.setSelectionRange(10, 10)')
        b.type('constants x y\naxioms\n@ax-1.a x : NAT & not(x /= 1) or y <= x-1 // a : b\n@b !z.z |-> y /: {} => x <+ y\n@c x :: NAT @d y :| y\' = {}\n')
        wanted = 'context c\nconstants x y\naxioms\n@ax-1.a x ∈ ℕ ∧ ¬(x ≠ 1) ∨ y ≤ x−1 // a : b\n@b ∀z·z ↦ y ∉ ∅ ⇒ x <+ y\n@c x :∈ ℕ @d y :∣ y\' = ∅\n\nend\n'
        self.assertEqual(b.ask(f'{area()}.value'), wanted)
        self.assertEqual(b.ask('[...document.querySelectorAll("#behind div")].map(e => e.textContent.replace("\\u200b", "")).join("\\n")'), wanted)
        self.assertEqual(b.ask('document.querySelectorAll("#lines div").length'), 9)
        self.assertIn('•', self.words('text-name'))
        b.press('s', CONTROL)
        b.until('document.querySelector("#behind .fault")')
        self.assertEqual([self.words('fault'), b.ask('document.querySelector("#behind .fault").textContent')], ['4:26 unexpected "∨"', '∨'])
        b.until(f'!{by_id("text-name")}.textContent.includes("•")')
        for _ in range(400):
            if b.ask(f'{area()}.value') == 'context c\n\nend\n':
                break
            b.press('z', CONTROL)
        self.assertEqual(b.ask(f'{area()}.value'), 'context c\n\nend\n')
        b.ask(f'{area()}.setSelectionRange(10, 10)')
        b.press('Tab')
        b.type('sets S\nT')
        self.assertEqual(b.ask(f'{area()}.value'), 'context c\n  sets S\n  T\nend\n')
        b.press('Escape')
        b.press('Tab')
        self.assertFalse(b.ask(f'document.activeElement === {area()}'))
        b.click(by_id('signs-open'))
        b.click(one('#signs button', '⇸'))
        self.assertIn('T⇸', b.ask(f'{area()}.value'))
        self.nothing_wrong()

    def test_find_and_replace(self) -> None:
        b = self.b
        self.serve(c='context c\nconstants ab abc\naxioms @x ab ≤ 1 @y abc ∈ ℕ\nend\n')
        self.open()
        b.click(area())
        b.press('f', CONTROL)
        b.type('ab')
        b.until('document.querySelectorAll("#behind .hit").length === 4')
        b.press('Enter')
        self.assertEqual(self.words('find-count'), '1 of 4')
        b.press('Enter')
        b.press('Enter', SHIFT)
        self.assertEqual(self.words('find-count'), '1 of 4')
        b.ask(f'{by_id("find-text")}.select()')
        b.type('<=')
        b.until('document.querySelectorAll("#behind .hit").length === 1')
        b.ask(f'{by_id("find-text")}.select()')
        b.type('ab')
        b.click(by_id('find-new'))
        b.type('k')
        b.click(by_id('find-all'))
        self.assertEqual(b.ask(f'{area()}.value'), 'context c\nconstants k kc\naxioms @x k ≤ 1 @y kc ∈ ℕ\nend\n')
        b.press('Escape')
        b.click(area())
        b.press('z', CONTROL)
        self.assertEqual(b.ask(f'{area()}.value'), 'context c\nconstants ab abc\naxioms @x ab ≤ 1 @y abc ∈ ℕ\nend\n')
        self.nothing_wrong()

    def test_another_editor(self) -> None:
        b = self.b
        self.serve(boom=BOOM)
        self.open()
        b.until(f'{by_id("text-name")}.textContent === "boom"')
        self.put(boom=BOOM.replace('10', '11'))
        b.until(f'{area()}.value.includes("11 ≤ up")')
        self.fill(BOOM.replace('10', '12'))
        self.put(boom=BOOM.replace('10', '13'))
        b.until(f'!{by_id("conflict")}.hidden')
        b.click(one('#conflict button', 'Save mine'))
        b.until(f'{by_id("conflict")}.hidden')
        self.until(lambda: self.desk.project.folder.text('boom') == BOOM.replace('10', '12'))
        self.fill(BOOM.replace('10', '14'))
        self.put(boom=BOOM.replace('10', '15'))
        b.until(f'!{by_id("conflict")}.hidden')
        b.click(one('#conflict button', 'Take'))
        b.until(f'{area()}.value === {quoted(BOOM.replace("10", "15"))}')
        b.until(f'!{by_id("text-name")}.textContent.includes("•")')
        b.click(area())
        b.press('z', CONTROL)
        self.assertIn('14', b.ask(f'{area()}.value'))
        b.press('y', CONTROL)
        # The heading gives it another name.
        self.fill(BOOM.replace('context boom', 'context beam'))
        b.press('s', CONTROL)
        b.until(f'{by_id("text-name")}.textContent === "beam"')
        b.until(obligation('beam/thm1/THM'))
        os.remove(os.path.join(self.room, 'boom.eventb'))
        b.until('document.querySelectorAll("#tree [role=treeitem]").length === 0')
        self.nothing_wrong()

    def test_hostile_texts_show_as_texts(self) -> None:
        b = self.b
        evil = '<img src=x onerror=alert(1)><script>alert(2)</script></textarea></pre>&amp;'
        text = f'context __proto__ // {evil}\nconstants constructor\naxioms @a-1.b\' constructor = 1 // \u202e {evil}\n  theorem @toString constructor < 2\nend\n'
        with open(os.path.join(self.room, "<b onmouseover='alert(3)'>.eventb"), 'w', encoding='utf-8') as file:
            file.write(text)
        self.serve(constructor='context constructor sets S\nend\n', bad='context bad constants <script>alert(4)</script> end\n', hasOwnProperty='machine hasOwnProperty events end')
        self.open()
        for name in ('__proto__', 'constructor', 'bad', 'hasOwnProperty'):
            b.click(component(name))
            b.until(f'{by_id("text-name")}.textContent === {quoted(name)}')
            b.ask('new Promise(f => setTimeout(f, 50))')
        b.click(component('__proto__'))
        b.until(f'{area()}.value === {quoted(text)}')
        self.assertEqual(self.words('text-file'), "<b onmouseover='alert(3)'>.eventb")
        self.assertIn(evil, b.ask('document.querySelector("#behind").textContent'))
        b.click(obligation('__proto__/toString/THM'))
        self.goal('constructor < 2')
        self.ask('raw', line=f'show {evil}')
        b.click('document.querySelector("[data-view=log]")')
        b.until(one('#entries li .sent', f'show {evil}'))
        self.assertEqual(b.ask('document.querySelectorAll("img, script:not([src]), b, iframe, [onerror], [onmouseover]").length'), 0)
        self.assertEqual([t for t in b.told if t['method'] == 'Page.javascriptDialogOpening'], [])
        for script in ('eval("1")', 'document.body.insertAdjacentHTML("beforeend", "<b>x</b>")'):
            self.assertEqual(b.ask(f'(() => {{ try {{ {script}; return "done" }} catch (e) {{ return "refused" }} }})()'), 'refused')
        self.assertEqual(b.ask('(() => { try { document.body.innerHTML = "<i>"; return "done" } catch (e) { return "refused" } })()'), 'refused')

    def test_a_foreign_page_gets_nothing(self) -> None:
        b = self.b
        self.serve(boom=BOOM)
        address = self.server.address
        before = self.desk.project.count
        b.open('data:text/html,<title>foreign</title>')
        out = b.ask(f'''(async () => {{
          const tried = []
          for (const mode of ['cors', 'no-cors']) {{
            try {{ const r = await fetch({quoted(address)} + 'raw', {{ method: 'POST', mode, body: '{{"line": "digest"}}' }}); tried.push(r.type + r.status) }} catch (e) {{ tried.push('refused') }}
          }}
          tried.push(await new Promise(f => {{ const s = document.createElement('script'); s.src = {quoted(address)} + 'main.js'; s.onload = () => f('loaded'); s.onerror = () => f('refused'); document.body.append(s) }}))
          return tried
        }})()''')
        self.assertEqual(out, ['refused', 'refused', 'refused'])
        time.sleep(0.2)
        self.assertEqual([e['sent'] for e in self.desk.project.logged[before:] if e['sent'] == 'digest'], [])


class Looks(Page):
    """Light and dark, 80 to 200 columns, and the session's troubles on the page."""

    def test_widths(self) -> None:
        b = self.b
        self.serve(rel=SETS, boom=BOOM)
        self.open()
        b.click(obligation('rel/thm1/THM'))
        self.goal('r ∪ {a} ⊆ s')
        sections = '["models", "text", "proof", "log"].filter(id => document.getElementById(id).getClientRects().length)'
        wide = 'document.documentElement.scrollWidth <= innerWidth && [...document.querySelectorAll("header, .bar, #proof-tools")].every(e => e.scrollWidth <= e.clientWidth + 1)'
        for width, shown in ((640, ['proof']), (800, ['proof']), (1000, ['models', 'proof']), (1280, ['models', 'proof']), (1320, ['models', 'text', 'proof']), (1600, ['models', 'text', 'proof'])):
            b.size(width, 900)
            b.until(f'JSON.stringify({sections}) === {quoted(json.dumps(shown, separators=(",", ":")))}')
            self.assertTrue(b.ask(wide), width)
        b.size(640, 900)
        for view in ('models', 'text', 'proof', 'log'):
            b.click(f'document.querySelector("[data-view={view}]")')
            self.assertEqual(b.ask(sections), [view])
            self.assertEqual(b.ask(f'document.querySelector("[data-view={view}]").getAttribute("aria-pressed")'), 'true')
            self.assertTrue(b.ask(wide), view)
        b.click('document.querySelector("[data-view=text]")')
        columns = f'(() => {{ const t = {area()}, c = document.createElement("canvas").getContext("2d"); c.font = getComputedStyle(t).font; return (t.clientWidth - 16) / c.measureText("x").width }})()'
        self.assertGreater(b.ask(columns), 70)
        self.nothing_wrong()

    def test_names_and_roles(self) -> None:
        b = self.b
        self.serve(rel=SETS)
        self.open()
        b.click(obligation('rel/thm1/THM'))
        self.goal('r ∪ {a} ⊆ s')
        b.until('document.querySelector("#offers .leaf")')
        nodes = b.call('Accessibility.getFullAXTree')['nodes']
        told = [(n['role']['value'], n.get('name', {}).get('value', '')) for n in nodes if not n['ignored']]
        for role in ('button', 'textbox', 'searchbox', 'combobox', 'treeitem', 'option', 'checkbox', 'tree', 'listbox', 'toolbar', 'region', 'dialog'):
            self.assertEqual([name for found, name in told if found == role and not name], [], role)
        for wanted in (('treeitem', 'thm1/THM unattempted'), ('option', '2: r ⊆ s'), ('option', 'goal r ∪ {a} ⊆ s'), ('region', 'Models'), ('textbox', 'Text of rel'), ('tree', 'Proof tree')):
            self.assertIn(wanted, told)

    def test_contrast(self) -> None:
        b = self.b
        self.serve(rel=SETS)
        self.open()
        b.click(obligation('rel/thm1/THM'))
        self.goal('r ∪ {a} ⊆ s')
        b.until('document.querySelector("#offers .leaf")')
        low = '''(() => {
          const lum = c => { const [r, g, b] = c.map(v => { v /= 255; return v <= .03928 ? v / 12.92 : ((v + .055) / 1.055) ** 2.4 }); return .2126 * r + .7152 * g + .0722 * b }
          const rgb = s => { const m = s.match(/[\\d.]+/g).map(Number); return m.length > 3 && m[3] === 0 ? null : m.slice(0, 3) }
          const found = []
          for (const e of document.querySelectorAll('body *')) {
            if (!e.getClientRects().length || e.disabled || e.matches('textarea, option') || ![...e.childNodes].some(n => n.nodeType === 3 && n.data.trim())) continue
            let back = null
            for (let up = e; up && !back; up = up.parentElement) back = rgb(getComputedStyle(up).backgroundColor)
            const a = lum(rgb(getComputedStyle(e).color)), z = lum(back || [255, 255, 255]), ratio = (Math.max(a, z) + .05) / (Math.min(a, z) + .05)
            if (ratio < 4.5) found.push([e.textContent.slice(0, 30), e.className, ratio])
          }
          return found
        })()'''
        for dark in (False, True):
            b.dark(dark)
            time.sleep(0.3)
            self.assertEqual(b.ask(low), [], 'dark' if dark else 'light')
        b.dark(True)
        self.assertEqual(b.ask('getComputedStyle(document.body).backgroundColor'), 'rgb(20, 24, 29)')
        b.click(by_id('theme'))
        self.assertEqual(b.ask('getComputedStyle(document.body).backgroundColor'), 'rgb(255, 255, 255)')

    def test_the_session_ends_and_begins_again(self) -> None:
        b = self.b
        self.serve(boom=BOOM)
        self.open()
        b.click(obligation('boom/thm2/THM'))
        b.click('document.querySelector("[data-act=auto]")')
        self.status('boom/thm2/THM', 'discharged')
        self.desk.project.engine.close()
        b.until(f'{by_id("banner")}.textContent.includes("The session ended")')
        b.click(one('#banner button', 'Begin it again'))
        b.until(f'{by_id("banner")}.hidden')
        b.click(by_id('raw-line') + '.offsetParent ? document.body : document.querySelector("[data-view=log]")')
        self.fill(BOOM + '// more\n')
        self.save('built: 1 components, 0 faulted, 2 obligations')
        self.status('boom/thm2/THM', 'discharged')


if __name__ == '__main__':
    unittest.main()
