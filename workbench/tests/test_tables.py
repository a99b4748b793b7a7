"""The workbench's tables are the program's, and so are the editors'."""
from __future__ import annotations

import glob
import json
import os
import re
import shutil
import subprocess
import sys
import tempfile
import unittest
from typing import Any, Iterator

from rooms import EXAMPLES, TOP
from workbench import bring, core_text, formulas, journal, rule_words, scan, shell_words, spell, syntax, tables, texts

TABLES = tables.read(TOP)
EDITORS = os.path.join(TOP, 'workbench', 'editors')


class Ours(unittest.TestCase):
    """What the workbench has of them."""

    def test_signs(self) -> None:
        numbers = dict(TABLES.signs)
        self.assertEqual((len(TABLES.signs), max(numbers.values())), (len(numbers), len(TABLES.classes) - 1))
        for form, sign in spell.SIGNS.items():
            self.assertEqual(numbers[form], numbers[sign], form)
        for sign, form in spell.PRIVATE.items():
            self.assertEqual(numbers[form], numbers[sign], form)
        keys = {form for form, number in TABLES.signs if form.isascii() and any(n == number and not f.isascii() for f, n in TABLES.signs)}
        self.assertEqual(keys - set(spell.SIGNS) - set(spell.KEPT), set())
        for form in numbers:
            if not is_letters(form):
                self.assertEqual([token.text for token in scan.tokens(form)], [spell.SIGNS.get(form, form)], form)

    def test_words(self) -> None:
        self.assertEqual(scan.STRUCTURE, TABLES.structure)
        self.assertEqual(bring.KEPT_WORDS, {word for word, _ in TABLES.words} | {'mod'})
        self.assertEqual(formulas.WORDS, bring.KEPT_WORDS - {'partition'})
        reserved = {form for form, _ in TABLES.signs if is_letters(form)} | {word for word, _ in TABLES.words} | set(TABLES.structure)
        self.assertEqual(bring.RESERVED, reserved)

    def test_rules_and_laws(self) -> None:
        self.assertEqual(journal.KINDS, TABLES.rules)
        self.assertEqual([*rule_words.KINDS], [rule for rule in TABLES.rules if rule != 'review'])
        document = texts.read(os.path.join(TOP, 'docs', 'PROOFS.md'))
        laws = document.split('## The laws')[1].split('\n## ')[0]
        self.assertEqual([int(n) for n in re.findall(r'^\| (\d+) \|', laws, re.M)], [*rule_words.LAWS])
        kinds = document.split('## The kinds')[1].split('\n## ')[0]
        self.assertEqual(re.findall(r'^\| \d+ \| (\w+) \|', kinds, re.M), TABLES.rules)

    def test_commands(self) -> None:
        """The prompt has a word for each command of a session."""
        self.assertEqual([it for it in TABLES.commands if it not in shell_words.WORDS and it not in shell_words.RAW], [])
        self.assertEqual([it for it in shell_words.RAW if it not in TABLES.commands], [])

    def test_operators(self) -> None:
        """Each operator of printed formulas is a sign or a word of the program, or one of the four that have no sign."""
        known = {form for form, _ in TABLES.signs} | {word for word, _ in TABLES.words} | {'app', 'img', 'set'}
        self.assertEqual([op for op in core_text.OPS if op not in known], [])


def is_letters(form: str) -> bool:
    """Whether a form is a word."""
    return syntax.is_word(form)


class Editors(unittest.TestCase):
    """What `make` writes, and what it does to a text."""

    def setUp(self) -> None:
        with open(os.path.join(EDITORS, 'vscode', 'syntaxes', 'eventb.tmLanguage.json'), encoding='utf-8') as file:
            self.patterns: list[dict[str, Any]] = json.load(file)['patterns']

    def test_the_files_are_those_of_the_tables(self) -> None:
        done = subprocess.run([sys.executable, os.path.join(EDITORS, 'make'), '--check'], capture_output=True, text=True, check=False)
        self.assertEqual((done.returncode, done.stdout), (0, ''))
        with tempfile.TemporaryDirectory() as room:
            shutil.copytree(os.path.join(TOP, 'workbench'), os.path.join(room, 'workbench'), ignore=shutil.ignore_patterns('tests', '__pycache__'))
            for name in ('math_tokens', 'math_grammar', 'component_text', 'rule_words', 'session_words'):
                shutil.copytree(os.path.join(TOP, 'crates', name, 'src'), os.path.join(room, 'crates', name, 'src'))
            words = os.path.join(room, 'crates', 'component_text', 'src', 'words.rt')
            texts.write(words, texts.read(words).replace('"sees"', '"looks"'))
            done = subprocess.run([sys.executable, os.path.join(room, 'workbench', 'editors', 'make'), '--check'], capture_output=True, text=True, check=False)
        self.assertEqual(done.returncode, 1)
        self.assertIn('vim/syntax/eventb.vim differs', done.stdout)

    def cut(self, text: str) -> Iterator[tuple[str, str]]:
        """Pieces of a text with the scope that the grammar gives them: the earliest match counts, and of two the pattern that stands first."""
        patterns = [(re.compile(p.get('match') or r'/\*(?s:.*?)\*/', re.M), p.get('name', 'keyword.control.eventb')) for p in self.patterns]
        at, nexts = 0, [pattern.search(text) for pattern, _ in patterns]
        while at < len(text):
            nexts = [pattern.search(text, at) if found and found.start() < at else found for (pattern, _), found in zip(patterns, nexts)]
            first = min((found.start() for found in nexts if found), default=len(text))
            if first > at:
                yield text[at:first], ''
                at = first
                continue
            piece, scope = next((found[0], scope) for found, (_, scope) in zip(nexts, patterns) if found and found.start() == at)
            yield piece, scope
            at += len(piece)

    def test_each_form_is_one_piece(self) -> None:
        for form, number in TABLES.signs:
            if TABLES.classes[number] not in ('Open', 'Close', 'Comma'):
                self.assertEqual([piece for piece, _ in self.cut(form)], [form])
        for word in [word for word, _ in TABLES.words] + TABLES.structure:
            self.assertEqual([piece for piece, _ in self.cut(word)], [word])
        self.assertEqual([*self.cut('orx')], [('orx', 'variable.other.eventb')])

    def test_each_sign_of_the_examples_has_a_scope(self) -> None:
        for path in glob.glob(os.path.join(EXAMPLES, '*.eventb')):
            for piece, scope in self.cut(texts.read(path)):
                self.assertTrue(scope or re.fullmatch(r'[\s()\[\]{},]*', piece), (path, piece))

    def test_the_problem_matcher(self) -> None:
        with open(os.path.join(EDITORS, 'vscode', 'package.json'), encoding='utf-8') as file:
            pattern = json.load(file)['contributes']['problemMatchers'][0]['pattern'][0]
        for line, wanted in (('a b.eventb:3:6: x is unknown', ('a b.eventb', '3', '6', None, 'x is unknown')),
                             ('c.eventb:1:1: warning: event e is not refined', ('c.eventb', '1', '1', 'warning', 'event e is not refined'))):
            found = re.fullmatch(pattern['regexp'], line)
            assert found is not None
            self.assertEqual(tuple(found[pattern[key]] for key in ('file', 'line', 'column', 'severity', 'message')), wanted)
        self.assertIsNone(re.fullmatch(pattern['regexp'], 'c/t/THM discharged (prover)'))

    @unittest.skipUnless(shutil.which('vim'), 'there is no vim')
    def test_vim(self) -> None:
        """Groups at places of a text, and the lines of a run in the list of faults, in a real Vim."""
        with tempfile.TemporaryDirectory() as room:
            texts.write(os.path.join(room, 'c.eventb'), 'context c // x\naxioms\n  @a-1 x /<<: POW1(S) <=> or1 = TRUE ∧ ¬(1 |-> 2 : f)\nend\n')
            texts.write(os.path.join(room, 'said'), 'built: 1 components\nc.eventb:3:6: x is unknown\nc.eventb:1:1: warning: words\n')
            groups = {(1, 1): 'Heading', (1, 11): 'Comment', (2, 1): 'Structure', (3, 3): 'Label', (3, 10): 'Operator', (3, 13): 'Operator', (3, 15): 'Function',
                      (3, 23): 'Operator', (3, 25): 'Operator', (3, 27): '', (3, 33): 'Constant', (3, 38): 'Operator', (3, 45): 'Number'}
            script = ["if !has('syntax') || !has('quickfix') || !has('eval')", '  cquit 7', 'endif', f'set runtimepath^={EDITORS}/vim', 'syntax on', 'filetype plugin on',
                      f'edit {room}/c.eventb', 'let found = []']
            script += [f"call add(found, synIDattr(synID({line}, {column}, 1), 'name'))" for line, column in groups]
            script += [f'cgetfile {room}/said', "call map(getqflist(), {_, f -> add(g:found, f.lnum . ' ' . f.col . ' ' . f.type . ' ' . f.text)})",
                       f"call writefile(found, '{room}/out')", 'qall!']
            texts.write(os.path.join(room, 'do.vim'), '\n'.join([*script, '']))
            done = subprocess.run(['vim', '-e', '-s', '-u', 'NONE', '-N', '--cmd', 'set encoding=utf-8', '-S', os.path.join(room, 'do.vim')],
                                  stdin=subprocess.DEVNULL, capture_output=True, check=False, timeout=60)
            if done.returncode == 7:
                self.skipTest('this vim has no syntax')
            out = texts.read(os.path.join(room, 'out')).splitlines()
        self.assertEqual(out[:len(groups)], [group and f'eventb{group}' for group in groups.values()])
        self.assertEqual(out[len(groups):], ['3 6  x is unknown', '1 1 w words'])


if __name__ == '__main__':
    unittest.main()
