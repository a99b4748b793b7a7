"""The program's own tables of words and signs, read from its crates: for editors, and to compare the workbench's with."""
from __future__ import annotations

import glob
import os
import re
from typing import NamedTuple

_CONST = r'pub const {}: \[[^=]*\] = \[(.*?)\n\];'
_STRING = re.compile(r'"((?:[^"\\]|\\.)*)"')
_ESCAPE = re.compile(r'\\u\{([0-9a-f]+)\}|\\(.)')


class Tables(NamedTuple):
    """`signs`: each form with its sign's number; `classes`: of each sign by its number; `words`: of formulas, with their classes;
    `structure`: of components; `rules`: of proofs; `commands`: of sessions, but for `edit`."""
    signs: list[tuple[str, int]]
    classes: list[str]
    words: list[tuple[str, str]]
    structure: list[str]
    rules: list[str]
    commands: list[str]

    def forms(self, *names: str) -> list[str]:
        """The forms of the signs of some classes, the longest ones first."""
        return sorted((form for form, number in self.signs if self.classes[number] in names), key=lambda form: (-len(form), form))


def _text(literal: str) -> str:
    return _ESCAPE.sub(lambda m: chr(int(m[1], 16)) if m[1] else m[2], literal)


def _constant(top: str, name: str) -> str:
    """The entries of a constant of a crate, wherever it stands."""
    for path in sorted(glob.glob(os.path.join(top, 'crates', '*', 'src', '**', '*.rt'), recursive=True)):
        with open(path, encoding='utf-8') as file:
            found = re.search(_CONST.format(name), file.read(), re.S)
        if found:
            return re.sub(r'//[^\n"]*\n', '\n', found[1])
    raise LookupError(f'no table {name} in the crates')


def read(top: str) -> Tables:
    """The tables of the crates below a folder."""
    signs = [(_text(form), int(number)) for form, number in re.findall(r'\("((?:[^"\\]|\\.)*)",\s*(\d+)\)', _constant(top, 'SIGNS'))]
    classes = re.findall(r'^\s*Symbol::(\w+)', _constant(top, 'SYMBOLS'), re.M)
    words = [(_text(word), kind) for word, kind in re.findall(r'\(\s*"((?:[^"\\]|\\.)*)",\s*Symbol::(\w+)', _constant(top, 'WORDS'))]
    structure, rules, commands = (_STRING.findall(_constant(top, name)) for name in ('STRUCTURAL', 'RULE_WORDS', 'VERBS'))
    return Tables(signs, classes, words, structure, rules, commands)
