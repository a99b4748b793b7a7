"""Signs and their ASCII spellings (docs/LANGUAGE.md), for typing and for what the four private signs look like."""
from __future__ import annotations

import re

SIGNS = {
    'true': '⊤', 'false': '⊥', 'not': '¬', '&': '∧', 'or': '∨', '=>': '⇒', '<=>': '⇔', '!': '∀', '#': '∃', '.': '·', '|': '∣',
    '/=': '≠', ':': '∈', '/:': '∉', '<=': '≤', '>=': '≥', '|->': '↦', '<->': '↔', '+->': '⇸', '-->': '→', '>+>': '⤔', '>->': '↣',
    '+->>': '⤀', '->>': '↠', '-->>': '↠', '>->>': '⤖', '\\/': '∪', '/\\': '∩', '\\': '∖', '**': '×', '<|': '◁', '<<|': '⩤',
    '|>': '▷', '|>>': '⩥', 'circ': '∘', '||': '∥', '><': '⊗', ':=': '≔', '::': ':∈', ':|': ':∣', '{}': '∅', '..': '‥', '-': '−',
    '*': '∗', '/': '÷', '~': '∼', 'oftype': '⦂', '%': 'λ', 'UNION': '⋃', 'INTER': '⋂', 'INT': 'ℤ', 'NAT': 'ℕ', 'NAT1': 'ℕ1',
    'POW': 'ℙ', 'POW1': 'ℙ1', '<:': '⊆', '<<:': '⊂', '/<:': '⊈', '/<<:': '⊄'}
"""From keys to sign."""

KEPT = ('<<->', '<->>', '<<->>', '<+', ':∈', ':∣')
"""What stays: signs whose Unicode is of a private area, and two that begin with an ASCII sign. They are matched, so that no part of them is replaced."""

PRIVATE = {'\ue100': '<<->', '\ue101': '<->>', '\ue102': '<<->>', '\ue103': '<+'}
"""Signs of Rodin's own font, as the program reads them, and the keys that show them everywhere."""

_LONGEST = sorted([k for k in (*SIGNS, *KEPT) if not k[0].isalpha()] + ['ℕ1', 'ℙ1'], key=len, reverse=True)
SIGN = re.compile('|'.join(map(re.escape, _LONGEST)))
"""A sign in keys, the longest one first."""

_TOKEN = re.compile(r"//[^\n]*|/\*.*?(?:\*/|$)|@[A-Za-z0-9_\-.']*|[A-Za-z_][A-Za-z0-9_]*'?|" + SIGN.pattern + '|.', re.S)


def unicode_of(text: str) -> str:
    """The text with ASCII signs replaced, but within comments and labels. The lexer of the program reads both the same."""
    return _TOKEN.sub(lambda m: SIGNS.get(m[0], m[0]), text)
