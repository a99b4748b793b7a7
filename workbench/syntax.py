"""Syntax files for editors, made of the program's tables."""
from __future__ import annotations

import json
import re
from typing import Any, Iterable

from .tables import Tables

HEADINGS = ('context', 'machine', 'event')
LABEL = r"@[A-Za-z0-9_\-.']{1,64}"
MADE = 'Made by workbench/editors/make from the tables of the program; changes are lost.'
MATCHER = r'^(.*\.eventb):(\d+):(\d+): (?:(warning): )?(.*)$'
"""A line of rodin-watch: file, line, column, severity, message."""

GROUPS = {
    'Constant': ('Truth', 'Constant'), 'Function': ('Call',), 'Binder': ('Binder',), 'Assignment': ('Becomes', 'BecomesIn', 'BecomesSuch'),
    'Operator': ('Not', 'Minus', 'Infix', 'Converse', 'Dot', 'Bar')}
"""Groups of an editor, and the classes of the program's signs and words in each."""


def forms(tables: Tables, group: str) -> list[str]:
    """The forms of a group's signs and its words, the longest ones first."""
    words = [word for word, kind in tables.words if kind in GROUPS[group]]
    return sorted({*tables.forms(*GROUPS[group]), *words}, key=lambda form: (-len(form), form))


def is_word(form: str) -> bool:
    """Whether a form is an ASCII word, which ends where no letter follows."""
    return re.fullmatch('[A-Za-z_][A-Za-z0-9_]*', form) is not None


def files(tables: Tables) -> dict[str, str]:
    """Each file's text by its path below workbench/editors."""
    return {'vim/syntax/eventb.vim': vim_syntax(tables), 'vim/ftdetect/eventb.vim': f'" {MADE}\nautocmd BufNewFile,BufRead *.eventb setfiletype eventb\n',
            'vim/ftplugin/eventb.vim': vim_plugin(tables), 'vim/compiler/rodin.vim': VIM_COMPILER, 'vscode/package.json': _json(PACKAGE),
            'vscode/language-configuration.json': _json(CONFIGURATION), 'vscode/syntaxes/eventb.tmLanguage.json': _json(grammar(tables))}


# Vim.

VIM_COMPILER = f'''" {MADE}
if exists('current_compiler') | finish | endif
let current_compiler = 'rodin'
CompilerSet makeprg=rodin-watch\\ --once\\ %:p:h:S
CompilerSet errorformat=%f:%l:%c:\\ %tarning:\\ %m,%f:%l:%c:\\ %m,%-G%.%#
'''


def vim_pattern(form: str) -> str:
    """A sign as a very nomagic pattern."""
    return form.replace('\\', '\\\\').replace('/', '\\/')


def vim_syntax(tables: Tables) -> str:
    """Keywords, and matches for signs: of two at one place Vim takes the last one, so the shortest stand first."""
    lines = [f'" {MADE}', "if exists('b:current_syntax') | finish | endif", 'syntax case match',
             'syntax keyword eventbStructure ' + ' '.join(word for word in tables.structure if word not in HEADINGS),
             'syntax keyword eventbHeading ' + ' '.join(HEADINGS)]
    signs: list[tuple[str, str]] = []
    for group in GROUPS:
        words = [form for form in forms(tables, group) if is_word(form)]
        lines += [f'syntax keyword eventb{group} ' + ' '.join(words)] if words else []
        signs += [(form, group) for form in forms(tables, group) if not is_word(form)]
    lines += [rf'syntax match eventb{group} /\V{vim_pattern(form)}/' for form, group in sorted(signs, key=lambda s: (len(s[0]), s[0]))]
    lines += [r'syntax match eventbNumber /\<[0-9]\+\>/', r"syntax match eventbLabel /@[A-Za-z0-9_.'-]\{1,64}/",
              r'syntax match eventbComment +//.*$+ contains=@Spell', r'syntax region eventbComment start=+/\*+ end=+\*/+ contains=@Spell']
    links = {'Structure': 'Keyword', 'Heading': 'Structure', 'Constant': 'Constant', 'Function': 'Function', 'Binder': 'Statement',
             'Assignment': 'Statement', 'Operator': 'Operator', 'Number': 'Number', 'Label': 'Label', 'Comment': 'Comment'}
    lines += [f'highlight default link eventb{group} {link}' for group, link in links.items()]
    return '\n'.join([*lines, "let b:current_syntax = 'eventb'", ''])


def vim_plugin(tables: Tables) -> str:
    """Comments, and abbreviations that make signs of words; keys of signs are left to the user, since the program reads them as they are."""
    words = {number: form for form, number in tables.signs if not form.isascii()}
    pairs = [(form, words[number]) for form, number in tables.signs if is_word(form) and number in words]
    lines = [f'" {MADE}', "if exists('b:did_ftplugin') | finish | endif", 'let b:did_ftplugin = 1', 'setlocal commentstring=//\\ %s', 'compiler rodin',
             '" With g:eventb_signs the words of signs become signs as they are typed.', "if get(g:, 'eventb_signs', 0)"]
    return '\n'.join([*lines, *(f'  iabbrev <buffer> {form} {sign}' for form, sign in sorted(pairs)), 'endif', ''])


# VS Code.

def _json(data: Any) -> str:
    return json.dumps(data, ensure_ascii=False, indent=2) + '\n'


def alternatives(found: Iterable[str]) -> str:
    """A pattern for some forms; words end where no letter follows."""
    return '|'.join(rf'\b{form}\b' if is_word(form) else re.escape(form) for form in found)


def grammar(tables: Tables) -> dict[str, Any]:
    """The grammar: comments and labels first, then words and signs, the longest ones first."""
    scopes = {'Constant': 'constant.language', 'Function': 'support.function', 'Binder': 'keyword.operator.binder', 'Assignment': 'keyword.operator.assignment',
              'Operator': 'keyword.operator'}
    signs = sorted(((form, group) for group in GROUPS for form in forms(tables, group)), key=lambda s: (-len(s[0]), s[0]))
    structure = '|'.join(sorted((word for word in tables.structure if word not in HEADINGS), key=lambda word: (-len(word), word)))
    patterns: list[dict[str, Any]] = [
        {'name': 'comment.line.double-slash.eventb', 'match': '//.*$'}, {'name': 'comment.block.eventb', 'begin': r'/\*', 'end': r'\*/'},
        {'name': 'entity.name.tag.eventb', 'match': LABEL},
        {'match': rf'\b({"|".join(HEADINGS)})\b(?:\s+([A-Za-z_][A-Za-z0-9_]*))?',
         'captures': {'1': {'name': 'keyword.control.eventb'}, '2': {'name': 'entity.name.type.eventb'}}},
        {'name': 'keyword.control.eventb', 'match': rf'\b(?:{structure})\b'}]
    # Words, then signs of one length after another: a pattern that stands earlier is taken at the same place.
    for group, scope in scopes.items():
        words = [form for form, of in signs if of == group and is_word(form)]
        patterns += [{'name': f'{scope}.eventb', 'match': alternatives(words)}] if words else []
    for size in sorted({len(form) for form, _ in signs if not is_word(form)}, reverse=True):
        for group, scope in scopes.items():
            found = [form for form, of in signs if of == group and len(form) == size and not is_word(form)]
            patterns += [{'name': f'{scope}.eventb', 'match': alternatives(found)}] if found else []
    patterns += [{'name': 'constant.numeric.eventb', 'match': r'\b[0-9]+\b'}, {'name': 'variable.other.eventb', 'match': r"[A-Za-z_][A-Za-z0-9_]*'?"}]
    return {'$comment': MADE, 'name': 'Event-B', 'scopeName': 'source.eventb', 'fileTypes': ['eventb'], 'patterns': patterns}


CONFIGURATION: dict[str, Any] = {
    'comments': {'lineComment': '//', 'blockComment': ['/*', '*/']}, 'brackets': [['(', ')'], ['[', ']'], ['{', '}']],
    'autoClosingPairs': [['(', ')'], ['[', ']'], ['{', '}']], 'wordPattern': "@?[A-Za-z_][A-Za-z0-9_]*'?"}

_PATTERN = [{'regexp': MATCHER, 'file': 1, 'line': 2, 'column': 3, 'severity': 4, 'message': 5}]
_MATCHER: dict[str, Any] = {'owner': 'rodin', 'severity': 'error', 'fileLocation': ['autoDetect', '${workspaceFolder}'], 'pattern': _PATTERN}

PACKAGE: dict[str, Any] = {
    'name': 'eventb-rodin', 'displayName': 'Event-B (rodin)', 'description': MADE, 'version': '1.0.0', 'publisher': 'nimbaketo', 'license': 'UNLICENSED',
    'engines': {'vscode': '^1.60.0'}, 'categories': ['Programming Languages'],
    'contributes': {
        'languages': [{'id': 'eventb', 'aliases': ['Event-B'], 'extensions': ['.eventb'], 'configuration': './language-configuration.json'}],
        'grammars': [{'language': 'eventb', 'scopeName': 'source.eventb', 'path': './syntaxes/eventb.tmLanguage.json'}],
        'problemMatchers': [
            {'name': 'rodin', **_MATCHER},
            {'name': 'rodin-watch', **_MATCHER, 'background': {'activeOnStart': True, 'beginsPattern': '^built: ', 'endsPattern': '^checked: '}}]}}
