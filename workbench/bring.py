"""`rodin-import FILE.. --to FOLDER`: projects of the Rodin platform (.zip, a folder, .buc, .bum) as texts, a file a component.

What had to be renamed or left out is told, a line each, and then a line of counts for each component. Proofs aren't read; of Rodin's
statuses (.bps) the counts are told. Exit: 0, 1 (something wasn't read, or nothing found), 3 (the folder failed, or has such a file).
"""
from __future__ import annotations

import argparse
import pathlib
import re
import sys
import xml.etree.ElementTree as ET
import zipfile
from typing import IO, Iterable, Iterator, NamedTuple, Optional, Sequence, TypeVar, Union

from . import scan, spell, texts
from .commands import Refused

CORE = 'org.eventb.core.'
KINDS = ('.buc', '.bum', '.bps')
LARGEST, WHOLE = 16 * 1024 * 1024, 256 * 1024 * 1024
"""Bytes of one file, and of all of an archive."""

GREEK = dict(zip('αβγδεζηθικλμνξοπρστυφχψωΓΔΘΛΞΠΣΦΨΩ',
                 ('alpha beta gamma delta epsilon zeta eta theta iota kappa lam mu nu xi omicron pi rho sigma tau upsilon phi chi psi omega '
                  'Gamma Delta Theta Lambda Xi Pi Sigma Phi Psi Omega').split()))
KEPT_WORDS = set('TRUE FALSE BOOL bool card dom ran union inter min max finite partition id prj1 prj2 pred succ mod'.split())
"""Words of Rodin's formulas that are the same here."""

RESERVED = KEPT_WORDS | set(scan.STRUCTURE) | {word for word in spell.SIGNS if word[0].isalpha()}
_WORD = re.compile(r"(?!\d)[^\Wλℕℤℙ][^\Wλ]*'?")
"""A name or a word of a formula of Rodin's; four letters are signs there."""

_LABEL = re.compile(r"[A-Za-z0-9_\-.']{1,64}")

_Path = TypeVar('_Path', bound=pathlib.PurePath)


class Counts(NamedTuple):
    """Of Rodin's statuses of a component: all, discharged, reviewed."""
    all: int
    discharged: int
    reviewed: int


class NoDocument(ValueError):
    """A file that isn't read; the text says why."""


class _Builder(ET.TreeBuilder):
    """Refuses a document type, in which entities could be declared."""

    def doctype(self, *_: object) -> None:
        """Called where a document type begins."""
        raise NoDocument('it has a document type')


def parsed(data: bytes) -> ET.Element:
    """The root of an XML document."""
    try:
        return ET.fromstring(data, ET.XMLParser(target=_Builder()))
    except ET.ParseError as fault:
        raise NoDocument(str(fault)) from fault


def labels(*elements: list[ET.Element]) -> set[str]:
    """The labels that stay as they are."""
    return {label for group in elements for element in group for label in [attribute(element, 'label')] if _LABEL.fullmatch(label)}


def kids(element: ET.Element, kind: str) -> list[ET.Element]:
    """The children of a kind of Rodin's."""
    return [child for child in element if child.tag == CORE + kind]


def attribute(element: ET.Element, key: str) -> str:
    """An attribute of Rodin's, or nothing."""
    return element.get(CORE + key, '')


class Bring:
    """Collects texts by component name, and notes. `taken` are the words that the project has, so that no new name is one of them."""

    def __init__(self, taken: Iterable[str] = ()) -> None:
        self.texts: dict[str, str] = {}
        self.counts: dict[str, Counts] = {}
        self.notes: list[str] = []
        self.failed = False
        self.renamed: dict[str, str] = {}
        self.taken = set(taken)

    def note(self, component: str, words: str, failed: bool = False) -> None:
        """Something that the user should know."""
        line = f'{component}: {words}'
        self.failed = self.failed or failed
        if line not in self.notes:
            self.notes.append(line)

    def name(self, component: str, word: str) -> str:
        """A name of the language for one of Rodin's; the same one each time."""
        if texts.NAME.fullmatch(word) and word not in RESERVED:
            return word
        if word not in self.renamed:
            new = ''.join(GREEK.get(c, c if re.match('[A-Za-z0-9_]', c) else '_') for c in word)[:56] or 'n'
            new = new if re.match('[A-Za-z_]', new) else f'n{new}'
            while new in RESERVED or new in self.taken:
                new += '_'
            self.taken.add(new)
            self.renamed[word] = new
            self.note(component, f'{word} is now {new}')
        return self.renamed[word]

    def label(self, component: str, word: str, used: set[str]) -> str:
        """A label of the language; where the old one was none a new one that isn't used."""
        if _LABEL.fullmatch(word):
            return word
        new = re.sub(r"[^A-Za-z0-9_\-.']", '_', word)[:60] or 'l'
        while new in used:
            new += '_'
        self.note(component, f'label {word or "(none)"} is now {new}')
        used.add(new)
        return new

    def formula(self, component: str, text: str) -> str:
        """A formula with its renamed names, and signs that every font has, on one line."""
        def replaced(m: 're.Match[str]') -> str:
            word, prime = m[0].rstrip("'"), "'" if m[0].endswith("'") else ''
            return m[0] if word in KEPT_WORDS else self.name(component, word) + prime
        shown = ''.join(spell.PRIVATE.get(sign, sign) for sign in _WORD.sub(replaced, text))
        return re.sub(r'\s+', ' ', shown).strip()

    def file(self, component: str, data: bytes) -> None:
        """One file's text."""
        root = parsed(data)
        if root.tag not in (CORE + 'contextFile', CORE + 'machineFile'):
            raise NoDocument(f'{root.tag} is no context and no machine')
        self.texts[component] = '\n'.join([*_Text(self, component).whole(root), ''])

    def statuses(self, component: str, data: bytes) -> None:
        """Rodin's statuses of a component."""
        found = [int(attribute(element, 'confidence') or 0) for element in kids(parsed(data), 'psStatus') if attribute(element, 'psBroken') != 'true']
        total = len(kids(parsed(data), 'psStatus'))
        self.counts[component] = Counts(total, sum(c > 500 for c in found), sum(100 < c <= 500 for c in found))


class _Text:
    """The text of one component."""

    def __init__(self, made: Bring, component: str) -> None:
        self.made, self.component = made, component

    def whole(self, root: ET.Element) -> list[str]:
        """Its lines."""
        self._unknown(root, {'extendsContext', 'carrierSet', 'constant', 'axiom', 'refinesMachine', 'seesContext', 'variable', 'invariant', 'variant',
                             'event'})
        lines = self.remark(root, '')
        if root.tag == CORE + 'contextFile':
            lines += [f'context {self.component}', *self.names('extends', kids(root, 'extendsContext'), 'target'), *self.names('sets', kids(root, 'carrierSet')),
                      *self.names('constants', kids(root, 'constant')), *self.labelled('axioms', kids(root, 'axiom'), 'predicate', labels(kids(root, 'axiom')))]
        else:
            lines += [f'machine {self.component}', *self.names('refines', kids(root, 'refinesMachine'), 'target'),
                      *self.names('sees', kids(root, 'seesContext'), 'target'), *self.names('variables', kids(root, 'variable')),
                      *self.labelled('invariants', kids(root, 'invariant'), 'predicate', labels(kids(root, 'invariant'))),
                      *self.variant(kids(root, 'variant')), 'events']
            for event in kids(root, 'event'):
                lines += self.event(event)
        return [*lines, 'end']

    def _unknown(self, element: ET.Element, known: set[str]) -> None:
        for child in element:
            if child.tag.removeprefix(CORE) not in known or not child.tag.startswith(CORE):
                self.made.note(self.component, f'an element {child.tag} is left out')

    def remark(self, element: ET.Element, indent: str) -> list[str]:
        """The comment of an element, on lines of its own."""
        return [f'{indent}// {line.strip()}'.rstrip() for line in attribute(element, 'comment').strip().splitlines()]

    def names(self, word: str, elements: list[ET.Element], key: str = 'identifier', indent: str = '') -> list[str]:
        """A section of names: one line, or a line each where there are comments."""
        if not elements:
            return []
        found = [(self.made.name(self.component, attribute(element, key)), ' '.join(attribute(element, 'comment').split())) for element in elements]
        if not any(comment for _, comment in found):
            return [f'{indent}{word} ' + ' '.join(name for name, _ in found)]
        return [indent + word] + [f'{indent}  {name}' + (f' // {comment}' if comment else '') for name, comment in found]

    def labelled(self, word: str, elements: list[ET.Element], key: str, used: set[str], indent: str = '') -> list[str]:
        """A section of labelled formulas."""
        lines = [indent + word] if elements else []
        for element in elements:
            given, comment = attribute(element, 'label'), ' '.join(attribute(element, 'comment').split())
            if word == 'with':
                name = given.rstrip("'")
                label = self.made.name(self.component, name) + given[len(name):]
            else:
                label = self.made.label(self.component, given, used)
            theorem = 'theorem ' if attribute(element, 'theorem') == 'true' else ''
            formula = self.made.formula(self.component, attribute(element, key))
            lines.append(f'{indent}  {theorem}@{label} {formula}' + (f' // {comment}' if comment else ''))
        return lines

    def variant(self, elements: list[ET.Element]) -> list[str]:
        """The first variant."""
        if len(elements) > 1:
            self.made.note(self.component, f'{len(elements)} variants; only the first is kept')
        return [f'variant {self.made.formula(self.component, attribute(element, "expression"))}' for element in elements[:1]]

    def event(self, event: ET.Element) -> list[str]:
        """An event's lines."""
        self._unknown(event, {'refinesEvent', 'parameter', 'guard', 'witness', 'action'})
        name, convergence = attribute(event, 'label'), {'1': 'convergent ', '2': 'anticipated '}.get(attribute(event, 'convergence'), '')
        refined, extended = [attribute(kid, 'target') for kid in kids(event, 'refinesEvent')], attribute(event, 'extended') == 'true'
        if name == 'INITIALISATION':
            refined = [name] if extended else []
        targets = ' '.join(self.made.name(self.component, target) for target in refined)
        head = f'  {convergence}event {self.made.name(self.component, name)}' + (f' {"extends" if extended else "refines"} {targets}' if targets else '')
        used = labels(kids(event, 'guard'), kids(event, 'witness'), kids(event, 'action'))
        return [*self.remark(event, '  '), head, *self.names('any', kids(event, 'parameter'), indent='    '),
                *self.labelled('where', kids(event, 'guard'), 'predicate', used, '    '), *self.labelled('with', kids(event, 'witness'), 'predicate', used, '    '),
                *self.labelled('then', kids(event, 'action'), 'assignment', used, '    '), '  end']


# What is read.

Found = tuple[str, bytes]
"""A file's stem and its bytes; the stem of statuses ends in `.bps`."""


def _stem(path: pathlib.PurePath) -> str:
    return path.name if path.suffix == '.bps' else path.stem


def files(path: Union[str, pathlib.Path], project: Optional[str] = None) -> Iterator[Found]:
    """The files of a zip, a folder or a file; of several projects that of the name."""
    where = pathlib.Path(path)
    if where.is_dir():
        found = [file for file in sorted(where.rglob('*')) if file.suffix in KINDS]
        for file in chosen(found, project):
            if file.stat().st_size > LARGEST:
                raise Refused(f'{file} is too large')
            yield _stem(file), file.read_bytes()
    elif where.suffix in KINDS:
        yield _stem(where), where.read_bytes()
    else:
        yield from zipped(where, project)


def zipped(source: Union[str, pathlib.Path, IO[bytes]], project: Optional[str] = None) -> Iterator[Found]:
    """Those of a zip, which may be a file object. Paths of an archive serve to tell projects apart alone."""
    try:
        with zipfile.ZipFile(source) as archive:
            found = {pathlib.PurePosixPath(info.filename): info for info in archive.infolist() if info.filename.endswith(KINDS)}
            if any(info.file_size > LARGEST for info in found.values()) or sum(info.file_size for info in found.values()) > WHOLE:
                raise Refused('a file of the archive is too large')
            for path in chosen(list(found), project):
                yield _stem(path), archive.read(found[path])
    except zipfile.BadZipFile as fault:
        raise Refused(f'no archive: {fault}') from fault


def chosen(paths: Sequence[_Path], project: Optional[str]) -> list[_Path]:
    """The paths of one project, which is a folder of files."""
    folders = sorted({str(path.parent) for path in paths if path.suffix != '.bps'})
    if project is None and len(folders) > 1:
        raise Refused('there are several projects: ' + ', '.join(pathlib.PurePath(folder).name for folder in folders))
    return [path for path in paths if project is None or path.parent.name == project]


def collected(found: Iterable[Found]) -> Bring:
    """All that comes of (stem, bytes) pairs."""
    pairs = list(found)
    made = Bring(word for stem, data in pairs for word in [stem, *re.findall('[A-Za-z_][A-Za-z0-9_]*', data.decode('utf-8', 'replace'))])
    for stem, data in pairs:
        component = made.name(stem, stem.removesuffix('.bps'))
        try:
            if stem.endswith('.bps'):
                made.statuses(component, data)
            elif component in made.texts:
                made.note(component, 'a second file of this name was left out', True)
            else:
                made.file(component, data)
        except NoDocument as fault:
            made.note(component, f'is not read: {fault}', not stem.endswith('.bps'))
    return made


def bring(found: Iterable[Found]) -> tuple[dict[str, str], list[str]]:
    """Texts by component, and notes."""
    made = collected(found)
    return made.texts, made.notes


# What is said and written.

def several(count: int, word: str) -> str:
    """A count with its word."""
    return f'{count} {word}' + ('' if count == 1 else 'es' if word.endswith('s') else 's')


def counted(name: str, text: str, counts: Optional[Counts] = None) -> str:
    """A component's line of counts."""
    found = scan.component(text)
    if found is None:
        return f'{name}: {several(text.count(chr(10)), "line")}'
    said = [found.kind]
    for section, word in (('sets', 'set'), ('constants', 'constant'), ('variables', 'variable')):
        said += [several(len(found.names(section)), word)] if found.names(section) else []
    for section, word in (('axioms', 'axiom'), ('invariants', 'invariant')):
        theorems = sum(formula.theorem for formula in found.labelled(section))
        plain = len(found.labelled(section)) - theorems
        said += ([several(plain, word)] if plain else []) + ([several(theorems, 'theorem')] if theorems else [])
    if found.events:
        inside = [several(sum(len(event.labelled(section)) for event in found.events), word)
                  for section, word in (('where', 'guard'), ('with', 'witness'), ('then', 'action'))]
        said.append(several(len(found.events), 'event') + f' ({", ".join(inside)})')
    if counts:
        said.append(f'in Rodin {several(counts.all, "obligation")}, {counts.discharged} discharged, {counts.reviewed} reviewed')
    return f'{name}: ' + ', '.join(said)


def into(path: str, folder: str, project: Optional[str] = None, over: bool = False) -> Iterator[str]:
    """Writes a project's texts into a folder; the lines that tell it. Raises `Refused` where a file is there already, before anything is written."""
    made = collected(files(path, project))
    yield from write(made, folder, over)


def write(made: Bring, folder: str, over: bool = False) -> list[str]:
    """Writes texts into a folder, each into a file of its own; the lines that tell it."""
    where = pathlib.Path(folder)
    there = sorted(name for name in made.texts if (where / f'{name}{texts.SUFFIX}').exists())
    if there and not over:
        raise Refused(f'the folder has {", ".join(name + texts.SUFFIX for name in there)} already')
    for name, text in made.texts.items():
        texts.write(str(where / f'{name}{texts.SUFFIX}'), text)
    return made.notes + [counted(name, text, made.counts.get(name)) for name, text in sorted(made.texts.items())]


def main(words: Optional[Sequence[str]] = None) -> int:
    """The command line."""
    parser = argparse.ArgumentParser(prog='rodin-import', description=__doc__, formatter_class=argparse.RawDescriptionHelpFormatter)
    parser.add_argument('files', nargs='+', metavar='FILE', help='.zip, .buc, .bum, or a folder with such files')
    parser.add_argument('--to', default='.', metavar='FOLDER', help='where the texts are written; this folder if not given')
    parser.add_argument('--project', metavar='NAME', help='which of several projects')
    parser.add_argument('--over', action='store_true', help='write over files that are there')
    given = parser.parse_args(words)
    try:
        pathlib.Path(given.to).mkdir(parents=True, exist_ok=True)
        made = collected(pair for file in given.files for pair in files(file, given.project))
        for line in write(made, given.to, given.over):
            print(line)
    except (OSError, Refused) as fault:
        print(f'rodin-import: {fault}', file=sys.stderr)
        return 3
    if not made.texts:
        print('rodin-import: no .buc and no .bum found', file=sys.stderr)
    return 1 if made.failed or not made.texts else 0
