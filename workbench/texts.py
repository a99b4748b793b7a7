"""Component texts in a folder: `*.eventb`, one component a file or several one behind another.

A heading is what `rodin check` takes for one: a line that begins in column 1 with `context` or `machine`, blanks and a name. The
first component has what stands before its heading, too. A file without a heading is one component by the name of the file.
"""
from __future__ import annotations

import os
import re
import time
from typing import NamedTuple, Optional

HEADING = re.compile(r"^(?:context|machine)[ \t\xa0]+([A-Za-z_][A-Za-z0-9_]*)(?![A-Za-z0-9_'])", re.M)
NAME = re.compile(r'[A-Za-z_][A-Za-z0-9_]{0,63}')
BOM = '\ufeff'
SUFFIX = '.eventb'
YOUNG = 0.25
"""Seconds for which a file that is empty or isn't UTF-8 is taken for half written, and looked at again."""


class Part(NamedTuple):
    """A component's name, its text, and the line of the file at which it begins, from 1."""
    name: str
    text: str
    line: int


class Warn(NamedTuple):
    """Something about a text that is no fault: a place in a file, and words."""
    file: str
    line: int
    column: int
    text: str


def parts(text: str, otherwise: str) -> list[Part]:
    """The components of a file's text."""
    found = list(HEADING.finditer(text))
    if not found:
        return [Part(otherwise, text, 1)]
    starts = [0] + [m.start() for m in found[1:]] + [len(text)]
    return [Part(m[1], text[a:b], text.count('\n', 0, a) + 1) for m, a, b in zip(found, starts, starts[1:])]


def read(path: str) -> str:
    """The text of a file; other line ends are kept, so that columns stay what the editor counts."""
    with open(path, encoding='utf-8', newline='') as file:
        return file.read()


def write(path: str, text: str) -> None:
    """Replaces a file in one step, so that a reader sees the old text or the new one."""
    beside = f'{path}.{os.getpid()}.new'
    try:
        with open(beside, 'w', encoding='utf-8', newline='') as file:
            file.write(text)
        os.replace(beside, path)
    except BaseException:
        if os.path.exists(beside):
            os.remove(beside)
        raise


def prefix(folder: str) -> str:
    """What stands before a file's name where it is printed: the folder as the user gave it, so that editors find the file."""
    return '' if os.path.normpath(folder) == os.curdir else os.path.join(folder, '')


class Folder:
    """The `*.eventb` files of a folder, read again where size, time or inode changed.

    `bad` has what can't be taken, by file: bytes that aren't UTF-8, no heading and no name. `marked` has the files with a byte order mark,
    which isn't sent. `prefix` is printed before the names of files.
    """

    def __init__(self, path: str) -> None:
        self.path, self.prefix = path, ''
        self.seen: dict[str, tuple[int, int, int]] = {}
        self.read: dict[str, list[Part]] = {}
        self.bad: dict[str, str] = {}
        self.marked: set[str] = set()

    def files(self) -> list[str]:
        """The names of the files, sorted."""
        return sorted(name for name in os.listdir(self.path) if name.endswith(SUFFIX) and not name.startswith('.'))

    def look(self, patient: bool = True) -> bool:
        """Reads what changed; true if something did. Unless patient it takes a file that looks half written, too.

        A folder that is gone raises `OSError`.
        """
        now: dict[str, tuple[int, int, int]] = {}
        for name in self.files():
            try:
                stat = os.stat(os.path.join(self.path, name))
            except FileNotFoundError:
                continue
            now[name] = (stat.st_mtime_ns, stat.st_size, stat.st_ino)
        changed = False
        for name in [name for name in now if now[name] != self.seen.get(name)]:
            if self._take(name, patient and abs(time.time() - now[name][0] / 1e9) < YOUNG):
                self.seen[name], changed = now[name], True
        for name in set(self.seen) - set(now):
            changed = True
            del self.seen[name]
            self._forget(name)
        return changed

    def _forget(self, name: str) -> None:
        self.read.pop(name, None)
        self.bad.pop(name, None)
        self.marked.discard(name)

    def _take(self, name: str, young: bool) -> bool:
        """Reads a file; false where it looks half written."""
        try:
            text, why = read(os.path.join(self.path, name)), ''
        except FileNotFoundError:
            return False
        except UnicodeDecodeError as fault:
            text, why = '', f'not UTF-8 at byte {fault.start}'
        except OSError as fault:
            text, why = '', fault.strerror or str(fault)
        if young and not text:
            return False
        self._forget(name)
        if text.startswith(BOM):
            self.marked.add(name)
            text = text[1:]
        found = parts(text, name[:-len(SUFFIX)])
        if not why and not all(NAME.fullmatch(part.name) for part in found):
            why = 'a name has more than 64 letters' if HEADING.search(text) else 'no heading, and the name of the file is no name'
        if why:
            self.bad[name] = why
        else:
            self.read[name] = found
        return True

    def components(self) -> dict[str, tuple[str, Part]]:
        """From name to (file, part). Of two parts of one name the first file's counts; `twice` tells the others."""
        found: dict[str, tuple[str, Part]] = {}
        for file in sorted(self.read):
            for part in self.read[file]:
                found.setdefault(part.name, (file, part))
        return found

    def twice(self) -> list[tuple[str, Part]]:
        """Parts whose name stands in an earlier part, as (file, part)."""
        first = {id(part) for _, part in self.components().values()}
        return [(file, part) for file in sorted(self.read) for part in self.read[file] if id(part) not in first]

    def warnings(self) -> list[Warn]:
        """Byte order marks, and names that begin as the end marks of the engine do."""
        found = [Warn(file, 1, 1, 'a byte order mark stands here: rodin check takes it for a bad sign') for file in sorted(self.marked)]
        found += [Warn(file, part.line, 1, 'names that begin with "_end_" are kept for end marks')
                  for _, (file, part) in sorted(self.components().items()) if part.name.startswith('_end_')]
        return found

    def put(self, name: str, text: str) -> None:
        """Writes a component's text into its file, or into a new one; the name is a name of the language, so it is no path."""
        if not NAME.fullmatch(name):
            raise ValueError('the name of a component is an ASCII word of at most 64 letters')
        file, part = self.components().get(name, (self.unused(name), None))
        path = os.path.join(self.path, file)
        if part is None or len(self.read[file]) == 1:
            write(path, text)
        else:
            write(path, ''.join(text if other is part else other.text for other in self.read[file]))

    def unused(self, name: str) -> str:
        """A file name for a new component, which no file has, whatever the case of its letters."""
        taken, file, n = {found.lower() for found in os.listdir(self.path)}, f'{name}{SUFFIX}', 2
        while file.lower() in taken and file not in self.bad:
            file, n = f'{name}_{n}{SUFFIX}', n + 1
        return file

    def drop(self, name: str) -> None:
        """Takes a component out of its file, and the file away where nothing is left."""
        file, part = self.components()[name]
        rest = ''.join(other.text for other in self.read[file] if other is not part)
        path = os.path.join(self.path, file)
        if rest.strip():
            write(path, rest)
        else:
            os.remove(path)

    def place(self, name: str, line: int) -> tuple[str, int]:
        """File and line of a component's line."""
        file, part = self.components().get(name, (name, Part(name, '', 1)))
        return file, part.line + line - 1

    def text(self, name: str) -> Optional[str]:
        """The text of a component, or None."""
        found = self.components().get(name)
        return found[1].text if found else None
