"""`rodin-watch FOLDER`: the user's own editor; each save is built, faults and changed statuses are printed as they come.

Faults are printed as FILE:LINE:COLUMN: text, with the folder as it was given before the file's name, warnings with `warning: ` before
the text. `--once` builds and proves once, in a copy of the texts, and ends: 0 all is discharged, 1 a fault, 2 something isn't discharged
(or with --reviewed neither discharged nor reviewed), 3 the program or the folder failed.
"""
from __future__ import annotations

import argparse
import os
import shutil
import signal
import sys
import tempfile
import threading
import time
from typing import Any, NamedTuple, Optional, Sequence, TextIO

from . import proofs, replies, report, texts
from .commands import Refused
from .engine import Ended
from .project import Project

LONG = 10.0
"""Seconds without an answer of which the watcher speaks."""

PAINT = {'discharged': 32, 'reviewed': 34, 'pending': 33, 'broken': 31}
ELSEWHERE = {'project: disk fault': ' (the disk failed, or another session is open in the folder)'}


def ended(fault: Exception) -> str:
    """The words for a session that can't go on."""
    return f'the session ended: {fault}{ELSEWHERE.get(str(fault), "")}'


class Printer:
    """A listener that prints what changed. What is unattempted from the start isn't printed."""

    def __init__(self, out: TextIO, colour: bool) -> None:
        self.out, self.colour = out, colour
        self.project: Optional[Project] = None
        self.shown: dict[str, replies.Status] = {}

    def say(self, line: str) -> None:
        """One line."""
        print(line, file=self.out, flush=True)

    def painted(self, status: str) -> str:
        """A status in its colour."""
        return f'\x1b[{PAINT.get(status, 90)}m{status}\x1b[0m' if self.colour else status

    def __call__(self, event: str, data: Any) -> None:
        if event == 'built':
            self.say(data)
        elif event == 'faults' and self.project:
            lines = report.fault_lines(self.project)
            for line in lines:
                self.say(line)
            self.say(f'checked: {len(self.project.faults)} faults, {len(lines) - len(self.project.faults)} warnings')
        elif event == 'statuses':
            self.statuses(*data)
        elif event == 'idle' and self.project:
            self.say('idle: ' + (', '.join(f'{v} {k}' for k, v in data.items() if v) or 'no obligations'))
            for name in self.project.open_ones():
                self.say(f'  open: {name} {self.project.statuses[name][0]}')
        elif event == 'trouble':
            self.say(f'trouble: {data}')
        elif event == 'ended':
            self.say(ended(Ended(data)))

    def statuses(self, changed: dict[str, replies.Status], gone: list[str], _: Optional[list[str]]) -> None:
        """What changed; what is gone, by component."""
        for component in dict.fromkeys(map(replies.component_of, gone)):
            names = [name for name in gone if replies.component_of(name) == component]
            self.say(f'{names[0]} gone' if len(names) == 1 else f'{component}: {len(names)} obligations gone')
        for name in gone:
            self.shown.pop(name, None)
        for name, value in changed.items():
            before = self.shown.get(name)
            self.shown[name] = value
            if value[0] != 'unattempted' or before is not None:
                self.say(f'{name} {self.painted(value[0])}' + (f' ({value[1]})' if value[1] else '') + (f', was {before[0]}' if before else ''))


class Once(NamedTuple):
    """What `--once` is asked for."""
    folder: str
    workers: int = 2
    proofs: Sequence[str] = ()
    reviewed: bool = False
    junit: Optional[str] = None
    html: Optional[str] = None
    keep: bool = False


def once(asked: Once, out: TextIO = sys.stdout) -> int:
    """Builds and proves in a folder of its own (or, with `keep`, in the project's), and returns the exit status."""
    room = asked.folder if asked.keep else tempfile.mkdtemp()
    try:
        if not asked.keep:
            for file in texts.Folder(asked.folder).files():
                shutil.copy(os.path.join(asked.folder, file), room)
        project = Project(room, asked.workers)
        try:
            return _once(project, asked, out)
        finally:
            project.close()
    except Ended as fault:
        print(ended(fault), file=out)
        return 3
    except (OSError, Refused) as fault:
        print(f'rodin-watch: {fault}', file=out)
        return 3
    finally:
        if not asked.keep:
            shutil.rmtree(room, ignore_errors=True)


def _once(project: Project, asked: Once, out: TextIO) -> int:
    begun = time.monotonic()
    project.folder.prefix = texts.prefix(asked.folder)
    project.sync(patient=False)
    for file in asked.proofs:
        for line, words in proofs.replay(project.engine, texts.read(file).splitlines()):
            print(f'{file}: refused: {words}: {line}', file=out)
    project.engine.ask('wait')
    project.refresh()
    for line in report.fault_lines(project):
        print(line, file=out)
    for name in project.open_ones(reviewed=True):
        print(f'{name} {project.statuses[name][0]}', file=out)
    print(report.counted(project), file=out)
    if asked.junit:
        texts.write(asked.junit, report.junit(project, time.monotonic() - begun))
    if asked.html:
        texts.write(asked.html, report.page(project))
    if not project.folder.files():
        print(f'rodin-watch: no file of {asked.folder} ends in {texts.SUFFIX}', file=out)
        return 3
    if project.faults:
        return 1
    return 2 if project.open_ones(reviewed=not asked.reviewed) else 0


def patience(project: Project, hear: Printer, stop: threading.Event) -> None:
    """Says once of each command that the session hasn't answered for long: it proves, or it is stopped. What waits behind it is sent then."""
    told = ''
    while not stop.wait(1.0):
        command, seconds = project.engine.at_work, project.engine.silent()
        if command and seconds > LONG and command != told:
            hear.say(f'no answer for {seconds:.0f} s: {command}')
        told = command if seconds > LONG else ''


def watch(folder: str, workers: int, sweep: bool, out: TextIO) -> int:
    """Prints what changes until it is interrupted, or the session can't go on."""
    hear = Printer(out, out.isatty())
    try:
        project = hear.project = Project(folder, workers)
    except Ended as fault:
        print(f'rodin-watch: {fault}', file=sys.stderr)
        return 3
    project.folder.prefix = texts.prefix(folder)
    project.listeners.append(hear)
    stop = threading.Event()
    threading.Thread(target=patience, args=(project, hear, stop), daemon=True).start()
    try:
        project.mind(every=0.2, sweep=sweep)
    except KeyboardInterrupt:
        pass
    stop.set()
    project.close()
    return 3 if project.engine.ended not in (None, 'closed') else 0


def main(words: Optional[Sequence[str]] = None) -> int:
    """The command line."""
    parser = argparse.ArgumentParser(prog='rodin-watch', description=__doc__, formatter_class=argparse.RawDescriptionHelpFormatter)
    parser.add_argument('folder')
    parser.add_argument('--workers', type=int, default=2, help='how many provers work beside you, 0 to 8; 2 if not given')
    parser.add_argument('--no-prover', action='store_true', help='no workers, and nothing is tried unasked')
    parser.add_argument('--once', action='store_true')
    parser.add_argument('--keep', action='store_true', help='with --once: use the proofs stored in the folder, and store there')
    parser.add_argument('--proofs', action='append', default=[], metavar='FILE', help='with --once: lines of proofs (rodin-export) to replay first')
    parser.add_argument('--reviewed', action='store_true', help='with --once: reviewed is enough')
    parser.add_argument('--junit', metavar='FILE', help='with --once: a JUnit report')
    parser.add_argument('--html', metavar='FILE', help='with --once: an HTML report')
    given = parser.parse_args(words)
    if not os.path.isdir(given.folder):
        print(f'rodin-watch: {given.folder} is no folder', file=sys.stderr)
        return 3
    signal.signal(signal.SIGTERM, signal.default_int_handler)
    if given.once:
        return once(Once(given.folder, given.workers, given.proofs, given.reviewed, given.junit, given.html, given.keep))
    return watch(given.folder, 0 if given.no_prover else given.workers, not given.no_prover, sys.stdout)
