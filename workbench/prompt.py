"""`rodin-shell [FOLDER]`: a prompt on a folder of texts, with a current obligation and a current leaf. `help` lists its words."""
from __future__ import annotations

import argparse
import os
import sys
import threading
from typing import Any, Iterator, Optional, Sequence

from . import report
from .commands import Refused
from .completion import Completer
from .engine import Ended
from .project import Project
from .replies import summary
from .shell import Shell
from .texts import prefix
from .watch import ended

HISTORY = os.path.join('~', '.rodin_shell_history')


def with_readline(shell: Shell) -> None:
    """Completion and a history, where Python has readline."""
    try:
        import readline  # pylint: disable=import-outside-toplevel
    except ImportError:
        return
    completer, kept = Completer(shell), list[str]()

    def complete(text: str, n: int) -> Optional[str]:
        if n == 0:
            try:
                kept[:] = completer.offers(readline.get_line_buffer()[:readline.get_endidx()], text)
            except Exception:  # pylint: disable=broad-except
                kept.clear()
        return kept[n] if n < len(kept) else None

    def show(_: str, matches: Sequence[str], __: int) -> None:
        print()
        for match in matches:
            print(completer.shown.get(match, match))
        print(readline.get_line_buffer(), end='', flush=True)
        redraw()

    def redraw() -> None:
        readline.redisplay()
    readline.set_completer_delims(' ')
    readline.set_completer(complete)
    readline.parse_and_bind('tab: complete')
    if hasattr(readline, 'set_completion_display_matches_hook'):
        readline.set_completion_display_matches_hook(show)
    try:
        readline.read_history_file(os.path.expanduser(HISTORY))
    except OSError:
        pass
    readline.set_history_length(1000)


def keep_history() -> None:
    """Writes the history."""
    try:
        import readline  # pylint: disable=import-outside-toplevel
        readline.write_history_file(os.path.expanduser(HISTORY))
    except (ImportError, OSError):
        pass


class Prompt:
    """Reads lines, prints what they say, and what changed meanwhile."""

    def __init__(self, project: Project, tty: bool) -> None:
        self.project, self.shell, self.tty = project, Shell(project, alone=not tty), tty
        self.told = 0
        project.listeners.append(self.hear)

    @staticmethod
    def hear(event: str, data: Any) -> None:
        """Prints what went wrong beside the user."""
        if event == 'trouble':
            print(f'? {data}', flush=True)

    def where(self) -> str:
        """What stands before the user's line."""
        if not self.tty:
            return ''
        proof = self.shell.proof
        return f'{proof.name} {proof.leaf or "✓"}> ' if proof else 'rodin> '

    def news(self) -> Iterator[str]:
        """A line where statuses changed since the last one."""
        if self.tty and self.project.version != self.told:
            self.told = self.project.version
            yield '[' + ', '.join(f'{count} {status}' for status, count in summary(self.project.statuses).items() if count) + ']'

    def say(self, line: str) -> None:
        """Prints what a line says."""
        try:
            for said in self.shell.lines(line):
                print(said, flush=True)
        except (Refused, ValueError, IndexError, OSError, KeyError) as fault:
            print(f'? {fault}', flush=True)
        except KeyboardInterrupt:
            print('\n? interrupted: what was sent goes on', flush=True)

    def look(self) -> None:
        """Sends what was saved meanwhile, and tells what was built."""
        try:
            if self.project.sync():
                print('\n'.join([self.project.built, *report.fault_lines(self.project)]), flush=True)
        except (Refused, OSError) as fault:
            print(f'? {fault}', flush=True)
        except KeyboardInterrupt:
            print('\n? interrupted: what was sent goes on', flush=True)

    def run(self) -> int:
        """Until `quit`, the end of the input, or the end of the session."""
        try:
            self.say('load')
            while not self.shell.over:
                for line in self.news():
                    print(line)
                try:
                    line = input(self.where())
                except KeyboardInterrupt:
                    print()
                    continue
                except EOFError:
                    break
                self.look()
                self.say(line)
        except Ended as fault:
            print(ended(fault))
            return 3
        return 0


def main(words: Optional[Sequence[str]] = None) -> int:
    """The command line."""
    parser = argparse.ArgumentParser(prog='rodin-shell', description=__doc__)
    parser.add_argument('folder', nargs='?', default='.')
    parser.add_argument('--workers', type=int, default=2, help='how many provers work beside you, 0 to 8; 2 if not given')
    parser.add_argument('--no-prover', action='store_true', help='no workers, and nothing is tried unasked')
    given = parser.parse_args(words)
    if not os.path.isdir(given.folder):
        print(f'rodin-shell: {given.folder} is no folder', file=sys.stderr)
        return 3
    try:
        project = Project(given.folder, 0 if given.no_prover else given.workers)
    except Ended as fault:
        print(f'rodin-shell: {fault}', file=sys.stderr)
        return 3
    project.folder.prefix = prefix(given.folder)
    tty = sys.stdin.isatty()
    prompt = Prompt(project, tty)
    if tty:
        with_readline(prompt.shell)
        threading.Thread(target=project.mind, kwargs={'folder': False, 'sweep': not given.no_prover}, daemon=True).start()
    try:
        return prompt.run()
    finally:
        if tty:
            keep_history()
        project.close()
