"""A folder's components in a session: texts sent, faults, statuses, and what changed, for all doors.

The files are the texts; the session keeps its own copies, and the statuses are those of the texts of the last build. At the start every
text is sent, so that what is shown is what is built; later only what changed. All talk goes over the engine.

What a reply says is taken in the thread of the engine, in the order of the session, whoever asked: so no status shown is older than the
session's last word. Between a `build` and the `status` behind it `fresh` is false.
"""
from __future__ import annotations

import hashlib
import os
import struct
import threading
import time
from typing import Any, Callable, Optional

from . import journal, replies, texts
from .commands import Refused, edit, word
from .engine import EDIT, LOOK, SWEEP, USER, Ended, Engine, Lost, Reply

Listener = Callable[[str, Any], None]
Entry = dict[str, Any]
"""Of the log: `n`, `at`, `sent`, `reply`, `seconds`, `quiet`."""

LOG, LOG_SIZE = 2000, 8_000_000
"""Entries that are kept, and their characters."""

PATIENCE = 10
"""Looks in which nothing changed, behind which what the workers left is tried once more, to know that it was tried."""

DROPPED = '.rodin-dropped'
"""The folder of texts that the project had, and no file."""

ORIGINS = {'step': 'user', 'review': 'user', 'prune': 'user', 'auto': 'prover', 'show': ''}
"""Commands whose answer says the status of one obligation, and who made its proof then."""


class Project:
    """`listener(event, data)` hears, in the engine's thread but for `idle`, `tried`, `trouble` and `ended`:

    | event | data |
    |---|---|
    | `built` | the reply's line |
    | `faults` | the faults by component |
    | `statuses` | (changed: name to status, gone: names, the order of all names where it changed, else None) |
    | `tried` | an obligation of which the prover found no proof |
    | `idle` | counts by status: nothing is left to try |
    | `log` | an entry of the log |
    | `trouble` | words: the folder can't be read, or the session lost a command; it is tried again |
    | `ended` | the last line of the session, which isn't begun again |
    """

    def __init__(self, path: str, workers: int = 2, program: Optional[str] = None, listener: Optional[Listener] = None) -> None:
        self.listeners: list[Listener] = [listener] if listener else []
        self.folder, self.workers = texts.Folder(path), workers
        self.sent: dict[str, str] = {}
        self.turned: dict[str, tuple[str, str]] = {}
        self.told: dict[str, replies.Fault] = {}
        self.extra: dict[str, replies.Fault] = {}
        self.warnings: list[tuple[str, str]] = []
        self.statuses: dict[str, replies.Status] = {}
        self.built, self.fresh, self.builds, self.version, self.count = '', True, 0, 0, 0
        self.tried: dict[str, str] = {}
        self.known: dict[str, str] = {}
        self.held: set[str] = set()
        self.calm = 0.0
        # `sent`: what the session took; `turned`: what it refused, with its words. `held`: what a user has in hand, which is not tried unasked.
        # `calm`: until when nothing is tried unasked, by the monotonic clock: somebody types, and a save is to come.
        # `tried`: what the prover found no proof of, with a hash of the sequent, since the last build; `known`: the same before it.
        self.files, self.lock, self.stop = threading.RLock(), threading.RLock(), threading.Event()
        self.resting, self.noticed = False, threading.Event()
        self.logged: list[Entry] = []
        self.logged_size = 0
        self.journal = journal.Journal(path)
        self.engine = Engine(path, workers, program, self._log)

    def tell(self, event: str, data: Any) -> None:
        """Calls the listeners."""
        for listener in list(self.listeners):
            listener(event, data)

    # What the session says, in its order.

    def _log(self, sent: str, reply: Reply, seconds: float, rank: int) -> None:
        quiet = sent == 'status' or rank in (LOOK, SWEEP)
        self.count += 1
        entry: Entry = {'n': self.count, 'at': time.strftime('%H:%M:%S'), 'sent': sent, 'reply': reply[-1:] if sent == 'status' else reply,
                        'seconds': round(seconds, 3), 'quiet': quiet}
        self.logged.append(entry)
        self.logged_size += _size(entry)
        while len(self.logged) > LOG or self.logged_size > LOG_SIZE and len(self.logged) > 1:
            self.logged_size -= _size(self.logged.pop(0))
        self._hear(sent, reply)
        self.tell('log', entry)

    def _hear(self, sent: str, reply: Reply) -> None:
        if not reply or replies.refusal(reply):
            return
        what = word(sent)
        if what == 'status':
            self._take(replies.statuses(reply))
            self.fresh = True
        elif what == 'build':
            self.built, self.fresh, self.builds = reply[-1], False, self.builds + 1
            self.known, self.tried, self.resting = {**self.known, **self.tried}, {}, False
            self.tell('built', self.built)
        elif what == 'faults':
            self.told, self.warnings = replies.faults(reply)
            self.tell('faults', self.faults)
        elif what in ORIGINS and self.fresh:
            told = replies.attempted(reply) if what == 'auto' else None
            found = replies.status(f'{told[1]} {told[2]}' if told else reply[0])
            if found:
                self._one(found[0], found[1][0], ORIGINS[what] if told is None or told[0] == 'stored' else '')

    def _one(self, name: str, status: str, origin: str) -> None:
        """A status that was said of one obligation; without an origin the one that is known stands."""
        before = self.statuses.get(name)
        if before is None or not origin and before[0] == status:
            return
        value = (status, '' if status == 'unattempted' else origin or before[1])
        if before != value:
            self.statuses = {**self.statuses, name: value}
            self.version += 1
            self.tell('statuses', ({name: value}, [], None))

    def _take(self, found: dict[str, replies.Status]) -> None:
        before = self.statuses
        changed = {name: value for name, value in found.items() if before.get(name) != value}
        gone = [name for name in before if name not in found]
        self.statuses = found
        if changed or gone:
            self.version += 1
            self.tell('statuses', (changed, gone, list(found) if list(found) != list(before) else None))

    # Texts.

    @property
    def faults(self) -> dict[str, replies.Fault]:
        """The session's faults by component, and what couldn't be given to it."""
        return {**self.told, **self.extra}

    def sync(self, patient: bool = True) -> bool:
        """Reads the folder and sends what differs from what was sent; builds where something did. True if it built.

        A text that the session refuses is taken out of it, so that no obligation of an older text is shown.
        """
        with self.lock:
            with self.files:
                self.folder.look(patient)
                now = {name: part.text for name, (_, part) in self.folder.components().items()}
                unsent = self._unsent()
            lone = [] if self.built else self._without_files(now)
            new = {name: text for name, text in now.items() if self.sent.get(name) != text and self.turned.get(name, ('', ''))[0] != text}
            gone = sorted(((self.sent.keys() | self.turned.keys()) - now.keys()).union(lone))
            if new or gone or not self.built:
                self._send(new, gone, unsent)
            elif self._all_extra(unsent) != self.extra:
                self.extra = self._all_extra(unsent)
                self.tell('faults', self.faults)
            return bool(new or gone)

    def _without_files(self, now: dict[str, str]) -> list[str]:
        """At the start: components that the session has from before, and no file has. They are dropped, and their texts kept aside; but where the
        folder has no file at all, they are written as files. `now` is completed by these."""
        self.engine.ask('status', EDIT)
        try:
            lone = {name: text for name, text in self.journal.read()[0].items() if name not in now}
        except (LookupError, ValueError, struct.error) as fault:
            self.tell('trouble', f'the files of the session are not read: {fault!r}')
            return []
        if lone and not self.folder.files():
            with self.files:
                for name, text in lone.items():
                    self.folder.put(name, text)
                self.folder.look(patient=False)
            now.update(lone)
            self.tell('trouble', f'no text was here: {", ".join(lone)} written as files')
            return []
        for name, text in lone.items():
            os.makedirs(os.path.join(self.folder.path, DROPPED), exist_ok=True)
            texts.write(os.path.join(self.folder.path, DROPPED, f'{name}{texts.SUFFIX}'), text)
            self.tell('trouble', f'no file has {name}: dropped; its text is kept in {DROPPED}')
        return sorted(lone)

    def _unsent(self) -> dict[str, replies.Fault]:
        """Faults of the folder: files that can't be read, and second texts of a name."""
        told = [(file[:-len(texts.SUFFIX)], f'{file}: {why}') for file, why in self.folder.bad.items()]
        told += [(part.name, f'a second text of this name stands in {file}') for file, part in self.folder.twice()]
        return {name: replies.Fault(name, 0, 1, 1, words) for name, words in told}

    def _all_extra(self, unsent: dict[str, replies.Fault]) -> dict[str, replies.Fault]:
        """What couldn't be given to the session: faults of the folder, and texts that it refused."""
        return {**unsent, **{name: replies.Fault(name, 0, 1, 1, why) for name, (_, why) in self.turned.items()}}

    def _send(self, new: dict[str, str], gone: list[str], unsent: dict[str, replies.Fault]) -> None:
        """Edits, deletions and a build, as one request."""
        kept = {name: turned for name, turned in self.turned.items() if name not in new and name not in gone}
        self.extra = {name: fault for name, fault in self._all_extra(unsent).items() if name in unsent or name in kept}
        commands = [edit(name, text) for name, text in new.items()] + [f'delete {name}' for name in gone]
        said = self.engine.send(commands + ['build', 'faults', 'status'], EDIT).result()
        words = {name: replies.refusal(reply) for name, reply in zip(new, said)}
        refused = {name: why for name, why in words.items() if why}
        self.sent = {name: text for name, text in {**self.sent, **new}.items() if name not in refused and name not in gone}
        self.turned = {**kept, **{name: (new[name], why) for name, why in refused.items()}}
        if refused:
            self.extra = self._all_extra(unsent)
            said = self.engine.send([f'delete {name}' for name in refused] + ['build', 'faults', 'status'], EDIT).result()
        if replies.refusal(said[-3]):
            self.built = said[-3][0]
            self.tell('built', self.built)
        self.noticed.set()

    def save(self, name: str, text: str) -> None:
        """Writes a component's file and syncs. Saves that come while one is built are built together."""
        if '\x00' in text or any('\ud800' <= sign <= '\udfff' for sign in text):
            raise Refused('the text has a character that no file can keep')
        with self.files:
            self.folder.look()
            self.folder.put(name, text)
        self.sync()

    def drop(self, name: str) -> None:
        """Takes a component out of its file and syncs."""
        with self.files:
            self.folder.look()
            self.folder.drop(name)
        self.sync()

    # Statuses.

    def refresh(self, rank: int = LOOK) -> bool:
        """Asks for the statuses; true if something changed meanwhile."""
        before = self.version
        self.engine.ask('status', rank)
        return self.version != before

    def left(self) -> list[str]:
        """What is still to be tried unasked: unattempted or broken, not tried with its present sequent, and in no user's hand."""
        return [n for n, (s, _) in self.statuses.items() if s in ('unattempted', 'broken') and n not in self.tried and n not in self.held]

    def open_ones(self, reviewed: bool = False) -> list[str]:
        """Names that aren't discharged (nor, unless asked, reviewed)."""
        return [n for n, (s, _) in self.statuses.items() if s != 'discharged' and (reviewed or s != 'reviewed')]

    def ask(self, command: str, rank: int = USER) -> Reply:
        """A command of the user; the statuses are asked for behind it."""
        return self.engine.send([command, 'status'], rank).result()[0]

    # What keeps the views fresh, beside the user.

    def mind(self, folder: bool = True, sweep: bool = True, every: float = 0.3) -> None:
        """Until `stop`: looks at the folder, at the statuses while workers change them, and has `auto` try what stays open.

        `auto` tries one obligation a request, so whatever the user does waits for one attempt at most. What it noted is remembered with
        the sequent, and not tried again while that stays. Where all is tried it says `idle`, and asks seldom.
        """
        state = _Minding()
        while not self.stop.is_set():
            try:
                if self._look(state, folder, sweep):
                    continue
            except Ended as fault:
                if not self.stop.is_set():
                    self.tell('ended', str(fault))
                return
            except (Refused, OSError) as fault:
                if str(fault) != state.trouble:
                    self.tell('trouble', str(fault))
                state.trouble = str(fault)
            self.noticed.wait(every)
            self.noticed.clear()

    def _look(self, state: '_Minding', folder: bool, sweep: bool) -> bool:
        """One look; true where the next one shouldn't wait."""
        if folder and self.sync():
            state.quiet = 0
        state.trouble = ''
        changed = self.refresh() if not self.resting or state.quiet % 10 == 0 else False
        state.quiet = 0 if changed else state.quiet + 1
        left = self.left() if sweep else []
        if left:
            self.resting = False
        if left and time.monotonic() >= self.calm and (state.quiet >= PATIENCE or self.workers == 0):
            state.turn = state.turn + 1 if self.workers else 0
            if self._attempt(left[-1 - state.turn % len(left)] if self.workers else left[0]):
                return True
        if not left and not self.resting:
            self.resting = True
            self.tell('idle', replies.summary(self.statuses))
        return False

    def settle(self) -> None:
        """Has all tried that is left, one after another, also what a worker has in hand."""
        while self.left() and not self.stop.is_set():
            found = [self._attempt(name) for name in self.left()]
            if not any(found):
                self.stop.wait(0.1)
                self.refresh()

    def _attempt(self, name: str) -> bool:
        """Has the prover try one obligation; false where a worker has it in hand."""
        shown = self.engine.ask(f'show {name}', SWEEP)
        if replies.refusal(shown):
            self.refresh()
            return True
        sequent, builds = hashlib.sha256('\n'.join(shown[1:]).encode()).hexdigest(), self.builds
        if self.known.get(name) == sequent:
            self._note(name, sequent, builds)
            return True
        try:
            found = replies.attempted(self.engine.ask(f'auto {name}', SWEEP))
        except Lost:
            self._note(name, sequent, builds)  # what a session died over isn't tried again unasked
            raise
        if found and found[0] in ('noted', 'no memory', 'refused'):
            self._note(name, sequent, builds)
        self.refresh()
        return found is not None

    def _note(self, name: str, sequent: str, builds: int) -> None:
        """Notes what was tried, unless something was built meanwhile."""
        tried = self.tried
        if self.builds == builds:
            tried[name] = sequent
            self.tell('tried', name)

    def close(self) -> None:
        """Ends the looks and the session."""
        self.stop.set()
        self.noticed.set()
        self.engine.close()


def _size(entry: Entry) -> int:
    """The characters of an entry."""
    return len(entry['sent']) + sum(map(len, entry['reply']))


class _Minding:
    """How long nothing changed, whose turn it is, and what was wrong last."""

    def __init__(self) -> None:
        self.quiet, self.turn, self.trouble = 0, 0, ''
