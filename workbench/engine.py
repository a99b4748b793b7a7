"""One `rodin session`, one writer to it, and each command's reply told apart from the next one's.

The session prints no prompt. Behind each command the engine writes `show _end_NONCE/K/END`, an obligation that no project has, and
the reply of a command is what comes before `refused: no obligation _end_NONCE/K/END`. The mark weighs nothing in the session and
asks nothing of the disk; NONCE is drawn anew for each start and K counts up, so that no reply is taken for another one's.

Requests wait in order of rank, then of arrival. A request is a list of commands that nothing comes between. What may take long
(`auto`) is a request of its own with the lowest rank, and `wait` is never sent beside a user: an edit waits for one attempt at most.

A session that was full, or that died, is begun anew, and what wasn't answered is sent again. A command of which only the answer was
lost is then refused where it can't be done twice, so nothing is done twice. What was answered is kept by the session itself.
"""
from __future__ import annotations

import heapq
import itertools
import os
import queue
import secrets
import subprocess
import threading
import time
import traceback
from collections import deque
from concurrent.futures import Future
from typing import Callable, NamedTuple, Optional, Sequence

from .commands import Refused, edit, encoded, raw

__all__ = ['EDIT', 'USER', 'LOOK', 'SWEEP', 'Ended', 'Engine', 'Lost', 'Refused', 'Reply', 'edit', 'raw']

EDIT, USER, LOOK, SWEEP = range(4)
"""Ranks: texts first, then what the user asked, then what keeps the views fresh, then attempts of the prover."""

Reply = list[str]
Log = Callable[[str, Reply, float, int], None]

FULL = ('full: session', 'full: input')
"""Last lines behind which a new session goes on with what wasn't answered."""

AGAIN_FOR = 3.0
"""Seconds for which a folder that another session has open is tried again: one that was killed or left may still be ending."""

ELSEWHERE, HOPELESS, SAYS_WHY = 5, (1, 2, 6), (1, 2, 3, 5, 6, 7)
"""Exit statuses: the disk failed or another session is open; what a new session wouldn't mend; those whose last line says why."""

DEATHS, DEATHS_WITHIN = 5, 60.0
"""A session that dies more often than so within so many seconds isn't begun again."""


class Ended(Exception):
    """The session has ended for good; the text is its last line."""


class Lost(Refused):
    """The session died twice over one request (once over an attempt of the prover), or had no room for it.

    What it was to do may be done or not; a new session goes on.
    """


class _Over(Exception):
    """The process ended: its exit status, and its last line."""

    def __init__(self, status: int, last: str) -> None:
        super().__init__(last)
        self.status, self.last = status, last


class _Request(NamedTuple):
    rank: int
    order: int
    commands: list[str]
    future: 'Future[list[Reply]]'


def named(program: str) -> str:
    """A program from whatever folder it is started; a name without a slash is looked for on the path."""
    return os.path.abspath(program) if os.sep in program else program


def _resolve(future: 'Future[list[Reply]]', fault: Exception) -> None:
    if not future.done():
        future.set_exception(fault)


class Engine:
    """Starts the program in `folder`; `log(sent, reply, seconds, rank)` is called, in the order of the session, for each answered command.

    `ended` is the last line once the session has ended for good, else None. `starts` counts sessions, `at_work` is the command in hand.
    """

    def __init__(self, folder: str, workers: int = 2, program: Optional[str] = None, log: Optional[Log] = None) -> None:
        self.words = [named(program or os.environ.get('RODIN') or 'rodin'), 'session', str(workers)]
        self.folder, self.workers = folder, workers
        self.log: Log = log or (lambda sent, reply, seconds, rank: None)
        self.ended: Optional[str] = None
        self.starts, self.at_work = 0, ''
        self._since = 0.0
        self._waiting: list[_Request] = []
        self._order, self._changed = itertools.count(), threading.Condition()
        self._closing, self._answered = False, False
        self._deaths: list[float] = []
        self._start()
        self._thread = threading.Thread(target=self._run, daemon=True)
        self._thread.start()

    # What the doors call.

    def send(self, commands: Sequence[str], rank: int = USER) -> 'Future[list[Reply]]':
        """Queues commands; the future has a list of replies, each a list of lines. Raises `Refused` for what is no command."""
        for command in commands:
            encoded(command)
        future: 'Future[list[Reply]]' = Future()
        with self._changed:
            if self.ended is not None:
                future.set_exception(Ended(self.ended))
            else:
                heapq.heappush(self._waiting, _Request(rank, next(self._order), list(commands), future))
                self._changed.notify()
        return future

    def ask(self, command: str, rank: int = USER) -> Reply:
        """The reply to one command."""
        return self.send([command], rank).result()[0]

    def busy(self, rank: int = SWEEP) -> bool:
        """Whether something of a lower number than `rank` waits."""
        with self._changed:
            return any(request.rank < rank for request in self._waiting)

    def silent(self) -> float:
        """For how many seconds the command in hand has had no answer; 0 where none is in hand."""
        return time.monotonic() - self._since if self.at_work else 0.0

    def close(self, patience: float = 5.0) -> None:
        """Ends the session; what was answered is kept by it. One that doesn't end in time, since it is stopped or proves, is killed."""
        with self._changed:
            self._closing = True
            self._changed.notify()
        self._thread.join(patience)
        if self._thread.is_alive():
            self.process.kill()
            self._thread.join()
        self._end(self.process, patience)

    # The process.

    def _start(self) -> None:
        self._nonce, self._count, self._answered = secrets.token_hex(8), 0, False
        self._lines: 'queue.Queue[Optional[Reply]]' = queue.Queue()
        self._taken: 'deque[str]' = deque()
        self.starts += 1
        try:
            self.process = subprocess.Popen(self.words, cwd=self.folder, stdin=subprocess.PIPE, stdout=subprocess.PIPE, bufsize=0)
        except OSError as fault:
            raise Ended(f'{self.words[0]} could not be started: {fault.strerror}') from fault
        threading.Thread(target=self._read, args=(self.process, self._lines), daemon=True).start()

    @staticmethod
    def _read(process: 'subprocess.Popen[bytes]', lines: 'queue.Queue[Optional[Reply]]') -> None:
        """Hands over the lines of each piece that was read at once: a line at a time would cost a change of threads each."""
        assert process.stdout is not None
        rest = b''
        while piece := os.read(process.stdout.fileno(), 65536):
            *whole, rest = (rest + piece).split(b'\n')
            if whole:
                lines.put([line.decode('utf-8', 'replace') for line in whole])
        if rest:
            lines.put([rest.decode('utf-8', 'replace')])
        process.stdout.close()
        lines.put(None)

    def _line(self) -> Optional[str]:
        """The next line of the session; None where it has ended."""
        while not self._taken:
            found = self._lines.get()
            if found is None:
                return None
            self._taken.extend(found)
        return self._taken.popleft()

    @staticmethod
    def _end(process: 'subprocess.Popen[bytes]', patience: float) -> None:
        assert process.stdin is not None
        try:
            process.stdin.close()
        except OSError:
            pass
        try:
            process.wait(patience)
        except subprocess.TimeoutExpired:
            process.kill()
            process.wait()

    # The writer's thread.

    def _run(self) -> None:
        while True:
            with self._changed:
                while not self._waiting and not self._closing:
                    self._changed.wait()
                if self._closing:
                    self._give_up('closed')
                    return
                request = heapq.heappop(self._waiting)
            try:
                request.future.set_result(self._talk(request.commands, request.rank))
            except Lost as fault:
                request.future.set_exception(fault)
            except Exception as fault:  # pylint: disable=broad-except
                last = str(fault) if isinstance(fault, Ended) else f'the engine failed: {fault!r}'
                with self._changed:
                    self._give_up(last)
                _resolve(request.future, Ended(last))
                return

    def _give_up(self, last: str) -> None:
        self.ended = last
        rest, self._waiting = self._waiting, []
        for request in rest:
            _resolve(request.future, Ended(last))

    def _talk(self, commands: list[str], rank: int) -> list[Reply]:
        """Writes a request at once and reads its replies; goes on in a new session where the old one was full or died."""
        replies: list[Reply] = []
        opening, stuck = time.monotonic(), -1
        while True:
            try:
                self._exchange(commands, replies, rank)
                return replies
            except _Over as over:
                if not self._goes_on(over, opening):
                    self._tell('(the session ended)', [over.last], 0.0, rank)
                    raise Ended(over.last) from over
                self._tell('(new session)', [over.last], 0.0, rank)
                if over.status == ELSEWHERE:
                    time.sleep(0.1)
                self._start()
                if over.status == ELSEWHERE:
                    continue
                if stuck == len(replies) or over.last == 'full: journal' or rank == SWEEP and over.last not in FULL:
                    raise Lost(f'{over.last}, at: {commands[len(replies)].split(chr(10), 1)[0][:200]}') from over
                stuck = len(replies)

    def _goes_on(self, over: _Over, opening: float) -> bool:
        """Whether a new session is begun behind one that ended so."""
        if self._closing or over.status in HOPELESS or over.last == 'full: table':
            return False
        if over.status == ELSEWHERE:
            return not self._answered and time.monotonic() - opening < AGAIN_FOR
        if over.last in FULL:
            return True
        now = time.monotonic()
        self._deaths = [at for at in self._deaths if now - at < DEATHS_WITHIN] + [now]
        return len(self._deaths) <= DEATHS

    def _exchange(self, commands: list[str], replies: list[Reply], rank: int) -> None:
        """Sends what has no reply yet, each with its mark, and adds the replies; raises `_Over` where the process ended."""
        rest = commands[len(replies):]
        marks = [f'_end_{self._nonce}/{self._count + n}/END' for n in range(1, len(rest) + 1)]
        self._count += len(rest)
        self.at_work, self._since = rest[0].split('\n', 1)[0] if rest else '', time.monotonic()
        self._write(b''.join(encoded(command) + f'show {mark}\n'.encode() for command, mark in zip(rest, marks)))
        for command, mark in zip(rest, marks):
            self.at_work, self._since = command.split('\n', 1)[0], time.monotonic()
            reply = self._reply(mark)
            seconds, self.at_work, self._answered = time.monotonic() - self._since, '', True
            replies.append(reply)
            self._tell(command, reply, seconds, rank)

    def _write(self, data: bytes) -> None:
        assert self.process.stdin is not None
        rest = memoryview(data)
        try:
            while rest:
                rest = rest[self.process.stdin.write(rest) or 0:]
        except (OSError, ValueError):
            pass  # it has ended; its last line is read behind its replies

    def _reply(self, mark: str) -> Reply:
        """The lines before a mark."""
        reply: Reply = []
        end = f'refused: no obligation {mark}'
        while True:
            line = self._line()
            if line is None:
                self.at_work = ''
                self._end(self.process, AGAIN_FOR)
                status = self.process.wait()
                told = status in SAYS_WHY and reply
                raise _Over(status, reply[-1] if told else f'the session ended with status {status}')
            if line == end:
                return reply
            reply.append(line)

    def _tell(self, sent: str, reply: Reply, seconds: float, rank: int) -> None:
        """A fault of a listener is printed, and ends nothing."""
        try:
            self.log(sent, reply, seconds, rank)
        except Exception:  # pylint: disable=broad-except
            traceback.print_exc()
