"""What the page may ask: one method for each door, each with a dict from JSON, each giving one back. It decides nothing.

Each answer that is shown is the session's, and the raw lines stand in the page's log. What is read from elsewhere (the folder's texts, the
stored rules as lines) is shown as such.
"""
from __future__ import annotations

import base64
import binascii
import hashlib
import io
import json
import os
import queue
import threading
import time
import zipfile
from typing import Any, Callable, Collection, Mapping, Optional, Sequence

from . import bring, formulas, lint, proofs, replies, rule_words, rules, scan, spell
from .commands import Refused, raw, word
from .project import Project
from .proving import Proof
from .texts import HEADING, Part, Warn, parts
from .web_copy import Copy, NoCopy

Given = Mapping[str, Any]
Told = dict[str, Any]

WAITING = 5000
"""Events that wait for a page; one that is that far behind is let go, and begins anew."""

LOOKS = ('show', 'tree', 'status', 'faults')
"""Commands that the page sends of itself; a user who types one sees it in the log."""

SILENT = 5.0
"""Seconds without an answer behind which the pages are told."""

CALM = 10.0
"""Seconds behind a key typed into a text for which nothing is tried unasked."""

KEPT_LOG, SENT, LINES = 300, 2000, 100
"""Entries of the log that a page begins with, and how much of a command and of a reply an entry has at first."""

KIND_SAYS = {kind: row.short for kind, row in rule_words.KINDS.items()}
"""What the rules do, in a few words: shown beside their names, and the names that the page completes."""


def text_of(given: Given, key: str) -> str:
    """A text of what was given; `ValueError` where it is none."""
    found = given.get(key)
    if not isinstance(found, str):
        raise ValueError(f'"{key}" is missing')
    return found


def path_of(given: Given, key: str = 'path') -> str:
    """A path or a place: `-`, or numbers with dots."""
    found = text_of(given, key)
    if found != '-' and not all(n.isascii() and n.isdigit() for n in found.split('.')):
        raise ValueError(f'"{key}" is no path')
    return found


def numbers_of(given: Given, key: str) -> list[int]:
    """A list of whole numbers."""
    found = given.get(key, [])
    if not isinstance(found, list) or not all(isinstance(n, int) for n in found):
        raise ValueError(f'"{key}" is no list of numbers')
    return found


def spans(text: str) -> Optional[list[Any]]:
    """A formula as nested parts for the page: [start, end, place, operator, parts], or None where it isn't read."""
    tree = formulas.try_read(text)

    def nest(f: formulas.Formula) -> list[Any]:
        return [f.start, f.end, formulas.place_text(f.place), f.op, [nest(p) for p in f.parts]]
    return None if tree is None else nest(tree)


def mark(text: str) -> str:
    """A short hash by which the page knows whether its text is the file's."""
    return hashlib.blake2b(text.encode('utf-8', 'replace'), digest_size=9).hexdigest()


def entry(logged: Told, whole: bool = False, typed: Collection[str] = ()) -> Told:
    """An entry of the log for the page; long ones are cut, and asked for whole by their number. The page's own looks are quiet."""
    quiet = logged['quiet'] or word(logged['sent']) in LOOKS and logged['sent'] not in typed
    if whole or len(logged['sent']) <= SENT and len(logged['reply']) <= LINES:
        return {**logged, 'quiet': quiet}
    return {**logged, 'quiet': quiet, 'sent': logged['sent'][:SENT], 'reply': logged['reply'][:LINES], 'cut': len(logged['reply'])}


class Desk:
    """The doors over one project. `start` opens the project and looks after it; `streams` are the queues of the pages."""

    DOORS = ('state', 'text', 'save', 'drop', 'bring', 'export', 'look', 'offers', 'leaves', 'lines', 'act', 'raw', 'entry', 'typing', 'again')

    def __init__(self, path: str, workers: int = 2, program: Optional[str] = None, sweep: bool = True, every: float = 0.3) -> None:
        self.path, self.workers, self.program, self.sweep, self.every = path, workers, program, sweep, every
        self.streams: list['queue.Queue[Optional[bytes]]'] = []
        self.proofs: dict[str, tuple[Proof, threading.RLock]] = {}
        self.lock, self.notes = threading.RLock(), list[Told]()
        self.typed: set[str] = set()
        self.saves = 0
        self._built, self._stop = threading.Event(), threading.Event()
        self.project = self._open()
        self.copy = Copy(self.project.engine.words[0])
        self._built.set()
        for watch in (self._lint, self._wake):
            threading.Thread(target=watch, daemon=True).start()

    def _open(self) -> Project:
        """The project, with a session, and what looks after both."""
        project = Project(self.path, self.workers, self.program)
        try:
            project.sync()
        except BaseException:
            project.close()
            raise
        project.listeners.append(self.hear)
        threading.Thread(target=project.mind, kwargs={'sweep': self.sweep, 'every': self.every}, daemon=True).start()
        return project

    def close(self) -> None:
        """Ends the sessions, and tells the pages."""
        self._stop.set()
        self._built.set()
        self.tell('bye', {})
        for stream in list(self.streams):
            stream.put(None)
        self.copy.close()
        self.project.close()

    # Events to the pages.

    def tell(self, event: str, data: Any) -> None:
        """Puts an event before each page."""
        told = packed(event, data)
        for stream in list(self.streams):
            if stream.qsize() < WAITING:
                stream.put(told)
            elif stream in self.streams:
                self.streams.remove(stream)
                stream.put(None)

    def hear(self, event: str, data: Any) -> None:
        """What the project tells, for the pages; mostly in the engine's thread."""
        if event == 'faults':
            self._built.set()
            self.tell('texts', self.texts())
        elif event == 'statuses':
            self.tell(event, {'changed': data[0], 'gone': data[1], 'order': data[2]})
        elif event == 'log':
            self.tell(event, entry(data, typed=self.typed))
        else:
            self.tell(event, data)

    @property
    def name(self) -> str:
        """The folder's own name."""
        return os.path.basename(os.path.abspath(self.path))

    def texts(self) -> Told:
        """The components with their files and faults, and the warnings."""
        p = self.project
        with p.files:
            found = p.folder.components()
        kinds = {name: HEADING.search(part.text) for name, (_, part) in found.items()}
        components = [{'name': name, 'file': file, 'kind': m[0].split()[0] if (m := kinds[name]) else '', 'mark': mark(part.text)}
                      for name, (file, part) in sorted(found.items())]
        return {'components': components, 'faults': {name: fault._asdict() for name, fault in p.faults.items()}, 'warnings': p.warnings, 'notes': self.notes}

    def state(self, given: Given) -> Told:
        """All that a page begins with."""
        p = self.project
        statuses = p.statuses
        return {**self.texts(), 'folder': self.name, 'built': p.built, 'statuses': statuses, 'order': list(statuses),
                'tried': list(p.tried), 'workers': p.workers, 'sweep': self.sweep, 'signs': spell.SIGNS, 'kept': list(spell.KEPT), 'words': scan.STRUCTURE,
                'rules': KIND_SAYS, 'ended': p.engine.ended, 'idle': p.resting or not self.sweep and not p.workers, 'log': [entry(e, typed=self.typed) for e in p.logged[-KEPT_LOG:]]}

    def _lint(self) -> None:
        """The workbench's own warnings, behind each build and beside all else."""
        while not self._stop.is_set():
            self._built.wait()
            self._built.clear()
            p = self.project
            with p.files:
                there, found = p.folder.components(), lint.warnings(p.folder)
            notes = [told for warn in found if (told := self._note(warn, there)) is not None]
            if notes != self.notes:
                self.notes = notes
                self.tell('texts', self.texts())

    def _wake(self) -> None:
        """Tells the pages of a session that doesn't answer: it may be stopped, or at work on something long."""
        told = False
        while not self._stop.wait(1.0):
            engine = self.project.engine
            silent = engine.silent()
            if silent > SILENT or told:
                told = silent > SILENT
                self.tell('silent', {'seconds': round(silent) if told else 0, 'at': engine.at_work[:200]})

    @staticmethod
    def _note(warn: Warn, there: Mapping[str, tuple[str, Part]]) -> Optional[Told]:
        """A warning with the component in whose text it stands."""
        inside = [(part.line, name) for name, (file, part) in there.items() if file == warn.file and part.line <= warn.line]
        if not inside:
            return None
        line, name = max(inside)
        return {'component': name, 'line': warn.line - line + 1, 'column': warn.column, 'text': warn.text}

    # Texts.

    def text(self, given: Given) -> Told:
        """A component's text. The page knows line feeds alone; what the file had is put back by `save`."""
        name = text_of(given, 'name')
        with self.project.files:
            found = self.project.folder.components().get(name)
        if found is None:
            raise ValueError(f'there is no component {name}')
        file, part = found
        if '\r' in part.text.replace('\r\n', '\n'):
            raise ValueError(f'{file} has carriage returns that end no line: edit it elsewhere')
        return {'name': name, 'text': part.text.replace('\r\n', '\n'), 'file': file, 'mark': mark(part.text)}

    def save(self, given: Given) -> Told:
        """Writes a component's text and builds; where the file isn't what the page took it for, says what it has instead."""
        name, text, was, p = text_of(given, 'name'), text_of(given, 'text'), given.get('was'), self.project
        if '\x00' in text or any('\ud800' <= sign <= '\udfff' for sign in text):
            raise Refused('the text has a character that no file can keep')
        with p.files:
            p.folder.look()
            there = p.folder.text(name)
            plain = None if there is None else there.replace('\r\n', '\n')
            if was is not None and (plain or '') != was:
                return {'changed': plain}
            if there is not None and '\r\n' in there:
                text = text.replace('\n', '\r\n')
            p.folder.put(name, text)
        p.sync()
        with self.lock:
            self.saves += 1
            count = self.saves
        self.tell('saved', count)
        return {'mark': mark(text), 'built': p.built, 'saved': count}

    def drop(self, given: Given) -> Told:
        """Takes a component out of its file, and builds."""
        name = text_of(given, 'name')
        if self.project.folder.text(name) is None:
            raise ValueError(f'there is no component {name}')
        self.project.drop(name)
        return {'built': self.project.built}

    def bring(self, given: Given) -> Told:
        """Files of a Rodin project, or texts: asks first where components would be replaced."""
        made: dict[str, str] = {}
        notes: list[str] = []
        for file in given.get('files', []):
            found, told = brought(text_of(file, 'name'), text_of(file, 'data'))
            made.update(found)
            notes += told
        p = self.project
        with p.files:
            p.folder.look()
            there = sorted(name for name, text in made.items() if p.folder.text(name) not in (None, text))
            if there and not given.get('over'):
                return {'there': there, 'brought': [], 'notes': notes}
            for name, text in made.items():
                p.folder.put(name, text)
                p.folder.look()
        p.sync()
        return {'there': [], 'brought': sorted(made), 'notes': notes, 'built': p.built}

    def export(self, given: Given) -> Told:
        """An archive of the texts and of all proofs as lines that replay."""
        p, made = self.project, io.BytesIO()
        with p.files:
            found = p.folder.components()
        by_file: dict[str, list[Part]] = {}
        for file, part in found.values():
            by_file.setdefault(file, []).append(part)
        lines = proofs.export(p, by_hand=False)
        with zipfile.ZipFile(made, 'w', zipfile.ZIP_DEFLATED) as archive:
            for file, found_parts in by_file.items():
                archive.writestr(file, ''.join(part.text for part in sorted(found_parts, key=lambda part: part.line)))
            archive.writestr('proofs.steps', '\n'.join([*lines, '']))
        return {'name': f'{self.name}.zip', 'data': base64.b64encode(made.getvalue()).decode(), 'texts': len(found), 'proofs': len(lines)}

    # Proofs.

    def proof_of(self, given: Given) -> tuple[Proof, threading.RLock]:
        """The proof in hand, which isn't tried unasked, and its lock."""
        name = text_of(given, 'po')
        with self.lock:
            self.project.held = {name}
            known = self.proofs.get(name)
        if known is None:
            known = (Proof(self.project, name), threading.RLock())
            with self.lock:
                known = self.proofs.setdefault(name, known)
        return known

    def look(self, given: Given) -> Told:
        """The tree, and the sequent at the node asked for, or at the current leaf."""
        proof, lock = self.proof_of(given)
        with lock:
            proof.read()
            nodes = {node.path: node for node in proof.nodes}
            wanted, status = given.get('path'), self.project.statuses.get(proof.name, ('gone', ''))
            misfits = self._misfits(proof) if status[0] == 'broken' else {}
            at = wanted if isinstance(wanted, str) and wanted in nodes else next(iter(misfits), proof.leaf or '-')
            node = nodes.get(at)
            if node is not None and node.rule is None:
                proof.leaf = at
            out: Told = {
                'po': proof.name, 'status': status, 'misfits': misfits, 'nodes': [n._asdict() for n in proof.nodes], 'at': at,
                'undo': bool(proof.done), 'redo': bool(proof.undone), 'open': False, 'note': None, 'line': None}
            if node is None:
                return {**out, 'note': proof.refused}
            whole = proof.sequent('-')
            if whole is None:
                return {**out, 'note': proof.refused}
            found, out['note'], out['open'], out['line'] = self._at(proof, node, whole)
            if status[0] == 'broken':
                told = '; '.join(f'{nodes[path].rule if path in nodes else path}: {words}' for path, words in misfits.items())
                out['note'] = f'The stored proof does not apply to the present sequent{f" ({told})" if told else ""}. Prune what does not fit, or try the prover.'
            view = rules.View(found.hypotheses, found.goal)
            out['near'], out['far'] = view.near()
            return {**out, 'base': len(whole.hypotheses), 'goal': {'text': found.goal, 'spans': spans(found.goal)},
                    'hypotheses': [{'n': n, 'text': h, 'spans': spans(h)} for n, h in enumerate(found.hypotheses, 1)]}

    def _misfits(self, proof: Proof) -> dict[str, str]:
        """The rules of a broken proof that don't apply any more; none where that can't be told."""
        try:
            return self.copy.misfits(proof.name, self.project.sent, proof.lines())
        except (NoCopy, ValueError, LookupError, OSError):
            return {}

    def _at(self, proof: Proof, node: replies.Node, whole: replies.Sequent) -> tuple[replies.Sequent, Optional[str], bool, Optional[str]]:
        """The sequent at a node, a note about it, whether rules can be made there, and the rule's line where there is one."""
        if node.rule is None:
            found = whole if node.path == '-' else proof.sequent(node.path)
            if found is not None and (node.goal or node.path == '-'):
                return found, None, True, None
            return whole, 'The sequent shown is the obligation’s.', False, None
        try:
            lines = proof.lines()
            line = next((line for line in lines if line.split(' ')[2] == node.path), None)
            found = whole if node.path == '-' else self.copy.look(proof.name, node.path, self.project.sent, lines)
            return found, None, False, line and line.split(' ', 3)[-1]
        except (NoCopy, ValueError, LookupError, OSError) as fault:
            return whole, f'At this rule: {fault}. The sequent shown is the obligation’s.', False, None

    def offers(self, given: Given) -> Told:
        """Rules for hypothesis `n`, or the goal where it is 0, at a place, with the chosen hypotheses in `chosen`.

        They are proposed by shape; those that need no term are tried in the copy, and come with what they would leave, or not at all.
        """
        proof, _ = self.proof_of(given)
        view, n, place = proof.view(path_of(given)), int(given.get('n', 0)), proofs.numbers_of(path_of(given, 'place'))
        if view is None:
            return {'offers': []}
        if not 0 <= n <= len(view.hypotheses):
            raise ValueError('there is no such hypothesis')
        whole = view.of_hypothesis(n, numbers_of(given, 'chosen')) if n else view.of_goal()
        readable = (view.trees[n - 1] if n else view.aim) is not None
        part = view.of_place(n, place) if readable else []
        found = list({hint.words + ' '.join(hint.asks): hint for hint in ([*part, *whole] if place else [*whole, *part])}.values())
        told = self.leaves({'po': proof.name, 'path': given['path'], 'words': [hint.words for hint in found if not hint.asks]})
        left = iter(told['leaves'])
        offers: list[Told] = [{**hint._asdict(), 'asked': hint.asked(), **({} if hint.asks else next(left, {}))} for hint in found]
        fits = [offer for offer in offers if 'refused' not in offer]
        return {'offers': fits, 'misfits': len(offers) - len(fits), 'why': told['why']}

    def leaves(self, given: Given) -> Told:
        """What each of some rules would leave at a leaf: tried in the copy."""
        proof, _ = self.proof_of(given)
        words, path = given.get('words'), path_of(given)
        if not isinstance(words, list) or not all(isinstance(w, str) and '\n' not in w and '\r' not in w for w in words):
            raise ValueError('"words" is no list of rules')
        real = proof.sequent(path)
        if real is None:
            return {'leaves': [], 'why': proof.refused}
        try:
            lines = [] if path == '-' else proof.lines()
            tried = self.copy.leaves(proof.name, path, self.project.sent, lines, real, words)
        except (NoCopy, ValueError, LookupError, OSError) as fault:
            return {'leaves': [], 'why': str(fault)}
        return {'leaves': [{'leaves': [leaf._asdict() for leaf in t.leaves]} if t.refused is None else {'refused': t.refused} for t in tried], 'why': None}

    def lines(self, given: Given) -> Told:
        """The proof as lines that replay."""
        proof, _ = self.proof_of(given)
        return {'lines': proof.lines()}

    def act(self, given: Given) -> Told:
        """A step, review, prune, auto, undo, redo, linear step or attempt; then the look."""
        proof, lock = self.proof_of(given)
        path, what = path_of(given), text_of(given, 'what')
        acts: dict[str, Callable[[], Optional[Sequence[str]]]] = {
            'step': lambda: proof.step(text_of(given, 'words'), path), 'review': lambda: proof.review(path), 'prune': lambda: proof.prune(path),
            'auto': proof.auto, 'undo': proof.undo, 'redo': proof.redo, 'linear': lambda: self._linear(proof, path, numbers_of(given, 'chosen')),
            'attempt': lambda: self._attempt(proof, path)}
        if what not in acts:
            raise ValueError('there is no such act')
        with lock:
            reply = acts[what]()
            return {'reply': list(reply or ['nothing to do']), 'look': self.look({'po': proof.name})}

    @staticmethod
    def _linear(proof: Proof, path: str, chosen: list[int]) -> list[str]:
        view = proof.view(path)
        words = view.linear(chosen) if view else None
        if words is None:
            return ['no multipliers were found' + (' for the chosen hypotheses' if chosen else '')]
        return [*proof.step(words, path), words]

    @staticmethod
    def _attempt(proof: Proof, path: str) -> list[str]:
        count, reply = proof.attempt(path)
        return [*reply, f'{count} steps'] if count else list(reply)

    def raw(self, given: Given) -> Told:
        """A line of the user's, as it is."""
        line = raw(text_of(given, 'line'))
        self.typed.add(line)
        return {'reply': self.project.ask(line)}

    def entry(self, given: Given) -> Told:
        """A whole entry of the log."""
        for logged in self.project.logged:
            if logged['n'] == given.get('n'):
                return entry(logged, whole=True)
        raise ValueError('this entry of the log is not kept any more')

    def typing(self, given: Given) -> Told:
        """A text is being typed: nothing is tried unasked for a while, so that no attempt stands before the save."""
        self.project.calm = time.monotonic() + CALM
        return {}

    def again(self, given: Given) -> Told:
        """A new session, where the old one ended for good."""
        with self.lock:
            if self.project.engine.ended is None:
                return {'built': self.project.built}
            self.project.close()
            count = self.project.count
            self.project = self._open()
            self.project.count += count
            self.proofs.clear()
            self.tell('state', self.state({}))
            return {'built': self.project.built}


def brought(name: str, data: str) -> tuple[dict[str, str], list[str]]:
    """The texts of a file that a page sent, by component, and notes."""
    try:
        content = base64.b64decode(data, validate=True)
        stem = os.path.splitext(os.path.basename(name))[0]
        if content[:2] == b'PK':
            return bring.bring(bring.zipped(io.BytesIO(content)))
        if name.endswith(('.buc', '.bum')):
            return bring.bring([(stem, content)])
        return {part.name: part.text for part in parts(content.decode('utf-8-sig'), stem)}, []
    except (zipfile.BadZipFile, NotImplementedError, binascii.Error, EOFError) as fault:
        raise ValueError(f'{name}: {fault}') from fault


def packed(event: str, data: Any) -> bytes:
    """An event as it goes over the wire."""
    return f'event: {event}\ndata: {json.dumps(data, ensure_ascii=False)}\n\n'.encode('utf-8', 'replace')
