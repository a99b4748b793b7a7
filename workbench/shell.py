"""`rodin-shell [FOLDER]`: a prompt with a current obligation and a current leaf. `help` lists its words; any other line goes to the session."""
from __future__ import annotations

import glob
import os
import re
import subprocess
from typing import Iterator, Optional

from . import bring, formulas, proofs, replies, report, rules, shell_words, spell, texts
from .commands import Refused, one_line, raw
from .project import Project
from .proving import Proof

SHORT = 12
"""Hypotheses that `g` shows."""


class Shell:
    """Answers lines of a user; `lines(line)` yields what is to be printed."""

    def __init__(self, project: Project, alone: bool = False) -> None:
        self.project, self.alone = project, alone
        self.proof: Optional[Proof] = None
        self.hints: list[rules.Hint] = []
        self.over = False

    def lines(self, line: str) -> Iterator[str]:
        """What a line says. Raises `Refused` and the like for what can't be done, and `Ended`."""
        word, _, rest = line.strip().partition(' ')
        rest = rest.strip()
        if not word or word.startswith('//'):
            return
        if word in rules.KINDS:
            yield from self.rule(word, rest)
        elif word in shell_words.WORDS:
            yield from getattr(self, f'do_{word}')(rest)
        else:
            yield from self.project.ask(raw(line.strip()))

    def need(self) -> Proof:
        """The current proof."""
        if self.proof is None:
            raise Refused('no obligation: `next` or `po NAME` first')
        return self.proof

    def view(self) -> rules.View:
        """The sequent at the current leaf."""
        proof = self.need()
        found = proof.view() if proof.leaf is not None else None
        if found is None:
            broken = self.project.statuses.get(proof.name, ('', ''))[0] == 'broken'
            raise Refused('the proof is broken: why' if broken else proof.refused or 'no open leaf')
        return found

    # Texts.

    def do_load(self, rest: str) -> Iterator[str]:
        """Copies files into the folder, sends what changed, and tells the faults."""
        for path in [path for word in rest.split() for path in sorted(glob.glob(word)) or [word]]:
            where = os.path.join(self.project.folder.path, os.path.basename(path))
            if not where.endswith(texts.SUFFIX):
                raise Refused(f'{path} does not end in {texts.SUFFIX}')
            if not (os.path.exists(where) and os.path.samefile(path, where)):
                texts.write(where, texts.read(path))
        self.project.sync(patient=False)
        yield self.project.built
        yield from self.do_faults('')

    def do_faults(self, _: str) -> Iterator[str]:
        """Faults and warnings."""
        yield from report.fault_lines(self.project)

    def do_text(self, rest: str) -> Iterator[str]:
        """A component's text."""
        found = self.project.folder.components().get(rest)
        if found is None:
            raise Refused(f'no component {rest} in the folder')
        for n, line in enumerate(found[1].text.splitlines(), found[1].line):
            yield f'{n:4} {line}'

    def do_edit(self, rest: str) -> Iterator[str]:
        """The user's editor on a component's file."""
        if not texts.NAME.fullmatch(rest):
            raise Refused('edit NAME')
        file, line = self.project.folder.place(rest, 1)
        path = os.path.join(self.project.folder.path, file if rest in self.project.folder.components() else self.project.folder.unused(rest))
        editor = os.environ.get('VISUAL') or os.environ.get('EDITOR') or 'vi'
        subprocess.run([*editor.split(), *([f'+{line}'] if line > 1 else []), path], check=False)
        yield from self.do_load('')

    def do_bring(self, rest: str) -> Iterator[str]:
        """Files of Rodin."""
        yield from bring.into(rest, self.project.folder.path)
        yield from self.do_load('')

    # Obligations.

    def _told(self, name: str) -> str:
        status, origin = self.project.statuses[name]
        return f'{name} {status}' + (f' ({origin})' if origin else '')

    def do_ls(self, rest: str, names: Optional[list[str]] = None) -> Iterator[str]:
        """Obligations that match a pattern."""
        self.project.refresh()
        try:
            pattern = re.compile(rest, re.I if rest == rest.lower() else 0)
        except re.error as fault:
            raise Refused(f'the pattern: {fault}') from fault
        for name in list(self.project.statuses) if names is None else names:
            line = self._told(name)
            if pattern.search(line):
                yield line + (', tried' if names is not None and name in self.project.tried else '')

    def do_open(self, rest: str) -> Iterator[str]:
        """What isn't discharged."""
        self.project.refresh()
        yield from self.do_ls(rest, self.project.open_ones(True))
        yield f'{len(self.project.open_ones(True))} open of {len(self.project.statuses)}'

    def do_next(self, _: str) -> Iterator[str]:
        """The next open obligation behind the current one."""
        self.project.refresh()
        found, names = self.project.open_ones(), list(self.project.statuses)
        if not found:
            yield 'nothing open'
            return
        here = names.index(self.proof.name) if self.proof and self.proof.name in names else -1
        yield from self.do_po(next((name for name in found if names.index(name) > here), found[0]))

    def do_po(self, rest: str) -> Iterator[str]:
        """Goes to an obligation."""
        proof = Proof(self.project, rest)
        if proof.refused:
            raise Refused(proof.refused)
        self.proof, self.project.held, self.hints = proof, {rest}, []
        yield from self.do_g('')

    def do_wait(self, _: str) -> Iterator[str]:
        """Until all is tried: by `wait` of the session where lines come from a pipe, so that nobody waits for it; else one after another."""
        if self.alone:
            self.project.ask('wait')
        else:
            self.project.settle()
        yield report.counted(self.project)

    # Looks at the proof.

    def do_leaf(self, rest: str) -> Iterator[str]:
        """Goes to a leaf."""
        if rest not in [node.path for node in self.need().leaves()]:
            raise Refused(f'no open leaf {rest}: leaves')
        self.need().leaf = rest
        yield from self.do_g('')

    def do_leaves(self, _: str) -> Iterator[str]:
        """The open leaves."""
        for node in self.need().leaves():
            yield f'{node.path} ⊢ {node.goal}' if node.goal else node.path

    def do_tree(self, rest: str) -> Iterator[str]:
        """The stored proof."""
        yield from self.project.engine.ask(one_line(f'tree {rest or self.need().name}'))

    def _sequent(self) -> replies.Sequent:
        """The sequent at the leaf; of a proof that is broken or whole that of the obligation."""
        proof = self.need()
        broken = proof.leaf is not None and self.project.statuses.get(proof.name, ('', ''))[0] == 'broken'
        found = proof.sequent('-' if broken or proof.leaf is None else proof.leaf)
        if found is None:
            raise Refused(proof.refused or 'no sequent')
        return found

    def _at(self, sequent: replies.Sequent) -> str:
        proof = self.need()
        where = '' if sequent.status in ('broken', 'discharged', 'reviewed') or proof.leaf in (None, '-') else f' at {proof.leaf}'
        return f'{proof.name} {sequent.status}{where}'

    def do_g(self, _: str) -> Iterator[str]:
        """The sequent, short."""
        sequent = self._sequent()
        near, far = rules.View(sequent.hypotheses, sequent.goal).near()
        few = len(near) + len(far) <= SHORT
        yield self._at(sequent)
        for n in sorted(near + far) if few else sorted(near[:SHORT]):
            yield f'{n}: {sequent.hypotheses[n - 1]}'
        if not few:
            yield f'   ({len(near) + len(far)} in all: all)'
        yield f'⊢ {sequent.goal}'

    def do_all(self, rest: str) -> Iterator[str]:
        """The sequent with all hypotheses, or those that match."""
        sequent = self._sequent()
        yield self._at(sequent)
        for n, text in enumerate(sequent.hypotheses, 1):
            if rest in text or spell.unicode_of(rest) in text:
                yield f'{n}: {text}'
        yield f'⊢ {sequent.goal}'

    def do_why(self, _: str) -> Iterator[str]:
        """Why it isn't discharged."""
        self.project.refresh()
        proof = self.need()
        proof.read()
        status = self.project.statuses.get(proof.name, ('gone', ''))[0]
        yield f'{proof.name} {status}' + (': the prover found no proof' if proof.name in self.project.tried else '')
        if status == 'broken':
            yield from self._broken(proof)
            return
        for node in proof.leaves():
            sequent = proof.sequent(node.path)
            if sequent is not None:
                yield from self._near(node.path, sequent)

    def _near(self, path: str, sequent: replies.Sequent) -> Iterator[str]:
        """A leaf with the hypotheses that share names with its goal."""
        near, _ = rules.View(sequent.hypotheses, sequent.goal).near()
        yield f'open at {path}: ⊢ {sequent.goal}'
        for n in near[:SHORT]:
            shared = sorted(formulas.names(sequent.hypotheses[n - 1]) & formulas.names(sequent.goal))
            yield f'  {n}: {sequent.hypotheses[n - 1]}   ({", ".join(shared)})'
        alone = formulas.names(sequent.goal) - set().union(*map(formulas.names, sequent.hypotheses))
        if alone:
            yield f'  no hypothesis names {", ".join(sorted(alone))}'

    @staticmethod
    def _broken(proof: Proof) -> Iterator[str]:
        """Where a proof doesn't apply, read from the session's files."""
        found = proof.misfit()
        if found is None:
            yield 'the stored proof does not apply to the present sequent; prune takes out a rule with all below it:'
            yield from (f'  {node.path} {node.rule or "open"}' for node in proof.nodes)
        else:
            yield f'the rule {found[1]} at {found[0]} wants {found[2]}, which is not there any more (by the files of the session)'
            yield f'prune {found[0]} takes it out with all below it'

    # What changes the proof.

    def rule(self, word: str, rest: str) -> Iterator[str]:
        """A rule at the current leaf."""
        self.need()
        if word == 'linear' and not rest:
            yield from self._linear()
        else:
            yield from self._step(f'{word} {self.spelled(rest)}')

    def _linear(self) -> Iterator[str]:
        """A linear step with multipliers that are found, and the rules that it needs before it."""
        found, said = self.view().linear_steps() or [], ['no multipliers found']
        for step in found:
            yield step
            said = list(self._step(step))
            if said[0].startswith('refused'):
                break
        yield from said

    @staticmethod
    def spelled(items: str) -> str:
        """Items with the signs of their formulas in Unicode."""
        parts = [part.strip() for part in items.split(';;')]
        return ' ;; '.join(part[:2] + spell.unicode_of(part[2:]) if part[:2] in ('e ', 'p ') else part for part in parts)

    def _step(self, words: str) -> Iterator[str]:
        proof = self.need()
        known = proof.sequent() if proof.leaf is not None else None
        reply = proof.step(words)
        if replies.refusal(reply):
            yield reply[0]
            return
        self.hints = []
        yield reply[0] + (f', {len(proof.leaves())} open' if proof.leaves() else '')
        sequent = proof.sequent() if proof.leaf is not None else None
        if sequent is not None:
            yield f'at {proof.leaf}'
            for n, text in enumerate(sequent.hypotheses, 1):
                if known is None or text not in known.hypotheses:
                    yield f'{n}: {text}'
            yield f'⊢ {sequent.goal}'

    def do_hint(self, rest: str) -> Iterator[str]:
        """Proposals by shape."""
        view = self.view()
        if rest and not (rest.isdigit() and 0 < int(rest) <= len(view.hypotheses)):
            raise Refused(f'no hypothesis {rest}')
        number = int(rest) if rest else 0
        self.hints = (view.of_hypothesis(number) if number else view.of_goal()) + view.of_place(number, [])
        for n, hint in enumerate(self.hints, 1):
            yield f'{n}: {hint.asked()}   {hint.says}'

    def do_do(self, rest: str) -> Iterator[str]:
        """One of the proposals."""
        n, _, more = rest.partition(' ')
        if not n.isdigit() or not 0 < int(n) <= len(self.hints):
            raise Refused('no proposal of that number: hint first')
        hint = self.hints[int(n) - 1]
        words = hint.words + (' ;; ' if more and ' ' in hint.words else ' ') + more if more else hint.words
        yield words.rstrip()
        yield from self.rule(*words.partition(' ')[::2])

    def do_auto(self, rest: str) -> Iterator[str]:
        """The prover on the whole obligation, or on another one."""
        yield from self.project.ask(raw(f'auto {rest}')) if rest else self.need().auto()

    def do_try(self, rest: str) -> Iterator[str]:
        """The prover at leaves."""
        proof = self.need()
        paths = [node.path for node in proof.leaves()] if rest == 'all' else [proof.leaf] if proof.leaf else []
        if not paths:
            raise Refused('no open leaf')
        for path in paths:
            count, reply = proof.attempt(path)
            yield f'{path}: {count} steps: ' + ' '.join(reply) if count else f'{path}: ' + ' '.join(reply)
        if proof.leaf is not None:
            yield from self.do_g('')

    def do_undo(self, _: str) -> Iterator[str]:
        """Takes back the last step or prune."""
        reply = self.need().undo()
        yield from ['nothing to undo'] if reply is None else reply
        yield from self.do_g('')

    def do_redo(self, _: str) -> Iterator[str]:
        """Makes again what undo took back."""
        reply = self.need().redo()
        yield from ['nothing to redo'] if reply is None else reply

    def do_prune(self, rest: str) -> Iterator[str]:
        """Takes out a rule."""
        if '/' in rest:
            yield from self.project.ask(raw(f'prune {rest}'))
            return
        yield from self.need().prune(rest or '-')
        yield from self.do_g('')

    def do_review(self, rest: str) -> Iterator[str]:
        """Takes a goal for proved."""
        yield from self.project.ask(raw(f'review {rest}')) if '/' in rest else self.need().review()

    # Proofs as text.

    def do_proofs(self, rest: str) -> Iterator[str]:
        """The proofs by hand."""
        lines = proofs.export(self.project)
        if rest:
            texts.write(rest, '\n'.join([*lines, '']))
            yield f'{len(lines)} lines'
        else:
            yield from lines

    def do_replay(self, rest: str) -> Iterator[str]:
        """Lines of a file."""
        for line, words in proofs.replay(self.project.engine, texts.read(rest).splitlines()):
            yield f'{words}: {line}'
        self.project.refresh()
        yield report.counted(self.project)

    def do_move(self, rest: str) -> Iterator[str]:
        """The proofs of what was renamed, made again under the new name."""
        old, _, new = rest.partition(' ')
        if not new:
            raise Refused('move OLD NEW: two obligations, or two components')
        self.project.refresh()
        for name, lines in proofs.moved(self.project.engine, self.project.journal.read()[1], old, new.strip()):
            status = self.project.statuses.get(name, ('', ''))[0]
            if status != 'unattempted':
                yield f'{name} is {status}: left as it is'
                continue
            refused = list(proofs.replay(self.project.engine, lines))
            self.project.refresh()
            yield self._told(name) + (f', {len(refused)} of {len(lines)} lines do not fit' if refused else '')

    def do_help(self, rest: str) -> Iterator[str]:
        """The words, or one."""
        yield from shell_words.long(rest) if rest else shell_words.short()

    def do_quit(self, _: str) -> Iterator[str]:
        """Ends the prompt."""
        self.over = True
        yield from ()
