"""`rodin-export FOLDER`: the texts of the project in a folder, and its proofs as lines that replay in an empty folder.

With --to it writes NAME.eventb for each component and `proofs.steps`; without, the lines of the proofs to standard output. A proof moves
to a renamed obligation by editing the lines, each of which names its obligation. The proofs that are stored for an obligation or a component
that was renamed are written for the new name with --move OLD NEW. Each `step` stores the whole tree anew, so that n lines of one proof write
some n² nodes into the session's files: 1,000 lines 80 MB. `rodin-watch --once --proofs FILE` and `replay` at the prompt read the lines.
Exit: 0, 1 (a proof can't be written as lines; it is told), 3 (the program or the folder failed).
"""
from __future__ import annotations

import argparse
import os
import sys
from typing import Iterator, NamedTuple, Optional, Sequence

from . import journal, proofs, replies, texts
from .engine import Ended, Engine
from .watch import ended

class Lines(NamedTuple):
    """The lines of one obligation's proof, its status and who made it."""
    name: str
    status: str
    origin: str
    steps: list[str]


def exported(engine: Engine, folder: str, by_hand: bool, moves: Sequence[tuple[str, str]] = ()) -> tuple[dict[str, str], list[Lines], list[str]]:
    """Texts, proofs that apply, and what can't be said in lines. Of the stored texts those that the session has now, built or not."""
    statuses = replies.statuses(engine.ask('status'))
    written, trees = journal.state(folder)
    asked = [name for name, (_, origin) in statuses.items() if trees.get(name) is not None and not (by_hand and origin == 'prover')]
    found, lacking = [], []
    for name, shown in zip(asked, engine.send([f'show {name}' for name in asked]).result()):
        status, origin = statuses[name]
        if status == 'broken':
            lacking.append(f'{name} is broken: left out')
            continue
        hypotheses = replies.sequent(shown).hypotheses
        steps = list(proofs.steps(name, trees[name], hypotheses))
        if any(proofs.UNSAID in line for line in steps):
            lacking.append(f'{name} uses a hypothesis that is not shown: left out')
        elif any(len(line.encode()) > 4096 for line in steps):
            lacking.append(f'{name} has a line of more than 4,096 bytes: left out')
        else:
            found.append(Lines(name, status, origin, steps))
    for old, new in moves:
        found += [Lines(name, 'moved', f'from {old}', steps) for name, steps in proofs.moved(engine, trees, old, new)]
    gone = [name for name in sorted(set(trees) - set(statuses)) if trees[name] is not None and not any(proofs.renamed(name, *move) for move in moves)]
    lacking += [f'{name} has a proof, and is no obligation of the last build: left out' for name in gone]
    return written, found, lacking


def printed(found: Sequence[Lines]) -> Iterator[str]:
    """The lines of a file of proofs: before each proof a remark with its obligation and status."""
    for name, status, origin, steps in found:
        yield f'// {name} {status} ({origin})'
        yield from steps


def write(folder: str, written: dict[str, str], found: Sequence[Lines], over: bool) -> None:
    """Writes texts and proofs into a folder that has none of these files, unless they are to be written over."""
    os.makedirs(folder, exist_ok=True)
    made = {f'{name}{texts.SUFFIX}': text for name, text in written.items()}
    made['proofs.steps'] = '\n'.join([*printed(found), ''])
    there = sorted(file for file in made if os.path.exists(os.path.join(folder, file)))
    if there and not over:
        raise FileExistsError(f'{folder} has {", ".join(there)} already')
    for file, text in made.items():
        texts.write(os.path.join(folder, file), text)


def main(words: Optional[Sequence[str]] = None) -> int:
    """The command line."""
    parser = argparse.ArgumentParser(prog='rodin-export', description=__doc__, formatter_class=argparse.RawDescriptionHelpFormatter)
    parser.add_argument('folder', nargs='?', default='.', help='the folder with rodin.left and rodin.right; this one if not given')
    parser.add_argument('--to', metavar='FOLDER', help='where texts and proofs are written')
    parser.add_argument('--over', action='store_true', help='write over files that are there')
    parser.add_argument('--by-hand', action='store_true', help='leave out the proofs of the prover')
    parser.add_argument('--move', nargs=2, action='append', default=[], metavar=('OLD', 'NEW'),
                        help='write the proofs of an obligation or a component that was renamed as lines for its new name')
    given = parser.parse_args(words)
    try:
        if not os.path.exists(os.path.join(given.folder, 'rodin.left')):
            raise FileNotFoundError(f'{given.folder} has no project: no session was begun there')
        engine = Engine(given.folder, 0)
        try:
            written, found, lacking = exported(engine, given.folder, given.by_hand, [(old, new) for old, new in given.move])
        finally:
            engine.close()
        if given.to:
            write(given.to, written, found, given.over)
            print(f'{len(written)} texts, {len(found)} proofs, {sum(len(proof.steps) for proof in found)} lines')
        else:
            print('\n'.join(printed(found)))
    except Ended as fault:
        print(f'rodin-export: {ended(fault)}', file=sys.stderr)
        return 3
    except OSError as fault:
        print(f'rodin-export: {fault}', file=sys.stderr)
        return 3
    for line in lacking:
        print(f'rodin-export: {line}', file=sys.stderr)
    return 1 if lacking else 0
