"""The words of the prompt: what each is for, in a line and in full."""
from __future__ import annotations

from typing import Iterator

from . import rule_words

WORDS = {
    'load': ('[FILE..]', 'send the folder\'s texts, build, tell faults and warnings',
             'With files: copies them into the folder first. Without: only what changed is sent. The folder is looked at before each command, too.'),
    'faults': ('', 'the faults and warnings of the last build', 'As FILE:LINE:COLUMN: text.'),
    'ls': ('[PATTERN]', 'obligations with their statuses',
           'PATTERN is a regular expression over `NAME STATUS (ORIGIN)`: `ls ^m1/.*INV`, `ls unattempted`. Small letters match capitals, too.'),
    'open': ('[PATTERN]', 'the obligations that are not discharged', '`tried` behind one says that the prover found no proof of its present sequent.'),
    'next': ('', 'go to the next open obligation', 'In the order of `open`, from the current one on; reviewed ones are left out.'),
    'po': ('NAME', 'go to an obligation', 'The prover does not try unasked what you have in hand.'),
    'g': ('', 'the sequent at the current leaf, short', 'Of many hypotheses the twelve that share most names with the goal.'),
    'all': ('[PATTERN]', 'the sequent at the current leaf with every hypothesis, or those that match', ''),
    'leaves': ('', 'the open leaves', ''),
    'leaf': ('PATH', 'go to an open leaf', 'Rules without a path go to the current leaf.'),
    'tree': ('[PO]', 'the rules of the stored proof', 'Of the current obligation, or of another one.'),
    'why': ('', 'why the obligation is not discharged, and what there is to use',
            'Of each open leaf the goal and the hypotheses that share names with it; of a broken proof the first rule that does not apply, and what it wants.'),
    'hint': ('[N]', 'rules that fit the goal, or hypothesis N, by their shape', '`do K` does the Kth of them.'),
    'do': ('K [ITEMS]', 'the Kth proposal of `hint`', 'With the items that it asks for: `do 2 e x + 1`.'),
    'auto': ('[PO]', 'the prover on the whole obligation', 'Of the current one, or of another one; only where it is unattempted or broken.'),
    'try': ('[all]', 'the prover at the current leaf, or at all open leaves',
            'The leaf\'s sequent is proved in a session of its own; the steps come back to this one, which tests them like any other.'),
    'wait': ('', 'have everything tried that is left', 'Ctrl-C ends the waiting.'),
    'undo': ('', 'take back the last step or prune', ''),
    'redo': ('', 'make again what undo took back', ''),
    'prune': ('[PATH]', 'take out the rule at a path, with all below it', 'Without a path: the whole proof. `undo` brings it back.'),
    'review': ('', 'take the goal of the current leaf for proved', 'The obligation then counts as reviewed, not as discharged.'),
    'proofs': ('[FILE]', 'the proofs by hand as lines that replay', ''),
    'replay': ('FILE', 'send lines of proofs', 'What is discharged already is left alone.'),
    'move': ('OLD NEW', 'the proofs of an obligation or a component that was renamed, made again under its new name',
             'As far as they fit; what has a proof is left as it is. `purge` removes the old ones.'),
    'text': ('NAME', 'the text of a component, with line numbers', ''),
    'edit': ('NAME', 'the text of a component in $EDITOR, then load', ''),
    'bring': ('FILE', 'files of Rodin (.zip, .buc, .bum) as texts into the folder', 'No file of the folder is written over.'),
    'help': ('[WORD]', 'the words, or one of them', 'Of a rule: its items. Of a number: what that law does.'),
    'quit': ('', 'end', 'What was answered is kept.')}
"""From each word to its arguments, a line, and more."""

RAW = {'status': 'the status of each obligation', 'build': 'build the texts as they are',
       'show': 'PO [PATH]: a sequent', 'step': 'PO PATH RULE ITEMS: a rule at a leaf',
       'delete': 'NAME: drop a component from the session', 'purge': 'remove the proofs of obligations that are gone', 'digest': 'the digest of what lasts',
       'follows': 'PO: whether its proof goes by logic and integers alone'}
"""Commands of the session (docs/SESSION.md) that are no words of the prompt; they are sent as they are."""


def short() -> Iterator[str]:
    """The words, a line each."""
    for word, (arguments, line, _) in WORDS.items():
        yield f'{word} {arguments}'.ljust(18) + line
    yield 'RULE ITEMS'.ljust(18) + 'a rule at the current leaf: ' + ' '.join(rule_words.KINDS)
    yield 'Items are separated by ;; and signs may be typed in ASCII: cut p x : NAT. Other lines go to the session as they are. TAB completes.'


def long(word: str) -> Iterator[str]:
    """All about one word."""
    if word in WORDS:
        arguments, line, more = WORDS[word]
        yield f'{word} {arguments}'.rstrip() + f': {line}'
        if more:
            yield more
    elif word in rule_words.KINDS:
        yield f'{rule_words.form(word)}: {rule_words.KINDS[word].says}'
    elif word.isdigit() and int(word) in rule_words.LAWS:
        yield f'rwGoal w {word} PLACE, rwHyp h N ;; w {word} PLACE: {rule_words.LAWS[int(word)]}'
    elif word in RAW:
        yield f'{word}: {RAW[word]} (docs/SESSION.md)'
    else:
        yield f'no word {word}: help'
