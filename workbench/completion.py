"""What TAB offers at the prompt: words, obligations, paths, rules, hypotheses that fit, names of the sequent, files."""
from __future__ import annotations

import glob

from . import formulas, replies, rule_words, rules, shell_words
from .shell import Shell

FILES, NAMED, PATHS = ('load', 'bring', 'replay', 'proofs'), ('po', 'show', 'tree', 'follows', 'ls', 'open', 'step'), ('leaf', 'prune')


class Completer:
    """Offers of one shell. `shown` has, by offer, a longer line to be listed for it."""

    def __init__(self, shell: Shell) -> None:
        self.shell = shell
        self.shown: dict[str, str] = {}

    def offers(self, buffer: str, text: str) -> list[str]:
        """What may stand where `text` is the beginning, at the end of the buffer."""
        self.shown = {}
        before = buffer[:len(buffer) - len(text)].split()
        if not before:
            found = [*shell_words.WORDS, *shell_words.RAW, *rules.KINDS]
        elif before[0] in FILES:
            return sorted(glob.glob(glob.escape(text) + '*'))
        elif before[0] == 'help':
            found = [*shell_words.WORDS, *shell_words.RAW, *rules.KINDS]
        elif before[0] in ('edit', 'text', 'delete'):
            found = list(self.shell.project.folder.components())
        elif before[0] in NAMED and len(before) == 1:
            found = list(self.shell.project.statuses)
        elif before[0] == 'step' and len(before) == 3:
            found = list(rules.KINDS)
        elif before[0] in PATHS and self.shell.proof:
            found = [node.path for node in self.shell.proof.nodes if before[0] == 'prune' or node.rule is None]
        else:
            found = self.items(before)
        return [offer for offer in found if offer.startswith(text)]

    def items(self, before: list[str]) -> list[str]:
        """Within the items of a rule: hypotheses behind `h`, laws behind `w`, else names of the sequent."""
        proof = self.shell.proof
        shown = [] if proof is None or proof.leaf is None else proof.show()
        if not shown or replies.refusal(shown):
            return []
        sequent = replies.sequent(shown)
        if before[-1] == 'h':
            return self.hypotheses(before, sequent)
        if before[-1] == 'w':
            self.shown = {str(law): f'{law}: {says}' for law, says in rules.LAW_SAYS.items()}
            return list(self.shown)
        return sorted(formulas.names(sequent.goal).union(*map(formulas.names, sequent.hypotheses)))

    def hypotheses(self, before: list[str], sequent: replies.Sequent) -> list[str]:
        """The hypotheses that fit the rule's first item; for a later one all."""
        kind = rule_words.KINDS.get(before[0]) if ';;' not in before or before[0] == 'linear' else None
        heads = kind.heads.split() if kind else []
        for n, text in enumerate(sequent.hypotheses, 1):
            tree = formulas.try_read(text)
            if not heads or tree is None or tree.op in heads:
                self.shown[str(n)] = f'{n}: {text}'
        return list(self.shown)
