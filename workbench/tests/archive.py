"""A small project as the Rodin platform would export it: a context, two machines, a Greek name, a label with a blank, theorems, statuses."""
from __future__ import annotations

import itertools
import zipfile
from xml.sax.saxutils import quoteattr

CORE = 'org.eventb.core.'
HEAD = '<?xml version="1.0" encoding="UTF-8"?>\n'
_names = itertools.count()


def element(tag: str, *kids: str, **given: str) -> str:
    """An element of Rodin's format; its attributes are those of the core."""
    words = ''.join(f' {CORE}{name}={quoteattr(value)}' for name, value in given.items())
    return f'<{CORE}{tag} name="e{next(_names)}"{words}>{"".join(kids)}</{CORE}{tag}>'


def event(label: str, *kids: str, refines: str = '', extended: bool = False) -> str:
    """An event."""
    more = [element('refinesEvent', target=refines)] if refines else []
    return element('event', *kids, *more, label=label, convergence='0', extended=str(extended).lower())


def machine(*kids: str) -> str:
    """A machine file."""
    return f'{HEAD}<{CORE}machineFile {CORE}configuration="{CORE}fwd" version="5">{"".join(kids)}</{CORE}machineFile>'


def invariant(label: str, predicate: str, **more: str) -> str:
    """An invariant."""
    return element('invariant', label=label, predicate=predicate, **more)


def guard(label: str, predicate: str) -> str:
    """A guard."""
    return element('guard', label=label, predicate=predicate)


def action(label: str, assignment: str) -> str:
    """An action."""
    return element('action', label=label, assignment=assignment)


def named(tag: str, *names: str) -> list[str]:
    """Elements with identifiers."""
    return [element(tag, identifier=name) for name in names]


def files() -> dict[str, str]:
    """The files of the project by name."""
    shelves = (f'{HEAD}<{CORE}contextFile {CORE}configuration="{CORE}fwd" version="3" {CORE}comment="Books of a library.">'
               + ''.join(named('carrierSet', 'BOOK', 'MEMBER')) + element('constant', identifier='μ', comment='how many books there is room for')
               + element('axiom', label='axm 1', predicate='μ ∈ ℕ1') + element('axiom', label='room', predicate='∃n·n ∈ ℕ ∧ n ∗ n < μ', theorem='true')
               + f'</{CORE}contextFile>')
    library0 = machine(
        element('seesContext', target='shelves'), *named('variable', 'members', 'books', 'lent'),
        invariant('inv1', 'members ⊆ MEMBER'), invariant('inv2', 'books ⊆ BOOK'),
        invariant('inv3', 'lent ∈ books ⇸ members', comment='only books that we have, only to members'),
        event('INITIALISATION', action('act1', 'members ≔ ∅'), action('act2', 'books ≔ ∅'), action('act3', 'lent ≔ ∅')),
        event('join', *named('parameter', 'm'), guard('grd1', 'm ∈ MEMBER'), guard('grd2', 'm ∉ members'), action('act1', 'members ≔ members ∪ {m}')),
        event('buy', *named('parameter', 'b'), guard('grd1', 'b ∈ BOOK ∖ books'), action('act1', 'books ≔ books ∪ {b}')),
        event('lend', *named('parameter', 'b', 'm'), guard('grd1', 'b ∈ books'), guard('grd2', 'b ∉ dom(lent)'), guard('grd3', 'm ∈ members'), action('act1', 'lent(b) ≔ m')),
        event('bring', *named('parameter', 'b'), guard('grd1', 'b ∈ dom(lent)'), action('act1', 'lent ≔ {b} ⩤ lent')))
    library1 = machine(
        element('refinesMachine', target='library0'), element('seesContext', target='shelves'), *named('variable', 'members', 'books', 'lent', 'count'),
        invariant('inv4', 'count ∈ 0 ‥ μ'), event('INITIALISATION', action('act4', 'count ≔ 0'), extended=True),
        event('join', refines='join', extended=True),
        event('buy', guard('grd2', 'count < μ'), action('act2', 'count ≔ count + 1'), refines='buy', extended=True),
        event('lend', refines='lend', extended=True), event('bring', refines='bring', extended=True))
    proved = ['INITIALISATION/inv3/INV', 'join/inv3/INV', 'buy/inv3/INV', 'lend/inv3/INV', 'bring/inv3/INV']
    statuses = HEAD + f'<{CORE}psFile>' + ''.join(f'<{CORE}psStatus name={quoteattr(name)} {CORE}confidence="1000"/>' for name in proved) + f'</{CORE}psFile>'
    return {'.project': '<projectDescription><name>library</name></projectDescription>', 'shelves.buc': shelves, 'library0.bum': library0, 'library1.bum': library1,
            'library0.bps': statuses}


def write(path: str) -> None:
    """The archive."""
    with zipfile.ZipFile(path, 'w', zipfile.ZIP_DEFLATED) as made:
        for name, text in files().items():
            made.writestr(f'library/{name}', text)
