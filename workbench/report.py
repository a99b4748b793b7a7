"""What a run leaves: lines that editors read, JUnit XML, an HTML page. All of it from the session's replies and the folder's texts."""
from __future__ import annotations

import html
import re
import xml.etree.ElementTree as ET
from typing import Iterator

from . import lint, replies
from .project import Project
from .texts import Warn

COLOURS = {'discharged': '#1a7f37', 'reviewed': '#0969da', 'pending': '#9a6700', 'broken': '#cf222e', 'unattempted': '#6e7781'}
_NO_XML = re.compile('[^\t\n\r\x20-\ud7ff\ue000-\ufffd\U00010000-\U0010ffff]')

STYLE = '''body{font:14px sans-serif;margin:2em;max-width:75em}td{padding:0 .8em;font-family:monospace}h2{margin:1.5em 0 .3em}
pre{background:#8881;padding:.6em;overflow:auto;white-space:pre-wrap}.f{color:#cf222e;font-family:monospace}.w{color:#9a6700;font-family:monospace}
.mark{background:#cf222e40}summary{cursor:pointer}'''


def fault_line(project: Project, fault: replies.Fault) -> str:
    """FILE:LINE:COLUMN: text, as editors read it."""
    file, line = project.folder.place(fault.component, fault.line)
    if fault.kind == 0 and fault.component not in project.folder.components():
        file, _, text = fault.text.partition(': ')
        return f'{project.folder.prefix}{file}:1:1: {text}'
    return f'{project.folder.prefix}{file}:{line}:{fault.column}: {fault.text}'


def warn_line(project: Project, warn: Warn) -> str:
    """FILE:LINE:COLUMN: warning: text."""
    return f'{project.folder.prefix}{warn.file}:{warn.line}:{warn.column}: warning: {warn.text}'


def warnings(project: Project) -> list[Warn]:
    """The program's warnings, at the beginning of their machines, and the workbench's own."""
    said = [Warn(*project.folder.place(machine, 1), 1, words) for machine, words in project.warnings]
    return sorted([*said, *lint.warnings(project.folder)])


def fault_lines(project: Project) -> list[str]:
    """The lines of all faults, then of all warnings."""
    return [fault_line(project, fault) for _, fault in sorted(project.faults.items())] + [warn_line(project, warn) for warn in warnings(project)]


def counted(project: Project) -> str:
    """How many obligations there are of each status."""
    counts = replies.summary(project.statuses)
    return f'{len(project.statuses)} obligations: ' + ', '.join(f'{count} {status}' for status, count in counts.items())


def sequents(project: Project, names: list[str]) -> dict[str, list[str]]:
    """The sequent of each obligation, as `show` prints it."""
    return dict(zip(names, project.engine.send([f'show {name}' for name in names]).result())) if names else {}


def _said(text: str) -> str:
    return _NO_XML.sub('\ufffd', text)


def junit(project: Project, seconds: float) -> str:
    """A test case for each obligation and each fault: what is open fails, what is reviewed is skipped, a fault is an error."""
    found, faults = project.statuses, project.faults
    shown = sequents(project, project.open_ones())
    reviewed = [name for name, (status, _) in found.items() if status == 'reviewed']
    suite = ET.Element('testsuite', name='rodin', tests=str(len(found) + len(faults)), failures=str(len(shown)), errors=str(len(faults)),
                       skipped=str(len(reviewed)), time=f'{seconds:.3f}')
    for name, (status, _) in found.items():
        component, rest = name.split('/', 1)
        case = ET.SubElement(suite, 'testcase', classname=component, name=rest)
        if status == 'reviewed':
            ET.SubElement(case, 'skipped', message='reviewed')
        elif status != 'discharged':
            ET.SubElement(case, 'failure', message=status).text = _said('\n'.join(shown[name]))
    for fault in faults.values():
        case = ET.SubElement(suite, 'testcase', classname=fault.component, name='static check')
        ET.SubElement(case, 'error', message=_said(fault_line(project, fault)))
    if warnings(project):
        ET.SubElement(suite, 'system-out').text = _said('\n'.join(warn_line(project, warn) for warn in warnings(project)))
    return '<?xml version="1.0" encoding="UTF-8"?>\n' + ET.tostring(suite, encoding='unicode') + '\n'


def page(project: Project) -> str:
    """One HTML page without script: faults and warnings; of each component its text and its obligations, with the sequents of what is open."""
    e = html.escape
    out = [f'<!doctype html><html lang="en"><meta charset="utf-8"><title>rodin</title><style>{STYLE}</style>',
           f'<h1>Proof obligations</h1><p>{e(counted(project))}</p>']
    out += [f'<p class="f">{e(fault_line(project, fault))}</p>' for _, fault in sorted(project.faults.items())]
    out += [f'<p class="w">{e(warn_line(project, warn))}</p>' for warn in warnings(project)]
    shown = sequents(project, project.open_ones(True))
    for name, (file, part) in sorted(project.folder.components().items()):
        found = {n: status for n, status in project.statuses.items() if replies.component_of(n) == name}
        done = sum(status == 'discharged' for status, _ in found.values())
        out.append(f'<h2 id="{e(name)}">{e(name)}</h2><p>{e(file)}, {done} of {len(found)} discharged</p>')
        out.append(f'<details><summary>text</summary><pre>{_marked(part.text, project.told.get(name))}</pre></details>')
        out += _table(found, shown)
    return '\n'.join([*out, '</html>', ''])


def _marked(text: str, fault: 'replies.Fault | None') -> str:
    """A text with the sign at its fault marked."""
    if fault is None:
        return html.escape(text)
    at = sum(len(line) for line in text.splitlines(keepends=True)[:fault.line - 1]) + fault.column - 1
    return f'{html.escape(text[:at])}<span class="mark">{html.escape(text[at:at + 1] or " ")}</span>{html.escape(text[at + 1:])}'


def _table(found: dict[str, replies.Status], shown: dict[str, list[str]]) -> Iterator[str]:
    """The obligations of a component; under the table what is open."""
    if found:
        rows = (f'<tr><td>{html.escape(name)}<td style="color:{COLOURS[status]}">{status}<td>{origin}' for name, (status, origin) in found.items())
        yield '<table>' + '\n'.join(rows) + '</table>'
    for name in found:
        if name in shown:
            yield f'<pre>{html.escape(chr(10).join(shown[name]))}</pre>'
