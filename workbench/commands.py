"""Command lines for a session: what may be sent, and how a text becomes an `edit`."""
from __future__ import annotations

BLANKS = ' \t\r\xa0'
"""What separates the words of a command line."""


class Refused(Exception):
    """A line that isn't sent, or a wish that can't be met; the text says why."""


def edit(name: str, text: str) -> str:
    """The lines of `edit NAME` for a text. A line that is `.` would end the edit, so it gets a blank: no column moves."""
    lines = text.split('\n')
    if lines[-1] == '':
        lines.pop()
    return '\n'.join([f'edit {name}'] + [line + ' ' if line.rstrip('\r') == '.' else line for line in lines] + ['.'])


def word(line: str) -> str:
    """The first word of a line as the session reads it."""
    bare = line.strip(BLANKS)
    for blank in BLANKS:
        bare = bare.split(blank, 1)[0]
    return bare


def raw(line: str) -> str:
    """A line that a user typed. An `edit` would take the end mark for text, and `quit` and `wait` aren't for a session that is shared."""
    if '\n' in line:
        raise Refused('one line at a time')
    if word(line) in ('edit', 'quit', 'wait'):
        raise Refused(f'"{word(line)}" is not sent as a raw line here')
    return line


def one_line(words: str) -> str:
    """Words as one command line."""
    if '\n' in words or '\r' in words:
        raise Refused('one line at a time')
    return words


def encoded(command: str) -> bytes:
    """The bytes of a command that has an end of its own: one line, or an edit whose only line `.` is its last one."""
    lines = command.split('\n')
    if word(lines[0]) == 'edit':
        if len(lines) < 2 or [line for line in lines[1:] if line.rstrip('\r') == '.'] != ['.'] or lines[-1] != '.':
            raise Refused('an edit needs one line "." at its end')
    elif len(lines) > 1 or word(command) == 'quit':
        raise Refused('one line at a time')
    try:
        return f'{command}\n'.encode()
    except UnicodeEncodeError as fault:
        raise Refused('half of a character can\'t be sent') from fault
