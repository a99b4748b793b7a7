"""`rodin-web FOLDER`: the page over a project, on 127.0.0.1 alone.

It prints the page's address, which has a token in it, and opens a browser. The page is for whoever has the address, and for no other page.
"""
from __future__ import annotations

import argparse
import os
import signal
import sys
import threading
import webbrowser
from typing import Any, Optional, Sequence

from .engine import Ended
from .web_desk import Desk
from .web_http import Server


def parser() -> argparse.ArgumentParser:
    """The words of the command line."""
    made = argparse.ArgumentParser(prog='rodin-web', description=__doc__.split('\n', 1)[0] if __doc__ else None)
    made.add_argument('folder', nargs='?', default='.', help='the folder of the project: its texts are *.eventb there (default: this one)')
    made.add_argument('--workers', type=int, default=2, choices=range(9), metavar='0..8', help='how many provers work beside you (default: 2)')
    made.add_argument('--port', type=int, default=0, help='the port on 127.0.0.1 (default: a free one)')
    made.add_argument('--no-browser', action='store_true', help='print the address alone')
    made.add_argument('--no-prover', action='store_true', help='no workers, and nothing is tried unasked')
    return made


def main(words: Optional[Sequence[str]] = None) -> int:
    """Serves until it is interrupted. 0, or 3 where the folder or the program failed."""
    given = parser().parse_args(words)
    if not os.path.isdir(given.folder):
        print(f'rodin-web: {given.folder} is no folder', file=sys.stderr)
        return 3
    try:
        desk = Desk(given.folder, 0 if given.no_prover else given.workers, sweep=not given.no_prover)
    except (Ended, OSError) as fault:
        hint = ' (is another session open in the folder?)' if str(fault) == 'project: disk fault' else ''
        print(f'rodin-web: {fault}{hint}', file=sys.stderr)
        return 3
    try:
        server = Server(desk, given.port)
    except OSError as fault:
        desk.close()
        print(f'rodin-web: port {given.port}: {fault.strerror}', file=sys.stderr)
        return 3

    def stop(number: int, frame: Any) -> None:
        threading.Thread(target=server.shutdown, daemon=True).start()
    signal.signal(signal.SIGTERM, stop)
    signal.signal(signal.SIGINT, stop)
    print(server.address, flush=True)
    if not given.no_browser:
        webbrowser.open(server.address)
    server.serve_forever(poll_interval=0.1)
    desk.close()
    server.server_close()
    return 0


if __name__ == '__main__':
    sys.exit(main())
