"""Who may ask, and how an answer goes out: the page's files, a stream of events, and doors for POSTs of JSON.

The address has a random token as its first part. A request needs it, the Host of this server, and no other Origin or site; a POST needs
the Origin. Nothing is loaded from elsewhere, and the policy sent with each answer says so to the browser, too.
"""
from __future__ import annotations

import hmac
import json
import os
import queue
import secrets
import sys
from http.server import BaseHTTPRequestHandler, ThreadingHTTPServer
from typing import Any, Optional

from .commands import Refused
from .engine import Ended
from .web_desk import Desk, packed

PAGE = os.path.join(os.path.dirname(os.path.abspath(__file__)), 'page')
KINDS = {'.html': 'text/html', '.css': 'text/css', '.js': 'text/javascript', '.svg': 'image/svg+xml'}
POLICY = ("default-src 'none'; script-src 'self'; style-src 'self'; img-src 'self'; connect-src 'self'; base-uri 'none'; form-action 'none'; "
          "frame-ancestors 'none'; require-trusted-types-for 'script'; trusted-types 'none'")
HEADERS = {'Content-Security-Policy': POLICY, 'X-Content-Type-Options': 'nosniff', 'X-Frame-Options': 'DENY', 'Referrer-Policy': 'no-referrer',
           'Cross-Origin-Resource-Policy': 'same-origin', 'Cross-Origin-Opener-Policy': 'same-origin', 'Cache-Control': 'no-store'}
LARGEST = 32 * 1024 * 1024
"""Bytes of a request."""

STILL = 15.0
"""Seconds behind which a stream with nothing to tell says so, and finds out whether its page is there."""


def page_files() -> dict[str, str]:
    """The files of the page by what stands behind the token; the page itself stands behind nothing."""
    found = {name: os.path.join(PAGE, name) for name in os.listdir(PAGE) if os.path.splitext(name)[1] in KINDS}
    return {**{name: path for name, path in found.items() if name != 'index.html'}, '': found['index.html']}


class Server(ThreadingHTTPServer):
    """Serves a desk on 127.0.0.1; silent where a page has gone."""
    daemon_threads = True
    request_queue_size = 32

    def __init__(self, desk: Desk, port: int = 0) -> None:
        super().__init__(('127.0.0.1', port), Handler)
        self.desk, self.token, self.files = desk, secrets.token_urlsafe(24), page_files()
        self.host = f'127.0.0.1:{self.server_address[1]}'

    @property
    def address(self) -> str:
        """The page's address with the token."""
        return f'http://{self.host}/{self.token}/'

    def server_bind(self) -> None:
        """Without asking for a name of the host, which may take long."""
        super(ThreadingHTTPServer, self).server_bind()

    def handle_error(self, request: Any, client_address: Any) -> None:
        """Prints what isn't a lost connection."""
        if not isinstance(sys.exc_info()[1], OSError):
            super().handle_error(request, client_address)


class Handler(BaseHTTPRequestHandler):
    """One connection."""
    server: Server
    protocol_version = 'HTTP/1.1'
    server_version, sys_version = 'rodin-web', ''
    wbufsize = -1
    disable_nagle_algorithm = True
    timeout = 60

    def log_message(self, format: str, *args: Any) -> None:  # pylint: disable=redefined-builtin
        """Nothing is printed for a request."""

    def route(self) -> Optional[str]:
        """What stands behind the token; None where the request isn't of this page."""
        hosts: list[str] = self.headers.get_all('Host', [])
        origins: list[str] = self.headers.get_all('Origin', [])
        if hosts != [self.server.host] or origins not in ([], [f'http://{self.server.host}']):
            return None
        if self.command == 'POST' and not origins:
            return None
        if self.headers.get('Sec-Fetch-Site', 'none') not in ('none', 'same-origin'):
            return None
        parts = self.path.split('?')[0].split('/')
        if len(parts) != 3 or parts[0] or not hmac.compare_digest(parts[1].encode('utf-8', 'replace'), self.server.token.encode()):
            return None
        return parts[2]

    def answer(self, status: int, kind: str, body: bytes) -> None:
        """A whole answer."""
        self.send_response(status)
        self.send_header('Content-Type', f'{kind}; charset=utf-8')
        self.send_header('Content-Length', str(len(body)))
        for name, value in HEADERS.items():
            self.send_header(name, value)
        if self.close_connection:
            self.send_header('Connection', 'close')
        self.end_headers()
        if self.command != 'HEAD':
            self.wfile.write(body)

    def refuse(self, status: int, words: str) -> None:
        """A refusal; what the request still has isn't read."""
        self.close_connection = True
        self.answer(status, 'text/plain', words.encode())

    def do_GET(self) -> None:  # pylint: disable=invalid-name
        """The page's files and the events."""
        route = self.route()
        if route is None:
            self.refuse(403, 'not for you')
        elif route == 'events':
            self.events()
        elif route in self.server.files:
            path = self.server.files[route]
            with open(path, 'rb') as opened:
                self.answer(200, KINDS[os.path.splitext(path)[1]], opened.read())
        else:
            self.refuse(405 if route in Desk.DOORS else 404, 'not here')

    def do_HEAD(self) -> None:  # pylint: disable=invalid-name
        """As GET, but never a stream."""
        self.refuse(405, 'not so')

    def events(self) -> None:
        """The whole state, then what changes, until the page goes. What came meanwhile is told twice, in its order, so nothing older stays."""
        mine: 'queue.Queue[Optional[bytes]]' = queue.Queue()
        desk = self.server.desk
        desk.streams.append(mine)
        self.close_connection = True
        try:
            self.send_response(200)
            self.send_header('Content-Type', 'text/event-stream; charset=utf-8')
            self.send_header('Connection', 'close')
            for name, value in HEADERS.items():
                self.send_header(name, value)
            self.end_headers()
            self.wfile.write(b'retry: 1000\n' + packed('state', desk.state({})))
            self.wfile.flush()
            while True:
                try:
                    told = mine.get(timeout=STILL)
                    if told is None:
                        return
                    self.wfile.write(told)
                except queue.Empty:
                    self.wfile.write(b': here\n\n')
                if mine.empty():
                    self.wfile.flush()
        except OSError:
            pass
        finally:
            if mine in desk.streams:
                desk.streams.remove(mine)

    def do_POST(self) -> None:  # pylint: disable=invalid-name
        """A door of the desk."""
        route = self.route()
        given: list[str] = self.headers.get_all('Content-Length', [])
        if route is None:
            return self.refuse(403, 'not for you')
        if route not in Desk.DOORS:
            return self.refuse(404, 'not here')
        if self.headers.get_content_type() != 'application/json':
            return self.refuse(415, 'JSON alone')
        if len(given) != 1 or not given[0].isascii() or not given[0].isdigit() or 'Transfer-Encoding' in self.headers:
            return self.refuse(411, 'with its length')
        if len(given[0]) > 12 or int(given[0]) > LARGEST:
            return self.refuse(413, 'too large')
        status, out = self.ask(route, self.rfile.read(int(given[0])))
        self.answer(status, 'application/json', json.dumps(out, ensure_ascii=False).encode('utf-8', 'replace'))
        return None

    def ask(self, route: str, body: bytes) -> tuple[int, Any]:
        """A status and an answer; refusals and faults are told in words."""
        try:
            given = json.loads(body or b'{}')
            if not isinstance(given, dict):
                raise ValueError('no object')
            return 200, getattr(self.server.desk, route)(given)
        except Ended as fault:
            return 503, {'error': f'the session ended: {fault}'}
        except (Refused, ValueError, LookupError, TypeError, AttributeError, OSError, RecursionError) as fault:
            return 400, {'error': str(fault) or type(fault).__name__}
