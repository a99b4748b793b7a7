"""A few lines of the DevTools protocol: enough to open a page in a headless chromium, ask it, type, press, click, and take a picture."""
from __future__ import annotations

import base64
import json
import os
import secrets
import shutil
import socket
import struct
import subprocess
import tempfile
import time
import urllib.request
from typing import Any, Optional

PROGRAMS = ('chromium', 'chromium-browser', 'google-chrome')
KEYS = {'Enter': 13, 'Escape': 27, 'Tab': 9, ' ': 32, 'ArrowDown': 40, 'ArrowUp': 38, 'ArrowLeft': 37, 'ArrowRight': 39, 'Home': 36, 'End': 35, 'Delete': 46,
        'F4': 115, 'F6': 117, 'F8': 119}
TEXTS = {'Enter': '\r', ' ': ' '}
WATCHED = ('Runtime.exceptionThrown', 'Log.entryAdded', 'Runtime.consoleAPICalled', 'Page.javascriptDialogOpening', 'Network.requestWillBeSent')


def program() -> Optional[str]:
    """The browser: CHROMIUM names it, or it is on the path."""
    named = os.environ.get('CHROMIUM')
    return shutil.which(named) if named else next((found for name in PROGRAMS if (found := shutil.which(name))), None)


class Browser:
    """A headless chromium with one page. `errors` has what went wrong there, `asked` every address that it asked for."""

    def __init__(self, width: int = 1500, height: int = 950) -> None:
        self.room = tempfile.mkdtemp()
        flags = ['--headless=new', '--no-sandbox', '--disable-gpu', '--disable-dev-shm-usage', '--remote-debugging-port=0', '--no-first-run', '--lang=en',
                 '--disable-background-networking', '--disable-component-update', '--hide-scrollbars', f'--user-data-dir={self.room}', f'--window-size={width},{height}']
        self.process = subprocess.Popen([program() or 'chromium', *flags, 'about:blank'], stdout=subprocess.DEVNULL, stderr=subprocess.DEVNULL)
        port = self._port()
        address = self._page(port)
        self.socket = socket.create_connection(('127.0.0.1', port))
        self.file, self.count = self.socket.makefile('rb'), 0
        self.told: list[dict[str, Any]] = []
        key = base64.b64encode(secrets.token_bytes(16)).decode()
        self.socket.sendall(f'GET {address} HTTP/1.1\r\nHost: 127.0.0.1:{port}\r\nUpgrade: websocket\r\nConnection: Upgrade\r\n'
                            f'Sec-WebSocket-Key: {key}\r\nSec-WebSocket-Version: 13\r\n\r\n'.encode())
        while self.file.readline() not in (b'\r\n', b''):
            pass
        for domain in ('Page', 'Runtime', 'Log', 'Network'):
            self.call(f'{domain}.enable')
        self.size(width, height)

    def _port(self) -> int:
        port_file = os.path.join(self.room, 'DevToolsActivePort')
        for _ in range(600):
            if os.path.exists(port_file):
                with open(port_file, encoding='ascii') as file:
                    lines = file.read().split('\n')
                if len(lines) > 1:
                    return int(lines[0])
            time.sleep(0.1)
        raise TimeoutError('the browser does not start')

    @staticmethod
    def _page(port: int) -> str:
        for _ in range(100):
            with urllib.request.urlopen(f'http://127.0.0.1:{port}/json') as answer:
                pages = [page for page in json.load(answer) if page['type'] == 'page']
            if pages:
                return str(pages[0]['webSocketDebuggerUrl'].split(f':{port}', 1)[1])
            time.sleep(0.1)
        raise TimeoutError('the browser has no page')

    def _send(self, data: bytes) -> None:
        mask, size = secrets.token_bytes(4), len(data)
        head = bytes([0x80 | size]) if size < 126 else b'\xfe' + struct.pack('>H', size) if size < 65536 else b'\xff' + struct.pack('>Q', size)
        self.socket.sendall(b'\x81' + head + mask + bytes(c ^ mask[i % 4] for i, c in enumerate(data)))

    def _frame(self) -> bytes:
        whole = b''
        while True:
            first, second = self.file.read(2)
            size = second & 127
            if size > 125:
                size = struct.unpack('>H' if size == 126 else '>Q', self.file.read(2 if size == 126 else 8))[0]
            whole += self.file.read(size)
            if first & 0x80:
                return whole

    def call(self, method: str, **given: Any) -> dict[str, Any]:
        """A command of the protocol and its result; events that matter are kept."""
        self.count += 1
        self._send(json.dumps({'id': self.count, 'method': method, 'params': given}).encode())
        while True:
            answer = json.loads(self._frame())
            if answer.get('id') == self.count:
                if 'error' in answer:
                    raise RuntimeError(answer['error'])
                found: dict[str, Any] = answer['result']
                return found
            if answer.get('method') in WATCHED:
                self.told.append(answer)
            if answer.get('method') == 'Page.javascriptDialogOpening':
                self._send(json.dumps({'id': 0, 'method': 'Page.handleJavaScriptDialog', 'params': {'accept': True}}).encode())

    def ask(self, script: str) -> Any:
        """The value of an expression on the page; promises are awaited."""
        out = self.call('Runtime.evaluate', expression=script, awaitPromise=True, returnByValue=True, userGesture=True, allowUnsafeEvalBlockedByCSP=False)
        if 'exceptionDetails' in out:
            raise RuntimeError(json.dumps(out['exceptionDetails'])[:500])
        return out['result'].get('value')

    def until(self, script: str, seconds: float = 60) -> float:
        """Waits until an expression is true; the seconds that it took."""
        begun = time.monotonic()
        while not self.ask(f'!!({script})'):
            if time.monotonic() - begun > seconds:
                raise TimeoutError(f'{script}\n{self.ask("document.body.innerText")[:3000]}')
            time.sleep(0.02)
        return time.monotonic() - begun

    def open(self, address: str) -> None:
        """Goes to a page."""
        self.call('Page.navigate', url=address)
        self.until('document.readyState === "complete"')

    def size(self, width: int, height: int = 950) -> None:
        """The size of the window's inside."""
        self.call('Emulation.setDeviceMetricsOverride', width=width, height=height, deviceScaleFactor=1, mobile=False)

    def dark(self, dark: bool) -> None:
        """Whether the system prefers dark colours."""
        self.call('Emulation.setEmulatedMedia', features=[{'name': 'prefers-color-scheme', 'value': 'dark' if dark else 'light'}])

    def press(self, key: str, modifiers: int = 0) -> None:
        """A key by its name; modifiers are 1 for Alt, 2 for Control, 8 for Shift."""
        code = KEYS.get(key, ord(key.upper()[0]))
        text = TEXTS.get(key, key if len(key) == 1 and not modifiers & 3 else '')
        more = {'text': text} if text else {}
        self.call('Input.dispatchKeyEvent', type='keyDown' if text else 'rawKeyDown', key=key, code=f'Key{key.upper()}' if key.isalpha() and len(key) == 1 else key,
                  windowsVirtualKeyCode=code, modifiers=modifiers, **more)
        self.call('Input.dispatchKeyEvent', type='keyUp', key=key, windowsVirtualKeyCode=code, modifiers=modifiers)

    def type(self, text: str) -> None:
        """Real key events, one for each character."""
        for sign in text:
            if sign == '\n':
                self.press('Enter')
            else:
                self.call('Input.dispatchKeyEvent', type='keyDown', text=sign, key=sign)
                self.call('Input.dispatchKeyEvent', type='keyUp', key=sign)

    def click(self, element: str) -> None:
        """A real click into an element, which an expression gives; it waits until the element is there."""
        self.until(f'{element} && {element}.getClientRects().length && !{element}.disabled')
        x, y = self.ask(f'(() => {{ const e = {element}; e.scrollIntoView({{block: "nearest"}}); const r = e.getClientRects()[0]; '
                        'return [r.left + Math.min(r.width, 40) / 2, r.top + r.height / 2] })()')
        for kind in ('mouseMoved', 'mousePressed', 'mouseReleased'):
            self.call('Input.dispatchMouseEvent', type=kind, x=x, y=y, button='none' if kind == 'mouseMoved' else 'left', clickCount=1)

    def picture(self, file: str) -> None:
        """Writes what is seen as a PNG."""
        with open(file, 'wb') as out:
            out.write(base64.b64decode(self.call('Page.captureScreenshot', format='png')['data']))

    @property
    def errors(self) -> list[dict[str, Any]]:
        """Exceptions, and entries of the console that are errors."""
        return [told['params'] for told in self.told if told['method'] == 'Runtime.exceptionThrown' or told['method'] == 'Log.entryAdded'
                and told['params']['entry']['level'] == 'error']

    @property
    def asked(self) -> list[str]:
        """The addresses that were asked for."""
        return [told['params']['request']['url'] for told in self.told if told['method'] == 'Network.requestWillBeSent']

    def close(self) -> None:
        """Ends it, and removes what it kept."""
        try:
            self.call('Browser.close')
        except (OSError, ValueError, RuntimeError):
            pass
        self.file.close()
        self.socket.close()
        try:
            self.process.wait(timeout=20)
        except subprocess.TimeoutExpired:
            self.process.kill()
            self.process.wait()
        shutil.rmtree(self.room, ignore_errors=True)
