"""The server of the page: who may ask, what it may be asked, and what a page sees when the session or another page does something."""
from __future__ import annotations

import base64
import http.client
import io
import json
import os
import re
import signal
import socket
import subprocess
import sys
import threading
import time
import unittest
import zipfile
from typing import Any, Optional

from rooms import BOOM, EXAMPLES, PROGRAM, SETS, TOP, Room, needs_program
from workbench import scan, web_copy, web_desk
from workbench.web_desk import Desk
from workbench.web_http import LARGEST, Server

CROSSING = '''machine crossing variables trains cars
invariants @inv1 trains ∈ ℕ @inv2 cars ∈ ℕ @safe trains = 0 ∨ cars = 0
events event INITIALISATION then @act1 trains, cars ≔ 0, 0 end
  event train_in then @act1 trains ≔ trains + 1 end
end
'''
SPLIT = 'context split constants p q axioms @axm1 p = 1 @axm2 q = 2 theorem @thm1 p = 1 ∧ (q = 2 ∨ q = 3) end\n'


class Stream:
    """The events of a page, read by a thread."""

    def __init__(self, server: Server) -> None:
        self.connection = http.client.HTTPConnection('127.0.0.1', server.server_address[1], timeout=30)
        self.connection.request('GET', f'/{server.token}/events')
        self.answer = self.connection.getresponse()
        self.heard: list[tuple[str, Any]] = []
        self.over = threading.Event()
        threading.Thread(target=self._read, daemon=True).start()

    def _read(self) -> None:
        event = ''
        try:
            for line in self.answer:
                if line.startswith(b'event: '):
                    event = line[7:].decode().strip()
                elif line.startswith(b'data: '):
                    self.heard.append((event, json.loads(line[6:])))
        except (OSError, ValueError, http.client.HTTPException):
            pass
        self.over.set()

    def of(self, event: str) -> list[Any]:
        """What was told so far under a name."""
        return [data for name, data in list(self.heard) if name == event]

    def statuses(self) -> dict[str, list[str]]:
        """The statuses as a page has them after all that it heard."""
        found: dict[str, list[str]] = {}
        for name, data in list(self.heard):
            if name == 'state':
                found = dict(data['statuses'])
            elif name == 'statuses':
                for gone in data['gone']:
                    found.pop(gone, None)
                found.update(data['changed'])
        return found

    def close(self) -> None:
        """Goes away as a page does."""
        try:
            if self.connection.sock:
                self.connection.sock.shutdown(socket.SHUT_RDWR)
        except OSError:
            pass
        self.connection.close()


@needs_program
class Served(Room):
    """A desk over the room, with its server."""

    def serve(self, workers: int = 0, sweep: bool = False, **texts: str) -> Server:
        self.put(**texts)
        desk = Desk(self.room, workers, PROGRAM, sweep, every=0.05)
        self.server = Server(desk)
        threading.Thread(target=self.server.serve_forever, kwargs={'poll_interval': 0.02}, daemon=True).start()
        self.addCleanup(self.server.server_close)
        self.addCleanup(desk.close)
        self.addCleanup(self.server.shutdown)
        self.desk = desk
        return self.server

    def request(self, method: str = 'POST', path: str = 'state', body: bytes = b'{}', **given: Optional[str]) -> tuple[int, bytes, http.client.HTTPMessage]:
        """A bare request; a header given as None isn't sent."""
        headers: dict[str, Optional[str]] = {'Host': self.server.host, 'Origin': f'http://{self.server.host}', 'Content-Type': 'application/json', 'Content-Length': str(len(body))}
        headers.update({name.replace('_', '-'): value for name, value in given.items()})
        connection = http.client.HTTPConnection('127.0.0.1', self.server.server_address[1], timeout=30)
        connection.putrequest(method, path if path.startswith('/') else f'/{self.server.token}/{path}', skip_host=True, skip_accept_encoding=True)
        for name, value in headers.items():
            if value is not None:
                connection.putheader(name, value)
        connection.endheaders(body)
        answer = connection.getresponse()
        told = answer.status, answer.read(), answer.headers
        connection.close()
        return told

    def ask(self, door: str, **given: Any) -> Any:
        """What a door answers."""
        return json.loads(self.request(path=door, body=json.dumps(given).encode())[1])

    def stream(self) -> Stream:
        """A page's stream."""
        found = Stream(self.server)
        self.addCleanup(found.close)
        self.until(lambda: found.of('state'))
        return found


class WhoMayAsk(Served):
    """Host, Origin, site, token, method, type and size."""

    def test_only_the_page_itself(self) -> None:
        server = self.serve(boom=BOOM)
        port = server.server_address[1]
        self.assertEqual(self.request()[0], 200)
        self.assertEqual(self.request(Sec_Fetch_Site='same-origin')[0], 200)
        wrong: list[dict[str, Any]] = [
            {'Host': 'evil.example'}, {'Host': f'evil.example:{port}'}, {'Host': f'localhost:{port}'}, {'Host': '127.0.0.1'}, {'Host': None}, {'Host': f'127.0.0.1:{port}.evil.example'},
            {'Origin': 'http://evil.example'}, {'Origin': 'null'}, {'Origin': f'https://127.0.0.1:{port}'}, {'Origin': f'http://127.0.0.1:{port}/'}, {'Origin': None},
            {'Origin': f'http://127.0.0.1:{port + 1}'}, {'Sec_Fetch_Site': 'cross-site'}, {'Sec_Fetch_Site': 'same-site'},
            {'path': '/state'}, {'path': '/wrong/state'}, {'path': f'/{server.token[:-1]}/state'}, {'path': f'/{server.token}x/state'},
            {'path': f'/{server.token}/state/'}, {'path': f'/{server.token}/../state'}, {'path': f'/{server.token.swapcase()}/state'}]
        for given in wrong:
            self.assertEqual(self.request(**given)[0], 403, given)
        for path in ('proof_of', 'hear', '__init__', 'tell', 'project', 'close', 'web_desk.py', '..%2fweb_desk.py', '%2e%2e'):
            self.assertEqual(self.request(path=path)[0], 404, path)
        for path in ('..', '%2e%2e%2fweb_desk.py', 'index.html', '.', 'main.js%00'):
            self.assertEqual(self.request('GET', path)[0], 404, path)
        self.assertEqual(self.request('GET', 'save')[0], 405)
        self.assertEqual(self.request('HEAD', 'events')[0], 405)
        for method in ('PUT', 'DELETE', 'OPTIONS', 'PATCH', 'TRACE', 'CONNECT'):
            self.assertEqual(self.request(method)[0], 501, method)

    def test_types_and_sizes(self) -> None:
        self.serve(boom=BOOM)
        for kind in ('text/plain', 'application/x-www-form-urlencoded', 'multipart/form-data', None):
            self.assertEqual(self.request(Content_Type=kind)[0], 415, kind)
        self.assertEqual(self.request(Content_Length=str(LARGEST + 1))[0], 413)
        self.assertEqual(self.request(Content_Length='9' * 40)[0], 413)
        for length in (None, '-1', 'x', '', '1e3', '٣'):
            raw = length.encode('utf-8').decode('latin-1') if length else length
            self.assertEqual(self.request(Content_Length=raw)[0], 411, length)
        self.assertEqual(self.request(Transfer_Encoding='chunked')[0], 411)
        for body in (b'not json', b'[]', b'"x"', b'7', b'\xff', b'{"name": ' + b'[' * 100000, b'{}x'):
            self.assertEqual(self.request(body=body)[0], 400, body[:20])
        for door in Desk.DOORS:
            for given in ({'name': 7, 'po': [], 'path': {}, 'line': None, 'files': 'x', 'n': 'x', 'words': 7}, {'po': 'no/such/PO', 'path': '-', 'what': 'step', 'words': 'x'}):
                self.assertIn(self.request(path=door, body=json.dumps(given).encode())[0], (200, 400), (door, given))
        self.assertEqual(self.ask('raw', line='status')['reply'][-1], '2 obligations: 2 unattempted, 0 pending, 0 reviewed, 0 discharged, 0 broken')

    def test_what_the_browser_is_told(self) -> None:
        server = self.serve(boom=BOOM)
        self.assertEqual(server.server_address[0], '127.0.0.1')
        self.assertEqual(len(base64.urlsafe_b64decode(server.token)), 24)
        for path in ('', 'main.js', 'style.css', 'icon.svg', 'nothing'):
            status, page, headers = self.request('GET', path, Origin=None, Content_Type=None)
            self.assertEqual(status, 404 if path == 'nothing' else 200)
            policy = headers['Content-Security-Policy']
            self.assertTrue(policy.startswith("default-src 'none'; script-src 'self'; style-src 'self'; "), policy)
            self.assertNotIn('unsafe', policy)
            self.assertEqual((headers['X-Content-Type-Options'], headers['Referrer-Policy'], headers['Cache-Control']), ('nosniff', 'no-referrer', 'no-store'))
            self.assertNotIn('Access-Control-Allow-Origin', headers)
            self.assertNotIn(b'//', page.replace(b"'http://www.w3.org/2000/svg'", b'') if path == '' else b'')
        page_text = self.request('GET', '', Origin=None)[1].decode()
        self.assertIsNone(re.search(r'\son\w+=|style=|<script(?! type="module" src=)|javascript:', page_text))

    def test_a_path_outside_the_folder_is_refused(self) -> None:
        self.serve(boom=BOOM)
        outside = os.path.join(os.path.dirname(self.room), 'outside.eventb')
        for name in ('../outside', outside[:-7], '/etc/passwd', '..', '.', '', 'a/b', 'a\\b', 'a\x00', 'x' * 65, 'naïve', '\ud800', 'boom.eventb', '~root', 'C:x', ' boom'):
            for door in ('text', 'drop', 'save'):
                status, answer, _ = self.request(path=door, body=json.dumps({'name': name, 'text': 'context x end', 'was': None}).encode())
                self.assertEqual(status, 400, (door, name, answer))
            made = base64.b64encode(b'axioms').decode()
            self.request(path='bring', body=json.dumps({'files': [{'name': f'{name}.txt', 'data': made}]}).encode())
        self.assertFalse(os.path.exists(outside))
        self.assertEqual({file for file in os.listdir(self.room) if not file.startswith('rodin.')} - {'boom.eventb', 'a.eventb', 'b.eventb', 'passwd.eventb', 'outside.eventb'}, set())
        for line in ('edit x', ' edit x', 'quit', 'wait', 'status\nquit', '\u00a0edit x'):
            self.assertEqual(self.request(path='raw', body=json.dumps({'line': line}).encode())[0], 400, line)
        for words in ('andR\nquit', 'andR\rquit', '\ud800'):
            self.assertEqual(self.request(path='act', body=json.dumps({'po': 'boom/thm1/THM', 'path': '-', 'what': 'step', 'words': words}).encode())[0], 400, words)
        for path in ('0\nquit', '../0', 'x', '', '-1', '0..1'):
            self.assertEqual(self.request(path='act', body=json.dumps({'po': 'boom/thm1/THM', 'path': path, 'what': 'review'}).encode())[0], 400, path)

    def test_an_archive_stays_in_the_folder(self) -> None:
        self.serve()
        made = io.BytesIO()
        with zipfile.ZipFile(made, 'w') as archive:
            archive.writestr('../../../evil.buc', '<?xml version="1.0"?><org.eventb.core.contextFile/>')
            archive.writestr('/tmp/worse.bum', '<?xml version="1.0"?><org.eventb.core.machineFile/>')
        self.ask('bring', files=[{'name': 'p.zip', 'data': base64.b64encode(made.getvalue()).decode()}])
        self.assertEqual({f for f in os.listdir(self.room) if f.endswith('.eventb')} - {'evil.eventb', 'worse.eventb'}, set())
        for data in ('UEs=', 'UEsDBAoAAAA=', 'not base64!', base64.b64encode(b'PK' + os.urandom(300)).decode()):
            self.assertIn('error', self.ask('bring', files=[{'name': 'p.zip', 'data': data}]))


class Texts(Served):
    """Texts, other editors, and two pages."""

    def test_two_pages_on_one_project(self) -> None:
        self.serve(boom=BOOM)
        one, two = self.stream(), self.stream()
        was = self.ask('text', name='boom')['text']
        self.assertNotIn('changed', self.ask('save', name='boom', text=was.replace('0 < up', '1 < up'), was=was))
        self.until(lambda: two.of('texts') and two.of('texts')[-1]['components'][0]['mark'] != two.of('state')[0]['components'][0]['mark'])
        late = self.ask('save', name='boom', text=was.replace('10', '11'), was=was)
        self.assertEqual(late, {'changed': was.replace('0 < up', '1 < up')})
        self.assertEqual(self.ask('text', name='boom')['text'], was.replace('0 < up', '1 < up'))
        self.assertNotIn('changed', self.ask('save', name='boom', text=was, was=None))
        self.ask('act', po='boom/thm2/THM', path='-', what='auto')
        self.until(lambda: one.statuses().get('boom/thm2/THM') == ['discharged', 'prover'] == two.statuses().get('boom/thm2/THM'))
        self.assertEqual(self.ask('drop', name='boom')['built'], 'built: 0 components, 0 faulted, 0 obligations')
        self.until(lambda: one.statuses() == {} == two.statuses())
        self.assertEqual(self.ask('save', name='boom', text=BOOM, was=BOOM), {'changed': None})
        self.assertEqual(self.ask('save', name='fresh', text='context fresh end\n', was='')['built'], 'built: 1 components, 0 faulted, 0 obligations')
        self.assertEqual(self.ask('save', name='fresh', text='context fresh end\n', was=''), {'changed': 'context fresh end\n'})

    def test_line_ends_stay(self) -> None:
        self.serve()
        path = os.path.join(self.room, 'c.eventb')
        with open(path, 'w', encoding='utf-8', newline='') as file:
            file.write('context c\r\nend\r\n')
        self.until(lambda: self.desk.project.folder.text('c'))
        self.assertEqual(self.ask('text', name='c')['text'], 'context c\nend\n')
        self.ask('save', name='c', text='context c\nconstants x\nend\n', was='context c\nend\n')
        with open(path, encoding='utf-8', newline='') as file:
            self.assertEqual(file.read(), 'context c\r\nconstants x\r\nend\r\n')
        with open(path, 'w', encoding='utf-8', newline='') as file:
            file.write('context c // x\rend\n')
        self.until(lambda: 'error' in self.ask('text', name='c'))

    def test_many_saves_in_a_second(self) -> None:
        self.serve(boom=BOOM)
        page, was = self.stream(), BOOM
        texts = [BOOM.replace('10', str(n)) for n in range(20, 220)]
        threads = [threading.Thread(target=self.ask, args=('save',), kwargs={'name': 'boom', 'text': text, 'was': None}) for text in texts]
        for thread in threads:
            thread.start()
        for thread in threads:
            thread.join()
        self.ask('save', name='boom', text=was, was=None)
        self.assertEqual(self.ask('text', name='boom')['text'], was)
        self.assertIn('1: 10 ≤ up', self.ask('raw', line='show boom/thm2/THM')['reply'])
        self.until(lambda: set(page.statuses()) == {'boom/thm1/THM', 'boom/thm2/THM'})

    def test_faults_warnings_and_notes(self) -> None:
        cycle = 'machine m variables x events event INITIALISATION then @a x ≔ 0 end end'
        self.serve(c='context c constants k axioms @a kk = 1 end\n', m=cycle)
        page = self.stream()
        told = page.of('state')[0]
        self.assertEqual(told['faults']['c'], {'component': 'c', 'kind': 16, 'line': 1, 'column': 21, 'text': 'k has no type'})
        self.assertEqual({c['name']: c['kind'] for c in told['components']}, {'c': 'context', 'm': 'machine'})
        arrows = 'context s sets S end\nmachine a sees s variables u r\n invariants @i u ⊆ S @j r ∈ u ⇸ u\n events event INITIALISATION then @a u, r ≔ ∅, ∅ end event e any x where @g x ∈ u then @b r(x) ≔ x end end\n'
        self.put(arrows=arrows)
        self.until(lambda: page.of('texts') and page.of('texts')[-1]['notes'])
        note = page.of('texts')[-1]['notes'][0]
        self.assertEqual((note['component'], note['line'], note['column']), ('a', 2, 22))
        self.assertIn('no rule closes @j', note['text'])

    def test_words_are_those_of_the_language(self) -> None:
        with open(os.path.join(TOP, 'docs', 'LANGUAGE.md'), encoding='utf-8') as file:
            found = re.search(r'structural words `([^`]*)`', file.read())
        assert found is not None
        self.assertEqual(sorted(found[1].split()), sorted(scan.STRUCTURE))
        with open(os.path.join(TOP, 'docs', 'PROOFS.md'), encoding='utf-8') as file:
            kinds = re.findall(r'^\| \d+ \| (\w+) \|', file.read(), re.M)
        self.assertEqual(sorted(web_desk.KIND_SAYS), sorted(set(kinds) - {'review'}))


class Proofs(Served):
    """Looks, offers and what they would leave."""

    def offers(self, **given: Any) -> dict[str, Any]:
        """What is offered, by its words, with what it would leave."""
        told = self.ask('offers', **{'place': '-', 'chosen': [], 'n': 0, **given})
        self.assertIsNone(told['why'])
        return {o['words']: {'leaves': o.get('leaves')} for o in told['offers']}

    def test_what_a_rule_would_leave(self) -> None:
        self.serve(split=SPLIT)
        po = 'split/thm1/THM'
        found = self.offers(po=po, path='-')
        self.assertEqual(found['andR'], {'leaves': [{'goal': 'p = 1', 'adds': []}, {'goal': 'q = 2 ∨ q = 3', 'adds': []}]})
        self.assertEqual(found['contra'], {'leaves': [{'goal': '⊥', 'adds': ['¬(p = 1 ∧ (q = 2 ∨ q = 3))']}]})
        self.assertEqual(self.ask('raw', line=f'tree {po}')['reply'], ['- open ⊢ p = 1 ∧ (q = 2 ∨ q = 3)'])
        for words in ('andR', 'contra'):
            told = self.ask('leaves', po=po, path='-', words=[words])['leaves'][0]['leaves']
            self.ask('act', po=po, path='-', what='step', words=words)
            for n, leaf in enumerate(told):
                real = self.ask('look', po=po, path=str(n))
                self.assertEqual(real['goal']['text'], leaf['goal'])
                self.assertEqual([h['text'] for h in real['hypotheses'][2:]], leaf['adds'])
            self.ask('act', po=po, path='-', what='undo')
        self.ask('act', po=po, path='-', what='step', words='andR')
        self.assertEqual(self.offers(po=po, path='0')['hyp h 1'], {'leaves': []})
        told = self.ask('leaves', po=po, path='1', words=['orR', 'andR', 'linear', 'no such', 'hyp h 9', 'cases p q = 7', 'orR ;; x'])['leaves']
        self.assertEqual(told[0], {'leaves': [{'goal': 'q = 3', 'adds': ['q ≠ 2']}]})
        self.assertEqual([t.get('refused') for t in told[1:5]], ['the rule does not fit', 'the rule does not fit', 'bad command', 'no such place'])
        self.assertEqual(told[5], {'leaves': [{'goal': None, 'adds': ['q = 7']}, {'goal': None, 'adds': ['q ≠ 7']}]})

    def test_the_sequent_of_each_node(self) -> None:
        self.serve(rel=SETS)
        po = 'rel/thm1/THM'
        steps = ['rwGoal w 17 -', 'allR n v1', 'impR', 'rwHyp h 4 ;; w 12 -', 'orL h 5']
        sequents, path = [], '-'
        for words in steps:
            look = self.ask('look', po=po, path=path)
            sequents.append((path, [h['text'] for h in look['hypotheses']], look['goal']['text']))
            self.assertTrue(look['open'])
            self.assertFalse(self.ask('act', po=po, path=path, what='step', words=words)['reply'][0].startswith('refused'))
            path = '0' if path == '-' else f'{path}.0'
        for (path, hypotheses, goal), words in zip(sequents, steps):
            look = self.ask('look', po=po, path=path)
            self.assertEqual(([h['text'] for h in look['hypotheses']], look['goal']['text'], look['at'], look['open'], look['line'], look['note']), (hypotheses, goal, path, False, words, None))

    def test_all_examples_have_each_node_told(self) -> None:
        with open(os.path.join(EXAMPLES, 'file_transfer.eventb'), encoding='utf-8') as file:
            self.serve(all=file.read())
        self.desk.project.engine.ask('wait')
        self.desk.project.refresh()
        count = 0
        for name, (status, _) in list(self.desk.project.statuses.items())[::4]:
            if status == 'discharged':
                for node in self.ask('look', po=name)['nodes'][:12]:
                    look = self.ask('look', po=name, path=node['path'])
                    self.assertEqual((look['note'], look['at']), (None, node['path']), name)
                    count += 1
        self.assertGreater(count, 20)

    def test_a_broken_proof(self) -> None:
        self.serve(boom=BOOM)
        po = 'boom/thm1/THM'
        for path, words in (('-', 'exR e 1'), ('0', 'andR'), ('0.0', 'linear'), ('0.1', 'linear h 1 1')):
            self.ask('act', po=po, path=path, what='step', words=words)
        self.assertEqual(self.desk.project.statuses[po], ('discharged', 'user'))
        self.ask('save', name='boom', text=BOOM.replace('10 ≤ up', '20 ≤ up'), was=BOOM)
        look = self.ask('look', po=po)
        self.assertEqual((look['status'][0], look['open'], look['at'], list(look['misfits'])), ('broken', False, '0.1', ['0.1']))
        at = self.ask('look', po=po, path='0.1')
        self.assertEqual((at['at'], at['open'], at['nodes'][-1]['rule']), ('0.1', False, 'linear'))
        out = self.ask('act', po=po, path='0.1', what='prune')
        self.assertEqual((out['reply'], out['look']['open'], out['look']['at']), ([f'{po} pending'], True, '0.1'))
        self.assertEqual(self.ask('act', po=po, path='0.1', what='linear', chosen=[])['reply'][0], f'{po} discharged')
        self.assertEqual(self.ask('act', po=po, path='-', what='dance'), {'error': 'there is no such act'})

    def test_export_replays(self) -> None:
        self.serve(split=SPLIT)
        self.ask('act', po='split/thm1/THM', path='-', what='review')
        out = self.ask('export')
        with zipfile.ZipFile(io.BytesIO(base64.b64decode(out['data']))) as archive:
            self.assertEqual(sorted(archive.namelist()), ['proofs.steps', 'split.eventb'])
            self.assertEqual(archive.read('split.eventb').decode(), SPLIT)
            self.assertIn('review split/thm1/THM -', archive.read('proofs.steps').decode())


class Sessions(Served):
    """The session killed, stopped and full under the page; the server ended."""

    def test_killed_under_the_page(self) -> None:
        self.serve(boom=BOOM)
        page = self.stream()
        self.ask('act', po='boom/thm2/THM', path='-', what='auto')
        for _ in range(3):
            os.kill(self.desk.project.engine.process.pid, signal.SIGKILL)
            self.assertEqual(self.ask('look', po='boom/thm2/THM')['status'], ['discharged', 'prover'])
        self.until(lambda: any(e['sent'] == '(new session)' for e in page.of('log')))
        self.assertEqual(self.ask('save', name='boom', text=BOOM + '\n', was=BOOM)['built'], 'built: 1 components, 0 faulted, 2 obligations')
        self.assertEqual(page.statuses()['boom/thm2/THM'], ['discharged', 'prover'])

    def test_stopped_under_the_page(self) -> None:
        web_desk.SILENT, before = 0.5, web_desk.SILENT
        self.addCleanup(setattr, web_desk, 'SILENT', before)
        self.serve(boom=BOOM)
        page, process = self.stream(), self.desk.project.engine.process
        os.kill(process.pid, signal.SIGSTOP)
        saved: list[Any] = []
        thread = threading.Thread(target=lambda: saved.append(self.ask('save', name='boom', text=BOOM.replace('10', '12'), was=BOOM)))
        thread.start()
        self.until(lambda: page.of('silent') and page.of('silent')[-1]['seconds'] > 0)
        self.assertEqual(self.request('GET', '', Origin=None)[0], 200)
        os.kill(process.pid, signal.SIGCONT)
        thread.join(20)
        self.assertEqual(saved[0]['built'], 'built: 1 components, 0 faulted, 2 obligations')
        self.until(lambda: page.of('silent')[-1]['seconds'] == 0)

    def test_full_under_the_page(self) -> None:
        self.serve(boom=BOOM)
        page = self.stream()
        long = f'edit filler\ncontext filler {"x" * 60} // {"y" * 65000}\n.'
        self.desk.project.engine.send([long] * 1100).result(120)
        self.assertGreater(self.desk.project.engine.starts, 1)
        self.desk.project.ask('delete filler')
        self.assertEqual(self.ask('save', name='boom', text=BOOM + '\n', was=BOOM)['built'], 'built: 1 components, 0 faulted, 2 obligations')
        self.until(lambda: set(page.statuses()) == {'boom/thm1/THM', 'boom/thm2/THM'})

    def test_ended_for_good_and_begun_again(self) -> None:
        self.serve(boom=BOOM)
        page = self.stream()
        self.ask('act', po='boom/thm2/THM', path='-', what='auto')
        self.desk.project.engine.close()
        self.assertEqual(self.request(path='raw', body=b'{"line": "status"}')[0], 503)
        self.ask('again')
        self.until(lambda: len(page.of('state')) == 2)
        self.assertEqual(page.statuses()['boom/thm2/THM'], ['discharged', 'prover'])
        self.assertEqual(self.ask('raw', line='digest')['reply'][0], self.ask('raw', line='digest')['reply'][0])

    def test_a_page_that_is_slow_is_let_go(self) -> None:
        web_desk.WAITING, before = 50, web_desk.WAITING
        self.addCleanup(setattr, web_desk, 'WAITING', before)
        self.serve(boom=BOOM)
        taken = socket.create_connection(('127.0.0.1', self.server.server_address[1]))
        self.addCleanup(taken.close)
        taken.setsockopt(socket.SOL_SOCKET, socket.SO_RCVBUF, 4096)
        taken.sendall(f'GET /{self.server.token}/events HTTP/1.1\r\nHost: {self.server.host}\r\n\r\n'.encode())
        self.until(lambda: len(self.desk.streams) == 1)
        for n in range(400):
            self.desk.tell('tried', 'x' * 50000)
            if not self.desk.streams:
                break
            time.sleep(0.001)
        self.assertEqual(self.desk.streams, [])

    def test_from_the_command_line_and_back(self) -> None:
        self.put(boom=BOOM)

        def start() -> 'tuple[subprocess.Popen[str], str]':
            process = subprocess.Popen([sys.executable, os.path.join(TOP, 'rodin-web'), self.room, '--no-browser', '--workers', '1'], stdout=subprocess.PIPE, text=True,
                                       env={**os.environ, 'RODIN': PROGRAM})
            assert process.stdout is not None
            self.addCleanup(process.stdout.close)
            return process, process.stdout.readline().strip()
        process, address = start()
        second = subprocess.run([sys.executable, os.path.join(TOP, 'rodin-web'), self.room, '--no-browser'], capture_output=True, text=True, env={**os.environ, 'RODIN': PROGRAM})
        self.assertEqual((second.returncode, second.stdout), (3, ''))
        self.assertIn('another session', second.stderr)
        host, token = address[7:].split('/')[:2]

        def statuses() -> Any:
            connection = http.client.HTTPConnection(host, timeout=30)
            connection.request('POST', f'/{token}/state', '{}', {'Content-Type': 'application/json', 'Origin': f'http://{host}'})
            found = json.loads(connection.getresponse().read())['statuses']
            connection.close()
            return found
        self.until(lambda: statuses()['boom/thm2/THM'] == ['discharged', 'prover'])
        process.send_signal(signal.SIGTERM)
        self.assertEqual(process.wait(20), 0)
        process, address = start()
        host, token = address[7:].split('/')[:2]
        self.assertEqual(statuses()['boom/thm2/THM'], ['discharged', 'prover'])
        process.send_signal(signal.SIGINT)
        self.assertEqual(process.wait(20), 0)
        for words in (['/no/such/folder'], [os.path.join(self.room, 'boom.eventb')]):
            self.assertEqual(subprocess.run([sys.executable, os.path.join(TOP, 'rodin-web'), *words], capture_output=True, check=False).returncode, 3)


class CopyParts(unittest.TestCase):
    """Which texts a copy needs, and where rules stand."""

    def test_needed(self) -> None:
        texts = {'a': 'context a end', 'b': 'context b extends a end', 'm': 'machine m sees b events event INITIALISATION end end',
                 'n': 'machine n refines m sees a events event INITIALISATION end end', 'x': 'context x extends b end'}
        self.assertEqual(sorted(web_copy.needed('n', texts)), ['a', 'b', 'm', 'n'])
        self.assertEqual(web_copy.needed('none', texts), {})

    def test_above(self) -> None:
        self.assertEqual([web_copy.above(path) for path in ('-', '0', '0.1.2')], [[], ['-'], ['-', '0', '0.1']])


if __name__ == '__main__':
    unittest.main()
