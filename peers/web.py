"""Scenes of the HTTP address of a service: what each route answers, what hostile clients get, and what is never shown."""
import html.parser
import json
import os
import shutil
import socket
import subprocess
import threading
import time
from urllib.parse import quote

from engine import plan
from mllp import Destination, free_ports, message
from served import LIMIT, Service, exchange, wait_received, wait_status

HOST = b'Host: 127.0.0.1\r\n'
ONE = ['attempts = 1', 'interval = 1']
HIDDEN = b'HIDDEN'
FIELDS = [b'Cache-Control: no-store', b'X-Content-Type-Options: nosniff', b'Referrer-Policy: no-referrer', b'Connection: close',
          b"Content-Security-Policy: default-src 'none'; style-src 'unsafe-inline'; base-uri 'none'; form-action 'none'; "
          b"frame-ancestors 'none'"]
SCHEMA = os.path.join(os.path.dirname(os.path.abspath(__file__)), '..', 'docs', 'status.schema.json')
TEXT, METRICS = b'text/plain; charset=utf-8', b'text/plain; version=0.0.4; charset=utf-8'
JSON, HTML = b'application/json', b'text/html; charset=utf-8'


def connected(port):
    """A new connection to the HTTP address."""
    return socket.create_connection(('127.0.0.1', port), timeout=15)


def drained(connection, limit=15):
    """All bytes that a peer sends until it ends the connection, or `limit` seconds have passed without any."""
    connection.settimeout(limit)
    held = b''
    try:
        while piece := connection.recv(65_536):
            held += piece
    except OSError:
        pass
    return held


def answered(port, raw):
    """The status line, the fields and the body that are answered to these bytes."""
    with connected(port) as connection:
        try:
            connection.sendall(raw)
        except OSError:
            pass
        held = drained(connection)
    head, _, body = held.partition(b'\r\n\r\n')
    first, *fields = head.split(b'\r\n')
    return first, fields, body


def got(port, target, host=HOST, method=b'GET'):
    """The answer to a request for a target."""
    return answered(port, method + b' ' + target + b' HTTP/1.1\r\n' + host + b'\r\n')


def differs(name, answer, status, kind):
    """What is wrong with the head of an answer."""
    first, fields, body = answer
    wanted = [b'Content-Type: ' + kind, b'Content-Length: %d' % len(body), *FIELDS]
    if not first.startswith(b'HTTP/1.1 %d ' % status) or any(field not in fields for field in wanted):
        return [f'{name}: {first}, {fields}, {len(body)} bytes']
    return []


class Tags(html.parser.HTMLParser):
    """Whether the tags of a page are balanced, and which it has."""

    def __init__(self):
        super().__init__()
        self.opened, self.names, self.is_balanced = [], set(), True

    def handle_starttag(self, tag, attrs):
        self.names.add(tag)
        if tag not in ('meta', 'link', 'th', 'br'):
            self.opened.append(tag)

    def handle_endtag(self, tag):
        if tag not in ('th',):
            self.is_balanced = self.is_balanced and bool(self.opened) and self.opened.pop() == tag


def page_faults(page, verdict):
    """What is wrong with a page whose title has to begin with this verdict."""
    tags = Tags()
    tags.feed(page.decode())
    outside = [word for word in (b'<script', b'http:', b'https:', b'//', b'<form', b'<img') if word in page]
    if not tags.is_balanced or tags.opened or outside or b'<title>' + verdict not in page:
        return [f'page: balanced {tags.is_balanced}, open {tags.opened}, {outside}, {page[:400]}']
    return []


class Staged:
    """A service with a destination that is down, one that takes everything and one that refuses everything, and three messages."""

    def __init__(self, program, folder, *words, store=None):
        self.port, self.web, closed = free_ports(3)
        self.up, self.refuser = Destination(lambda text, before: b'AA'), Destination(lambda text, before: b'AR')
        waits = ['attempts = 60', 'interval = 1']
        text = plan([('ADT', self.port, [('LAB', None, None), ('ARCHIVE', None, None), ('PACS', None, None)])],
                    [('LAB', closed, waits), ('ARCHIVE', self.up.port, ONE), ('PACS', self.refuser.port, ONE)])
        self.service = Service(program, text, folder, '--http', f'127.0.0.1:{self.web}', *words, store=store)
        ids = [b'ONE', b'TWO', b'O"<&3']
        self.replies = exchange(self.port, [message(name, patient=HIDDEN + b'7^^^H') for name in ids])
        wait_received(self.up, 3)
        wait_received(self.refuser, 3)
        wait_status(self.service, 'destination ARCHIVE waiting 0 inflight 0 delivered 3 ')
        wait_status(self.service, 'destination PACS waiting 0 inflight 0 delivered 0 failed 3 ')
        # One look at the book serves for 50 milliseconds.
        time.sleep(0.1)

    def close(self):
        """Ends the service and its destinations. Returns its exit status."""
        with self.service as service:
            service.ask('stop now')
            status, _ = service.ended()
        self.up.close()
        self.refuser.close()
        return status


def seen_over_http(port):
    """The bodies of the routes of the service that is staged, and what is wrong with their heads."""
    found, bodies = [], {}
    for target, status, kind in [
            (b'/', 200, HTML), (b'/metrics', 200, METRICS), (b'/healthz', 200, TEXT), (b'/readyz', 200, TEXT), (b'/status', 200, TEXT),
            (b'/status.json', 200, JSON), (b'/messages/0', 200, JSON), (b'/messages/9', 404, JSON),
            (b'/messages?control_id=ONE', 200, JSON), (b'/messages?control_id=' + quote('O"<&3').encode(), 200, JSON),
            (b'/messages?control_id=NONE', 200, JSON), (b'/destinations/LAB/waiting', 200, JSON),
            (b'/destinations/PACS/failed', 200, JSON), (b'/destinations/L%41B/waiting', 200, JSON),
            (b'/destinations/NONE/waiting', 404, TEXT), (b'/destinations/NONE/failed', 404, TEXT), (b'/nothing', 404, TEXT)]:
        answer = got(port, target)
        found += differs(target.decode(), answer, status, kind)
        bodies[target] = answer[2]
        head = got(port, target, method=b'HEAD')
        if head[2] or head[0] != answer[0]:
            found.append(f'HEAD {target}: {head}')
        if HIDDEN in answer[2]:
            found.append(f'{target} shows a byte of a message')
    return bodies, found


def schema_faults(status):
    """What docs/status.schema.json rejects in the state of a service, where Python's package jsonschema is installed."""
    try:
        import jsonschema  # pylint: disable=import-outside-toplevel
    except ImportError:
        print('docs/status.schema.json: not compared, the package jsonschema is not installed')
        return []
    with open(SCHEMA, encoding='utf-8') as file:
        validator = jsonschema.Draft202012Validator(json.load(file))
    rejected = [error.message for error in validator.iter_errors(status)]
    # The schema says what there is: without a member, or with another, nothing is accepted.
    wrong = [dict(status, more=1), {name: value for name, value in status.items() if name != 'stage'},
             dict(status, now='yesterday'), dict(status, destinations=[{'name': 'LAB'}])]
    return [f'docs/status.schema.json rejects: {rejected}'] * bool(rejected) + [
        f'docs/status.schema.json accepts: {it}' for it in wrong if validator.is_valid(it)]


def json_faults(bodies):
    """What is wrong with the documents of the service that is staged."""
    read = {target: json.loads(body) for target, body in bodies.items() if body.startswith(b'{')}
    status, first = read[b'/status.json'], read[b'/messages/0']
    lab, pacs = read[b'/destinations/LAB/waiting'], read[b'/destinations/PACS/failed']
    states = [(place['name'], place['state']) for place in first['destinations']]
    facts = {
        'stage': status['stage'] == 'open',
        'connected': [d['connected'] for d in status['destinations']] == [False, True, True],
        'channels': [(c['name'], c['accepted'], c['paused']) for c in status['channels']] == [('ADT', 3, False)],
        'destinations': [(d['name'], d['delivered'], d['failed']) for d in status['destinations']]
        == [('LAB', 0, 0), ('ARCHIVE', 3, 0), ('PACS', 0, 3)],
        'front': status['destinations'][0]['front']['message'] == 0 and status['destinations'][1]['front'] is None,
        'message': (first['message'], first['state'], first['control_id'], states)
        == (0, 'kept', 'ONE', [('LAB', 'waiting'), ('ARCHIVE', 'delivered'), ('PACS', 'failed')]),
        'no message': read[b'/messages/9'] == {'message': 9, 'state': 'no such message'},
        'found': read[b'/messages?control_id=ONE'] == {'messages': [0], 'more': False},
        'found by its bytes': read[b'/messages?control_id=' + quote('O"<&3').encode()] == {'messages': [2], 'more': False},
        'not found': read[b'/messages?control_id=NONE'] == {'messages': [], 'more': False},
        'waiting': (lab['destination'], lab['waiting'], [m['message'] for m in lab['messages']]) == ('LAB', 3, [0, 1, 2]),
        'waiting by its bytes': bodies[b'/destinations/L%41B/waiting'] == bodies[b'/destinations/LAB/waiting'],
        'failed': (pacs['failed'], pacs['remembered'], [(m['message'], m['cause']) for m in pacs['messages']])
        == (3, 3, [(2, 'rejected'), (1, 'rejected'), (0, 'rejected')]),
    }
    return [f'{name}: {read}' for name, holds in facts.items() if not holds] + schema_faults(status)


def metrics_faults(text):
    """What promtool says of the metrics, where it is there."""
    if not shutil.which('promtool'):
        return []
    done = subprocess.run(['promtool', 'check', 'metrics'], input=text, capture_output=True, timeout=LIMIT, check=False)
    return [f'promtool: {done.stderr}'] if done.returncode else []


def routes(program, folder, store):
    """Each route of a service that is staged."""
    staged = Staged(program, folder, store=store)
    try:
        bodies, found = seen_over_http(staged.web)
        for command in ('status', 'metrics'):
            lines = staged.service.ask(command)
            text = got(staged.web, b'/' + command.encode())[2].decode()
            if lines is None or '\n'.join(lines) + '\n\n' != text:
                found.append(f'{command}: {lines}, {text}')
        found += json_faults(bodies) + metrics_faults(bodies[b'/metrics']) + page_faults(bodies[b'/'], b'LOOK')
        if bodies[b'/healthz'] != b'ok\n' or bodies[b'/readyz'] != b'ready\n':
            found.append(f'probes: {bodies[b"/healthz"]}, {bodies[b"/readyz"]}')
    finally:
        status = staged.close()
    wanted = 0 if store else 5
    if len(staged.replies) != 3 or status != wanted:
        found.append(f'{len(staged.replies)} acknowledged, status {status}')
    return [f'routes over HTTP: {line}' for line in found]


def routes_in_memory(program, folder):
    """What each route answers where the book is in memory: status, type, fields and body. `/status` and `/metrics` have the bytes of
    the commands, and no byte of a message is shown but those of its header that are named."""
    return routes(program, folder, None)


def routes_of_a_store(program, folder):
    """The same where the book is in a store."""
    return routes(program, folder, folder + '/store')


# What is answered to a request that is none, or that asks for something else than a route.
REFUSED = [
    ('HTTP/1.0', b'GET /healthz HTTP/1.0\r\n\r\n', 200), ('HTTP/0.9', b'GET /healthz\r\n', 400),
    ('a preface of HTTP/2', b'PRI * HTTP/2.0\r\n\r\nSM\r\n\r\n', 505), ('no host', b'GET /healthz HTTP/1.1\r\n\r\n', 400),
    ('two hosts', b'GET /healthz HTTP/1.1\r\n' + HOST + HOST + b'\r\n', 400),
    ('another host', b'GET /healthz HTTP/1.1\r\nHost: example.org\r\n\r\n', 421),
    ('a host like an address', b'GET /healthz HTTP/1.1\r\nHost: 127.0.0.1.example.org\r\n\r\n', 421),
    ('localhost', b'GET /healthz HTTP/1.1\r\nHost: LOCALHOST:80\r\n\r\n', 200),
    ('an address of version 6', b'GET /healthz HTTP/1.1\r\nHost: [::1]:9180\r\n\r\n', 200),
    ('a host that is given', b'GET /healthz HTTP/1.1\r\nHost: hl7.example.org:9180\r\n\r\n', 200),
    ('the second that is given', b'GET /healthz HTTP/1.1\r\nHost: HL7\r\n\r\n', 200),
    ('POST', b'POST /status HTTP/1.1\r\n' + HOST + b'Content-Length: 3\r\n\r\nabc', 405),
    ('small letters', b'get / HTTP/1.1\r\n' + HOST + b'\r\n', 405),
    ('a body', b'GET / HTTP/1.1\r\n' + HOST + b'Content-Length: 5\r\n\r\nabcde', 413),
    ('a length of 0', b'GET /healthz HTTP/1.1\r\n' + HOST + b'Content-Length: 0\r\n\r\n', 200),
    ('two lengths', b'GET /healthz HTTP/1.1\r\n' + HOST + b'Content-Length: 4\r\nTransfer-Encoding: chunked\r\n\r\n0\r\n\r\n'
     b'GET /metrics HTTP/1.1\r\n' + HOST + b'\r\n', 413),
    ('a pair', b'GET /healthz HTTP/1.1\r\n' + HOST + b'\r\nGET /metrics HTTP/1.1\r\n' + HOST + b'\r\n', 200),
    ('a folded field', b'GET /healthz HTTP/1.1\r\n' + HOST + b'A: b\r\n c\r\n\r\n', 400),
    ('a space before the colon', b'GET /healthz HTTP/1.1\r\nHost : x\r\n\r\n', 400),
    ('a zero in a value', b'GET /healthz HTTP/1.1\r\n' + HOST + b'A: \0\r\n\r\n', 400),
    ('65 fields', b'GET /healthz HTTP/1.1\r\n' + HOST + b'A: b\r\n' * 64 + b'\r\n', 431),
    ('64 fields', b'GET /healthz HTTP/1.1\r\n' + HOST + b'A: b\r\n' * 63 + b'\r\n', 200),
    ('a long head', b'GET / HTTP/1.1\r\n' + HOST + b'A: ' + b'b' * 9_000 + b'\r\n\r\n', 431),
    ('a long target', b'GET /' + b'a' * 1_000_000 + b' HTTP/1.1\r\n' + HOST + b'\r\n', 431),
    ('zeros', b'\0' * 1_000_000, 400), ('a hello of TLS', bytes.fromhex('1603010200010001fc0303') + b'x' * 500, 400),
    ('a block of MLLP', b'\x0bMSH|^~\\&|A\r\x1c\r', 400),
]

# Targets that name no route, or that name something by bytes that need care.
TARGETS = [
    ('/../metrics', 404), ('/..%2fmetrics', 404), ('//metrics', 404), ('/metrics/', 404), ('/metrics?x=1', 404), ('/%6detrics', 404),
    ('/messages/-1', 404), ('/messages/+1', 404), ('/messages/4294967295', 404), ('/messages/4294967296', 404),
    ('/messages/99999999999999999999', 404), ('/messages?control_id=', 404), ('/messages?control_id=%', 400),
    ('/messages?control_id=%zz', 400), ('/messages?control_id=%00%0d%0aX:%20y', 200), ('/messages?control_id=<script>', 200),
    ('/messages?control_id=' + 'A' * 4_000, 200), ('/destinations//waiting', 404), ('/destinations/%2e%2e/waiting', 404),
    ('/destinations/<b>/waiting', 404), ('/destinations/LAB/waiting/', 404), ('*', 404), ('http://127.0.0.1/metrics', 404), ('/#a', 404),
]


def refusals(port):
    """What is wrong with the answers to requests that are refused."""
    found = []
    asked = [*REFUSED, *((target, b'GET ' + target.encode() + b' HTTP/1.1\r\n' + HOST + b'\r\n', status) for target, status in TARGETS)]
    for name, raw, status in asked:
        first, fields, body = answered(port, raw)
        if not first.startswith(b'HTTP/1.1 %d ' % status) or b'HTTP/1.1' in body or b'Content-Length: %d' % len(body) not in fields:
            found.append(f'{name}: {first}, {fields}, {body[:200]}')
        if (status == 405) != (b'Allow: GET, HEAD' in fields):
            found.append(f'{name}: {fields}')
    return found


def dripped(port, results):
    """A request of which a byte is sent each second."""
    began, held = time.monotonic(), b''
    with connected(port) as connection:
        connection.settimeout(1)
        for byte in b'GET /healthz HTTP/1.1\r\n' + HOST:
            try:
                connection.send(bytes([byte]))
                if held := connection.recv(1_000):
                    break
            except TimeoutError:
                continue
            except OSError:
                break
    took = time.monotonic() - began
    if not held.startswith(b'HTTP/1.1 408 ') or not 4.5 < took < 8:
        results.append(f'a byte a second: {held[:60]} after {took:.1f} seconds')


def silent(port, results):
    """A connection on which nothing is sent."""
    began = time.monotonic()
    with connected(port) as connection:
        held = drained(connection)
    took = time.monotonic() - began
    if held or not 4.5 < took < 8:
        results.append(f'silent: {held[:60]} after {took:.1f} seconds')


def half_open(port):
    """200 connections with half a request, of which the last 32 are kept: a whole request is answered meanwhile."""
    held, found = [], []
    for _ in range(200):
        connection = connected(port)
        connection.sendall(b'GET / HT')
        held.append(connection)
    began = time.monotonic()
    for target in (b'/healthz', b'/metrics'):
        if not got(port, target)[0].startswith(b'HTTP/1.1 200 '):
            found.append(f'{target} beside 200 connections')
    if time.monotonic() - began > 5:
        found.append(f'{time.monotonic() - began:.1f} seconds beside 200 connections')
    for connection in held:
        connection.close()
    return found


def hostile_clients(program, folder):
    """Requests that are none get an answer of their own and one answer alone; clients that are slow, silent or many shut nobody out;
    and the channel is served meanwhile."""
    staged, results = Staged(program, folder, '--http-name', 'hl7.example.org, hl7'), []
    slow = [threading.Thread(target=each, args=(staged.web, results)) for each in (dripped, silent)]
    try:
        for thread in slow:
            thread.start()
        found = refusals(staged.web)
        if not exchange(staged.port, [message(b'BESIDE')]):
            found.append('no acknowledgment beside hostile clients')
        for thread in slow:
            thread.join(LIMIT)
        found += results + half_open(staged.web)
        if not exchange(staged.port, [message(b'BEHIND')]):
            found.append('no acknowledgment behind hostile clients')
    finally:
        staged.close()
    return [f'hostile clients over HTTP: {line}' for line in found]


def probes_of_a_stop(program, folder):
    """While `stop` waits for a delivery the service is no longer ready, and still works; the page says so. `stop now` ends it."""
    staged = Staged(program, folder)
    try:
        before = [got(staged.web, target)[0] for target in (b'/readyz', b'/healthz')]
        staged.service.ask('stop')
        time.sleep(0.3)
        ready, health, page = (got(staged.web, target) for target in (b'/readyz', b'/healthz', b'/'))
    finally:
        status = staged.close()
    found = page_faults(page[2], b'LOOK')
    if b'The service is stopping' not in page[2]:
        found.append('the page does not say that the service stops')
    if (before, ready[0], ready[2], health[0], status) != (
            [b'HTTP/1.1 200 OK'] * 2, b'HTTP/1.1 503 Service Unavailable', b'stopping\n', b'HTTP/1.1 200 OK', 5):
        found.append(f'{before}, {ready}, {health[0]}, status {status}')
    return [f'probes of a stop: {line}' for line in found]


def words_of_http(program, folder):
    """An address that is none is refused by the command line, and one that is in use by the service, before it is ready."""
    path, found = folder + '/plan.toml', []
    port, up = free_ports(1)[0], Destination(lambda text, before: b'AA')
    with open(path, 'w', encoding='utf-8') as file:
        file.write(plan([('ADT', port, [('UP', None, None)])], [('UP', up.port, ONE)]))
    for word, status, line in [('nonsense', 2, "the address of '--http <ADDRESS>'"), ('127.0.0.1', 2, "the address of '--http <ADDRESS>'"),
                               ('127.0.0.1:99999', 2, "the address of '--http <ADDRESS>'"),
                               ('localhost:9180', 2, "the address of '--http <ADDRESS>'"),
                               (f'127.0.0.1:{up.port}', 3, 'device: listen HTTP')]:
        done = subprocess.run([program, 'run', path, '--memory', '--http', word], stdin=subprocess.DEVNULL, capture_output=True,
                              timeout=LIMIT, check=False)
        if done.returncode != status or line not in done.stderr.decode():
            found.append(f'words of HTTP: {word}: status {done.returncode}, {done.stderr.decode()}')
    up.close()
    return found


def reached(program, folder):
    """The state of a destination's link: before the first message none is known; while it can't be reached and a message waits the page says so
    at once, and not that all is well; once it is up, all is well."""
    (port, web), found = free_ports(2), []
    lab = Destination(lambda text, before: b'AA', up=False)
    text = plan([('ADT', port, [('LAB', None, None)])], [('LAB', lab.port, ['interval = 1'])])

    def seen():
        time.sleep(0.1)
        title = got(web, b'/')[2].partition(b'<title>')[2].partition(b':')[0]
        metric = b'hl7_destination_connected{destination="LAB"} 1' in got(web, b'/metrics')[2]
        return title, metric, json.loads(got(web, b'/status.json')[2])['destinations'][0]['connected']

    with Service(program, text, folder, '--http', f'127.0.0.1:{web}') as service:
        states = [seen()]
        exchange(port, [message(b'R0')])
        deadline = time.monotonic() + 10
        while seen()[2] is None and time.monotonic() < deadline:
            time.sleep(0.05)
        page = got(web, b'/')[2]
        states.append(seen())
        lab.open()
        wait_status(service, 'destination LAB waiting 0 inflight 0 delivered 1')
        states.append(seen())
        service.ask('stop')
        service.ended()
    lab.close()
    if states != [(b'OK', False, None), (b'LOOK', False, False), (b'OK', True, True)]:
        found.append(f'{states}')
    if b"<b>LAB</b> can't be reached: there is no connection to 127.0.0.1:%d, and 1 wait for it" % lab.port not in page:
        found.append(f'{page[-3_000:]}')
    return [f'the links on the page: {line}' for line in found]


WEB = [('the links on the page', reached), ('routes over HTTP', routes_in_memory), ('routes over HTTP of a store', routes_of_a_store),
       ('hostile clients over HTTP', hostile_clients), ('probes of a stop over HTTP', probes_of_a_stop), ('words of HTTP', words_of_http)]
