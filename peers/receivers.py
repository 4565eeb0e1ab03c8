"""Receivers of every kind: what is counted as delivered was received, and each failed attempt is logged with its reason."""
import os
import random
import resource
import socket
import struct
import threading
import time

from engine import Engine, destination_counts, one_channel, plan
from mllp import HANG_UP, SILENCE, Destination, Sender, answer, block, field, free_ports, message

BREAKS = 10_000
PACE = 0.01


class Receiver:
    """A listener that passes each connection, one after another, to `talk`: a function of the receiver and the connection, at
    whose return the connection is closed. It keeps the texts that it receives."""

    def __init__(self, talk):
        self._talk, self.received, self.connections = talk, [], 0
        self._listener, self._closed = socket.socket(), False
        self._listener.bind(('127.0.0.1', free_ports(1)[0]))
        self._listener.listen(64)
        self.port = self._listener.getsockname()[1]
        self._thread = threading.Thread(target=self._listen, daemon=True)
        self._thread.start()

    def _listen(self):
        while not self._closed:
            try:
                connection, _ = self._listener.accept()
            except OSError:
                return
            self.connections += 1
            with connection:
                connection.setsockopt(socket.IPPROTO_TCP, socket.TCP_NODELAY, 1)
                connection.settimeout(60)
                try:
                    self._talk(self, connection)
                except OSError:
                    pass

    def texts(self, connection, wait=60.0):
        """Yields the texts received on a connection, until its end or until nothing is received for `wait` seconds after a text."""
        held = b''
        while True:
            try:
                piece = connection.recv(65_536)
            except socket.timeout:
                return
            if not piece:
                return
            held += piece
            while (end := held.find(b'\x1c\r')) >= 0:
                text, held = held[held.find(b'\x0b') + 1:end], held[end + 2:]
                self.received.append(text)
                yield text
                connection.settimeout(wait)

    def close(self):
        self._closed = True
        self._listener.shutdown(socket.SHUT_RDWR)
        self._thread.join(10)
        self._listener.close()


def accept(connection, text, more=b''):
    connection.sendall(block(answer(text, b'AA') + more))


def reset(connection):
    """Makes the connection end by a reset when it is closed."""
    connection.setsockopt(socket.SOL_SOCKET, socket.SO_LINGER, struct.pack('ii', 1, 0))


def answers_all(pause, more):
    """Answers each message after `pause` seconds, whether or not its answers are awaited."""
    def talk(receiver, connection):
        for text in receiver.texts(connection):
            time.sleep(pause)
            accept(connection, text, more)
    return talk


def closes_when_idle(receiver, connection):
    """Closes a connection on which nothing was received for half of the pause between two messages."""
    for text in receiver.texts(connection, PACE / 2):
        accept(connection, text)


def closes_after_each(pause, resets):
    def talk(receiver, connection):
        for text in receiver.texts(connection):
            accept(connection, text)
            time.sleep(pause)
            if resets:
                reset(connection)
            return
    return talk


def closes_unanswered(receiver, connection):
    """Answers the first message of each connection, reads the second, and closes."""
    for number, text in enumerate(receiver.texts(connection)):
        if number == 1:
            return
        accept(connection, text)


def now_and_then(receiver, connection):
    """Reads a message, and sends a byte every half second from then on."""
    for _ in receiver.texts(connection):
        while True:
            connection.sendall(b'.')
            time.sleep(0.5)


def breaks_at_random(chance):
    """Breaks connections at random: before a message is answered, in the middle of the answer, or after it."""
    def talk(receiver, connection):
        for text in receiver.texts(connection):
            what = chance.randrange(80)
            if what == 0:
                return
            if what == 1:
                reset(connection)
                return
            if what == 2:
                connection.sendall(block(answer(text, b'AA'))[:20])
                return
            accept(connection, text)
            if what == 3:
                return
            if what == 4:
                reset(connection)
                return
    return talk


class Paced(Sender):
    """A sender that pauses for PACE seconds before each message."""

    def _send(self, connection, data):
        time.sleep(PACE)
        super()._send(connection, data)


def without_repeats(texts):
    """The texts, with repeats in a row removed."""
    return [text for number, text in enumerate(texts) if number == 0 or texts[number - 1] != text]


def wrong_receipts(name, receiver, texts, is_doubled):
    """What is wrong with the texts received: each has to be received, in order, and once unless repeats are allowed."""
    received = without_repeats(receiver.received) if is_doubled else list(receiver.received)
    return [] if received == texts else [
        f'{name}: {len(receiver.received)} received for {len(texts)} sent, {len(set(receiver.received))} of them different']


def all_get_all(program, folder):
    """Each kind of receiver gets each of 300 messages in one attempt, since the plan allows one, and the counts show it."""
    kinds = {
        'NONE': (answers_all(0, b''), 'none', False),
        'SLOW': (answers_all(0.005, b'ZZZ|' + b'z' * 20_000 + b'\r'), 'none', False),
        'IDLE': (closes_when_idle, 'ack', True),
        'AT_ONCE': (closes_after_each(0, False), 'ack', True),
        'SOON': (closes_after_each(0.02, False), 'ack', True),
        'RESET': (closes_after_each(0, True), 'ack', True),
        'TAKES': (closes_unanswered, 'ack', True),
    }
    receivers = {name: Receiver(talk) for name, (talk, _, _) in kinds.items()}
    texts, port = [message(b'R%d' % n) for n in range(300)], free_ports(1)[0]
    text = one_channel(port, [(name, receivers[name].port, ['attempts = 1', f'await = "{wait}"'])
                              for name, (_, wait, _) in kinds.items()])
    with Engine(program, text, 1, folder) as engine:
        sender = Paced(port, texts)
        sender.run()
        status, counts = engine.ended(60)
    lines = [] if (status, sender.fault) == (0, None) else [f'receivers: status {status}, {sender.fault}, {engine.log[-3:]}']
    for name, receiver in receivers.items():
        receiver.close()
        lines += wrong_receipts(name, receiver, texts, kinds[name][2])
        got, expected = counts.get(('destination', name)), destination_counts(300)
        if got != expected:
            lines.append(f'receivers: {name} has {got}, not {expected}')
    return lines


def broken_links(program, folder):
    """10,000 messages to a receiver that breaks its connections at random are received in order, each at least once."""
    receiver, port = Receiver(breaks_at_random(random.Random(7))), free_ports(1)[0]
    texts = [message(b'B%d' % n) for n in range(BREAKS)]
    with Engine(program, one_channel(port, [('LAB', receiver.port, ['attempts = 20', 'interval = 0'])]), 1, folder) as engine:
        sender = Sender(port, texts, in_flight=50)
        sender.run()
        status, counts = engine.ended(90)
    receiver.close()
    got = counts.get(('destination', 'LAB'), {})
    print(f'{BREAKS} messages over {receiver.connections} connections: {len(receiver.received)} received, {got.get("attempts")} attempts')
    lines = wrong_receipts('broken links', receiver, texts, True)
    if (status, got.get('delivered'), got.get('failed'), sender.fault) != (0, BREAKS, 0, None):
        lines.append(f'broken links: status {status}, {counts}, {sender.fault}')
    return lines


def is_logged(engine, control_id, words):
    """Whether a log line contains the message's control id and these words."""
    return any(words in line and f'control_id={control_id}' in line for line in engine.log)


def reasons(program, folder):
    """Each failed attempt is logged with its reason, and so is each message that failed finally; no line has a patient's data."""
    def wrong_id(text):
        return block(answer(text.replace(b'|OTHER|', b'|OTHER2|'), b'AA'))

    def with_text(code):
        return lambda text, before: block(answer(text, code)[:-1] + b'|SMITH^JOHN\r')

    def responding(respond):
        return lambda: Destination(respond)

    kinds = {
        'MUTE': (responding(lambda text, before: SILENCE), 'no answer within 1 s', 'no attempt is left'),
        'CLOSES': (responding(lambda text, before: HANG_UP), 'closed by the destination before an answer', 'no attempt is left'),
        'ERROR': (responding(with_text(b'AE')), 'answered AE', 'no attempt is left'),
        'REJECT': (responding(with_text(b'AR')), 'answered AR', 'rejected'),
        'OTHER': (responding(lambda text, before: wrong_id(text)), 'answer for another control id', 'no attempt is left'),
        'DOWN': (lambda: Destination(lambda text, before: b'AA', up=False), "can't connect: ", 'no attempt is left'),
        'BYTES': (lambda: Receiver(now_and_then), 'attempt ended after 10 s', 'no attempt is left'),
    }
    peers, port = {name: make() for name, (make, _, _) in kinds.items()}, free_ports(1)[0]
    routes = [(name, f'{{ equals = ["MSH-10", "{name}"] }}', None) for name in kinds]
    text = plan([('ADT', port, routes)], [(name, peer.port, ['attempts = 1', 'timeout = 1']) for name, peer in peers.items()])
    with Engine(program, text, 1, folder) as engine:
        began = time.monotonic()
        Sender(port, [message(name.encode(), patient=b'77^^^H||SMITH^JOHN') for name in kinds]).run()
        status, counts = engine.ended(60)
        lasted = time.monotonic() - began
    lines = [] if status == 0 and 9 < lasted < 20 else [f'reasons: status {status} after {lasted:.1f} seconds']
    for name, (_, why, end) in kinds.items():
        peers[name].close()
        if counts.get(('destination', name)) != destination_counts(0, failed=1):
            lines.append(f'reasons: {name} has {counts.get(("destination", name))}')
        if not is_logged(engine, name, why) or not is_logged(engine, name, 'message failed: ' + end):
            lines.append(f'reasons: not logged for {name}: {why}, {end}')
    for line in engine.log:
        if 'SMITH' in line or 'Resource temporarily' in line:
            lines.append(f'reasons: {line}')
    return lines


def descriptors(pid):
    return [int(name) for name in os.listdir(f'/proc/{pid}/fd')]


def no_descriptors(program, folder):
    """While the program can open no descriptor for two seconds, no attempt fails; and if the only descriptor left is the one that
    is reserved for the link, that is enough."""
    lines = []
    for name, limit, is_short in (('none', lambda held: 3, True), ('no further', lambda held: max(held) + 1, False)):
        lab, port = Destination(lambda text, before: b'AA'), free_ports(1)[0]
        with Engine(program, one_channel(port, [('LAB', lab.port, ['attempts = 1', 'timeout = 2'])]), 1, folder) as engine, \
                socket.create_connection(('127.0.0.1', port), timeout=20) as sender:
            sender.sendall(block(message(b'', version=b'2.5.1')))
            sender.recv(65_536)
            pid = engine.process.pid
            allowed = resource.prlimit(pid, resource.RLIMIT_NOFILE)
            held = descriptors(pid)
            resource.prlimit(pid, resource.RLIMIT_NOFILE, (limit(held), allowed[1]))
            texts = [message(b'F%d' % n) for n in range(12)]
            for text in texts:
                sender.sendall(block(text))
                sender.recv(65_536)
            time.sleep(2)
            early = len(lab.received)
            resource.prlimit(pid, resource.RLIMIT_NOFILE, allowed)
            sender.close()
            status, counts = engine.ended(60)
        lab.close()
        got = (status, counts.get(('destination', 'LAB')), lab.received == texts, early == (0 if is_short else 12))
        if got != (0, destination_counts(12), True, True):
            lines.append(f'{name} descriptors: {got}, {early} received early, {engine.log[-3:]}')
    return lines


def timers(port):
    """The active timers of this machine's connections to a loopback port: 2 is the keepalive timer (man 5 proc)."""
    with open('/proc/net/tcp', encoding='ascii') as file:
        lines = [line.split() for line in file][1:]
    return [int(line[5].split(':')[0], 16) for line in lines if (line[2], line[3]) == (f'0100007F:{port:04X}', '01')]


def kept_alive(program, folder):
    """The system probes an idle link (TCP keepalive)."""
    lab, port = Destination(lambda text, before: b'AA'), free_ports(1)[0]
    with Engine(program, one_channel(port, [('LAB', lab.port, ['attempts = 1'])]), 2, folder) as engine:
        Sender(port, [message(b'K')]).run()
        deadline = time.monotonic() + 10
        while timers(lab.port) != [2] and time.monotonic() < deadline:
            time.sleep(0.05)
        found = timers(lab.port)
        Sender(port, []).run()
        status, _ = engine.ended(30)
    lab.close()
    return [] if (status, found) == (0, [2]) else [f'keepalive: status {status}, timers {found}']


def all_receivers(program, folder):
    return (all_get_all(program, folder) + reasons(program, folder) + no_descriptors(program, folder)
            + kept_alive(program, folder) + broken_links(program, folder))
