"""Senders and destinations that misbehave: all others continue to be served."""
import resource
import socket
import time

from engine import Engine, channel_counts, checks_accesses, destination_counts, one_channel, plan
from mllp import NO_END, SILENCE, Destination, Sender, block, field, free_ports, message


def destinations(program, folder):
    """Destinations that never answer, answer a byte at a time, without end, with garbage, or with blocks meant for others first,
    and one whose port nothing listens on. Each attempt ends by its timeout or size limit, and the others are served at once."""
    others = block(b'HELLO') + block(message(b'X')) + b'\x0bMSH|' + 6 * block(b'MSH|^~\\&|A|B|C|D|||ACK|9|P|2.5.1\rMSA|AA|9\r')
    peers = {
        'GOOD': (Destination(lambda text, before: b'AA'), (3, 0, 3)),
        'MUTE': (Destination(lambda text, before: SILENCE), (0, 3, 6)),
        'BYTES': (Destination(lambda text, before: b'AA', slice_size=1), (3, 0, 3)),
        'ENDLESS': (Destination(lambda text, before: NO_END), (0, 1, 1)),
        'GARBAGE': (Destination(lambda text, before: b'AA' if before else b'\x00\x1c\r\xff' * 5_000), (3, 0, 6)),
        'OTHERS': (Destination(lambda text, before: b'AA' if before else others), (3, 0, 6)),
        'DOWN': (Destination(lambda text, before: b'AA', up=False), (0, 3, 6)),
    }
    port, = free_ports(1)
    routes = [(name, '{ equals = ["MSH-10", "H0"] }' if name == 'ENDLESS' else None, None) for name in peers]
    text = plan([('ADT', port, routes)],
                [(name, peer.port, [f'attempts = {1 if name == "ENDLESS" else 2}', 'interval = 0', 'timeout = 1'])
                 for name, (peer, _) in peers.items()])
    good = peers['GOOD'][0]
    with Engine(program, text, 2, folder) as engine:
        began = time.monotonic()
        sender = Sender(port, [message(b'H%d' % n) for n in range(3)])
        sender.run()
        while len(good.received) < 3 and time.monotonic() < began + 20:
            time.sleep(0.01)
        waited = time.monotonic() - began
        Sender(port, []).run()
        status, counts = engine.ended(90)
    lines = [f'a destination was held up by others for {waited:.1f} seconds'] if waited > 5 else []
    for name, (peer, (delivered, failed, attempts)) in peers.items():
        peer.close()
        got, expected = counts.get(('destination', name)), destination_counts(delivered, failed, attempts)
        if got != expected:
            lines.append(f'hostile destinations: {name} has {got}, not {expected}')
    if status != 0 or sender.fault:
        lines.append(f'hostile destinations: status {status}, {sender.fault}, {engine.warnings()[-5:]}')
    return lines


def deaf(port):
    """Sends messages without reading any acknowledgment, until sending blocks, and returns the connection. An acknowledgment
    repeats the sending application of its message, which is long here, so that the buffers fill up soon."""
    connection = socket.socket()
    connection.setsockopt(socket.SOL_SOCKET, socket.SO_RCVBUF, 4_096)
    connection.connect(('127.0.0.1', port))
    connection.settimeout(1.0)
    try:
        for n in range(5_000):
            connection.sendall(block(message(b'D%d' % n, sender=b'R' * 50_000)))
    except socket.timeout:
        return connection
    raise RuntimeError('a sender that reads nothing was never blocked')


def senders(program, folder):
    """A sender that reads nothing, one that sends nothing, and one that sends a block without end: a further sender is served."""
    lab, port = Destination(lambda text, before: b'AA'), free_ports(1)[0]
    with Engine(program, one_channel(port, [('LAB', lab.port, ['attempts = 1'])]), 4, folder) as engine:
        held = [deaf(port), socket.create_connection(('127.0.0.1', port)), socket.create_connection(('127.0.0.1', port))]
        held[2].sendall(b'\x0b' + b'A' * 8_000_000)
        good = Sender(port, [message(b'S%d' % n) for n in range(100)])
        began = time.monotonic()
        good.run()
        waited, memory = time.monotonic() - began, engine.resident()
        for connection in held:
            connection.close()
        status, counts = engine.ended(60)
    lab.close()
    lines = []
    if good.fault or waited > 10:
        lines.append(f'hostile senders: {good.fault}, {len(good.replies)} acknowledgments after {waited:.1f} seconds')
    ids = [field(text, b'MSH', 10) for text in lab.received]
    unread = [name for name in ids if name.startswith(b'D')]
    if unread != [b'D%d' % n for n in range(len(unread))] or [n for n in ids if n not in unread] != [
            b'S%d' % n for n in range(100)]:
        lines.append(f'hostile senders: {len(ids)} messages received, {ids[:3]}..')
    if counts.get(('channel', 'ADT')) != channel_counts(len(ids), accepted=len(ids)):
        lines.append(f'hostile senders: {counts}, and {len(ids)} messages received')
    if status != 0:
        lines.append(f'hostile senders: status {status}, {engine.warnings()[-5:]}')
    if memory > 256 * 2 ** 20:
        lines.append(f'hostile senders: {memory / 2 ** 20:.0f} MiB resident')
    return lines


def files_allowed(wanted):
    """Raises the number of files that this process and its children may open to `wanted`, or as far as the system allows, and returns
    the limit."""
    soft, hard = resource.getrlimit(resource.RLIMIT_NOFILE)
    allowed = wanted if hard == resource.RLIM_INFINITY else min(wanted, hard)
    resource.setrlimit(resource.RLIMIT_NOFILE, (max(soft, allowed), hard))
    return max(soft, allowed)


def idle_connections(program, folder, number):
    """Many connections that send nothing, and one that does. It is served at once, and the program uses at most 1 GiB for 9,999
    connections, proportionally less for fewer; a program that checks its memory accesses may use more. If the system allows fewer
    open files, there are fewer connections."""
    number = min(number, files_allowed(number + 100) - 100)
    lab, port = Destination(lambda text, before: b'AA'), free_ports(1)[0]
    with Engine(program, one_channel(port, [('LAB', lab.port, [])]), number, folder) as engine:
        began = time.monotonic()
        crowd = [socket.create_connection(('127.0.0.1', port)) for _ in range(number - 1)]
        opened = time.monotonic() - began
        good = Sender(port, [message(b'I%d' % n) for n in range(10)])
        began = time.monotonic()
        good.run()
        waited, memory = time.monotonic() - began, engine.resident()
        for connection in crowd:
            connection.close()
        status, counts = engine.ended(60)
        closed = time.monotonic() - began - waited
    lab.close()
    allowed = min(2 ** 30, 2 ** 30 * number / 9_999 + 2 ** 25)
    print(f'{number - 1} idle connections: {memory / 2 ** 20:.0f} MiB resident, opened in {opened:.1f} seconds, '
          f'another one served in {waited:.2f}, ended {closed:.1f} seconds later')
    lines = []
    if good.fault or waited > 10:
        lines.append(f'idle: {good.fault}, {len(good.replies)} acknowledgments after {waited:.1f} seconds')
    if memory > allowed and not checks_accesses(program):
        lines.append(f'idle: {memory / 2 ** 20:.0f} MiB resident, more than {allowed / 2 ** 20:.0f}')
    if status != 0 or counts.get(('destination', 'LAB')) != destination_counts(10):
        lines.append(f'idle: status {status}, {counts}, {engine.warnings()[-5:]}')
    return lines
