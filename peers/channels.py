"""Channels that run out of descriptors, have accepted their last connection, or serve senders that break off or read nothing."""
import resource
import socket
import struct
import tempfile
import threading
import time

from engine import Engine, channel_counts, checks_accesses, one_channel, plan
from faults import break_listener, connected, speak, wait_received
from mllp import Destination, Sender, block, free_ports, message

# A connection ends when an acknowledgment can't be written for this many seconds, and a channel stops accepting connections when
# it has lacked descriptors for as long.
PATIENCE = 60


def refused(port):
    """Whether a connection to this port is refused."""
    try:
        with socket.create_connection(('127.0.0.1', port), timeout=5):
            return False
    except ConnectionRefusedError:
        return True
    except OSError:
        return False


def soon_refused(port, limit=5.0):
    """Whether a connection to this port is refused within `limit` seconds: a channel logs that it accepts no further connections
    just before its listener is closed."""
    until = time.monotonic() + limit
    while not refused(port):
        if time.monotonic() > until:
            return False
        time.sleep(0.05)
    return True


def allow(pid, number):
    """Sets the number of descriptors that a process may have, and returns the previous limit."""
    before = resource.prlimit(pid, resource.RLIMIT_NOFILE)
    resource.prlimit(pid, resource.RLIMIT_NOFILE, (number, before[1]))
    return before[0]


def a_passing_lack(program, folder):
    """A channel that lacks descriptors for two seconds accepts connections again afterwards."""
    lab, port = Destination(lambda text, before: b'AA'), free_ports(1)[0]
    with Engine(program, one_channel(port, [('LAB', lab.port, [])]), 4, folder) as engine:
        first = Sender(port, [message(b'M0')])
        first.run()
        wait_received(lab, 1)
        pid = engine.process.pid
        before = allow(pid, 3)
        with connected(port) as waiting:
            # The pending accept already has its descriptor; the next one lacks it.
            waiting.sendall(block(message(b'M1')))
            is_logged = engine.wait_logged('accepting a connection failed', 'channel=ADT')
            time.sleep(2)
            allow(pid, before)
            late = Sender(port, [message(b'M2')])
            late.run()
            reply = waiting.recv(65_536)
        last = Sender(port, [message(b'M3')])
        last.run()
        status, counts = engine.ended(30)
    lab.close()
    expected = channel_counts(4, accepted=4)
    if (status, counts.get(('channel', 'ADT')), is_logged, late.fault, last.fault) != (0, expected, True, None, None) or not reply:
        return [f'a passing lack of descriptors: status {status}, {counts}, {late.fault}, {last.fault}, {engine.log}']
    return [] if engine.lines_with('accepting connections again') else [f'the end of a lack of descriptors is not logged: {engine.log}']


def a_small_limit(program, folder):
    """A process whose descriptor limit is lower than its connections need logs that before it listens. It serves as many
    connections as it can; those that wait are served once others have ended."""
    lab, port, number, allowed = Destination(lambda text, before: b'AA'), free_ports(1)[0], 30, 16
    under = ('sh', '-c', f'ulimit -n {allowed}; exec "$@"', 'sh')
    with Engine(program, one_channel(port, [('LAB', lab.port, [])]), number, folder, under=under) as engine:
        early = [line for line in engine.log if not line.startswith(('note: ', 'warning: '))]
        crowd = [Sender(port, [message(b'L%d-%d' % (sender, n)) for n in range(3)]) for sender in range(number)]
        for sender in crowd:
            sender.start()
        for sender in crowd:
            sender.join(60)
        status, counts = engine.ended(60)
    lab.close()
    needed, lines = 3 + 1 + number + 1, []
    if not early or not all(word in early[0] for word in ('WARN', f'allowed={allowed}', f'needed={needed}')):
        lines.append(f'a small limit: {early} is logged first, not the limit of {allowed} and the {needed} needed')
    expected, faults = channel_counts(3 * number, accepted=3 * number), [sender.fault for sender in crowd if sender.fault]
    if (status, counts.get(('channel', 'ADT')), faults) != (0, expected, []):
        lines.append(f'a small limit: status {status}, {counts}, {faults}, {engine.log[-5:]}')
    if len(engine.lines_with('few connections of the channel are left', 'WARN', 'channel=ADT')) != 1:
        lines.append(f'a small limit: {engine.warnings()}, not one line that few connections are left')
    return lines


def a_further_sender(program, folder):
    """Once the last connection is accepted, or accepting has failed, a further sender is refused, while the accepted
    connections continue."""
    lab, ports = Destination(lambda text, before: b'AA'), free_ports(2)
    text = plan([(name, port, [('LAB', None, None)]) for name, port in zip('AB', ports)], [('LAB', lab.port, [])])
    with Engine(program, text, 2, folder) as engine, connected(ports[0]) as a0, connected(ports[0]) as a1, \
            connected(ports[1]) as b0:
        replies = [speak(peer, message(b'M%d' % n)) for n, peer in enumerate((a0, a1, b0))]
        engine.wait_logged('its listener is closed', 'channel=A', limit=3)
        at_a = refused(ports[0])
        break_listener(engine.process.pid, ports[1])
        engine.wait_logged('no further one is taken', 'channel=B', limit=3)
        at_b = refused(ports[1])
        replies += [speak(peer, message(b'N%d' % n)) for n, peer in enumerate((a0, a1, b0))]
        for peer in (a0, a1, b0):
            peer.close()
        status, counts = engine.ended(30)
    lab.close()
    if (at_a, at_b, b'' in replies, status, engine.log[-1]) != (True, True, False, 3, 'device: listen B'):
        return [f'a further sender: refused {at_a} and {at_b}, status {status}, {counts}, {engine.log}']
    return []


def senders_that_break_off(program, folder):
    """Senders that end or reset their connection in the middle of a block: each end is logged with its reason, each complete
    message is booked and delivered, and another sender is served."""
    lab, port, number = Destination(lambda text, before: b'AA'), free_ports(1)[0], 12
    with Engine(program, one_channel(port, [('LAB', lab.port, [])]), number + 1, folder) as engine:
        for n in range(number):
            with connected(port) as peer:
                speak(peer, message(b'B%d' % n))
                peer.sendall(b'\x0bMSH|^~\\&|REG')
                if n % 2:
                    time.sleep(0.05)
                    peer.setsockopt(socket.SOL_SOCKET, socket.SO_LINGER, struct.pack('ii', 1, 0))
        good = Sender(port, [message(b'G%d' % n) for n in range(20)])
        good.run()
        status, counts = engine.ended(30)
    lab.close()
    expected, lines = channel_counts(number + 20, accepted=number + 20), []
    if (status, counts.get(('channel', 'ADT')), good.fault, len(lab.received)) != (0, expected, None, number + 20):
        lines.append(f'senders that break off: status {status}, {counts}, {good.fault}, {len(lab.received)} received, {engine.log}')
    for n in range(number + 1):
        opened = engine.lines_with('connection opened', 'channel=ADT', f'connection={n} ', 'peer=127.0.0.1:')
        why = 'reading from the sender failed' if n % 2 and n < number else 'closed by the sender'
        ended = engine.lines_with('connection ended: ' + why, 'channel=ADT', f'connection={n} ', f'booked={1 if n < number else 20} ')
        if len(opened) != 1 or len(ended) != 1:
            lines.append(f'senders that break off: connection {n} has {opened} and {ended}')
    return lines


def late(program):
    """The seconds by which a line may be late: what was sent before is served first, and a slow program takes longer for that."""
    return 60 if checks_accesses(program) else 12


def a_deaf_sender(program, folder):
    """A sender that reads no acknowledgments is disconnected once none could be written for 60 seconds, and the run ends."""
    lab, port = Destination(lambda text, before: b'AA'), free_ports(1)[0]
    with Engine(program, one_channel(port, [('LAB', lab.port, [])]), 1, folder) as engine, socket.socket() as deaf:
        deaf.setsockopt(socket.SOL_SOCKET, socket.SO_RCVBUF, 4_096)
        deaf.connect(('127.0.0.1', port))
        # A slow program may read nothing for some seconds while it handles a message.
        deaf.settimeout(15.0 if checks_accesses(program) else 1.0)
        try:
            for n in range(5_000):
                deaf.sendall(block(message(b'D%d' % n, sender=b'R' * 50_000)))
        except OSError:
            pass
        began = time.monotonic()
        is_logged = engine.wait_logged('writing to the sender failed: no progress', 'channel=ADT', 'connection=0',
                                       limit=PATIENCE + late(program))
        waited = time.monotonic() - began
        status, counts = engine.ended(20)
    lab.close()
    booked = counts.get(('channel', 'ADT'), {}).get('accepted', -1)
    if (is_logged, status, len(lab.received)) != (True, 0, booked) or waited < PATIENCE - 15:
        return [f'a deaf sender: logged {is_logged} after {waited:.0f} seconds, status {status}, {counts}, {engine.log[-5:]}']
    return []


def a_lasting_lack(program, folder):
    """A channel that lacks descriptors for 60 seconds accepts no more connections, and a further sender is refused. Its open
    connections continue to their end."""
    lab, port = Destination(lambda text, before: b'AA'), free_ports(1)[0]
    with Engine(program, one_channel(port, [('LAB', lab.port, [])]), 3, folder) as engine, connected(port) as first:
        replies = [speak(first, message(b'M0'))]
        wait_received(lab, 1)
        before = allow(engine.process.pid, 3)
        began = time.monotonic()
        with connected(port) as second:
            replies.append(speak(second, message(b'M1')))
            is_logged = engine.wait_logged('no further one is taken', 'channel=ADT', limit=PATIENCE + late(program))
            waited, is_refused = time.monotonic() - began, soon_refused(port)
            allow(engine.process.pid, before)
            replies += [speak(first, message(b'M2')), speak(second, message(b'M3'))]
        first.close()
        status, counts = engine.ended(20)
    lab.close()
    got = (is_logged, is_refused, status, engine.log[-1], b'' in replies, counts.get(('channel', 'ADT')))
    if got != (True, True, 3, 'device: listen ADT', False, channel_counts(4, accepted=4)) or waited < PATIENCE - 5:
        return [f'a lasting lack of descriptors: after {waited:.0f} seconds {got}, {engine.log[-5:]}']
    return []


def beside(scenes, program, folder):
    """Plays scenes at the same time, each in a folder of its own, and returns all their failures."""
    found = []

    def play(scene):
        with tempfile.TemporaryDirectory(dir=folder) as own:
            try:
                found.extend(scene(program, own))
            except (OSError, RuntimeError) as error:
                found.append(f'{scene.__name__}: {error!r}')

    threads = [threading.Thread(target=play, args=(scene,)) for scene in scenes]
    for thread in threads:
        thread.start()
    for thread in threads:
        thread.join()
    return found


def channels(program, folder):
    return beside([a_deaf_sender, a_lasting_lack, a_passing_lack, a_small_limit, a_further_sender, senders_that_break_off],
                  program, folder)
