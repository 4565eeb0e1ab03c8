"""The faults of `run` in their order, with their lines and exit statuses."""
import ctypes
import os
import resource
import socket
import stat
import struct
import subprocess
import time

from engine import Engine, channel_counts, checks_accesses, one_channel, plan
from mllp import Destination, Sender, block, free_ports, message


def called(program, words):
    ran = subprocess.run([program, 'run', *words], stdin=subprocess.DEVNULL, capture_output=True, timeout=30)
    lines = [line for line in ran.stderr.decode().splitlines(True) if not line.startswith(('note: ', 'warning: '))]
    return ran.returncode, ran.stdout.decode(), ''.join(lines)


def connected(port):
    return socket.create_connection(('127.0.0.1', port), timeout=20)


def speak(connection, text):
    """Sends a text and returns the next bytes received, empty at the end of the connection."""
    try:
        connection.sendall(block(text))
        return connection.recv(65_536)
    except OSError:
        return b''


def wait_received(destination, number):
    """Waits until the destination has received `number` messages, for 20 seconds at most."""
    deadline = time.monotonic() + 20
    while len(destination.received) < number and time.monotonic() < deadline:
        time.sleep(0.01)


def break_listener(pid, port):
    """Shuts down a process's listener through a duplicate of its descriptor: accepting fails from then on."""
    process, get_descriptor = os.pidfd_open(pid), 438
    for number in map(int, os.listdir(f'/proc/{pid}/fd')):
        held = ctypes.CDLL(None, use_errno=True).syscall(get_descriptor, process, number, 0)
        if held < 0:
            raise OSError(ctypes.get_errno(), 'pidfd_getfd')
        if not stat.S_ISSOCK(os.fstat(held).st_mode):
            os.close(held)
            continue
        with socket.socket(fileno=held) as copy:
            if copy.getsockopt(socket.SOL_SOCKET, socket.SO_ACCEPTCONN) and copy.getsockname()[1] == port:
                copy.shutdown(socket.SHUT_RDWR)
    os.close(process)


def before_a_run(program, folder):
    """Faults that end the program before it listens: the first one is reported, and nothing else."""
    path, (free, used, lab) = os.path.join(folder, 'plan.toml'), free_ports(3)

    def started(text, accept=1, more=()):
        with open(path, 'w', encoding='utf-8') as file:
            file.write(text)
        return called(program, [path, '--accept', str(accept), *more])

    holder = socket.socket()
    holder.bind(('127.0.0.1', used))
    holder.listen()
    destination, route = [('LAB', lab, [])], [('LAB', None, None)]
    taken = plan([('FREE', free, route), ('TAKEN', used, route), ('TAKEN2', used, route)], destination)
    cases = [
        ('no file', called(program, [os.path.join(folder, 'none.toml'), '--accept', '9999']),
         (3, '', f'file: {folder}/none.toml\n')),
        ('a faulty plan, with too many connections', started(taken.replace('TAKEN2', 'TAKEN'), 9_999),
         (1, '', 'plan: DoubleName at channel[2].name\n')),
        ('10,002 connections at an address in use', started(taken, 3_334), (2, '', 'limit: connections\n')),
        ('9,999 connections at an address in use', started(taken, 3_333), (3, '', 'device: listen TAKEN\n')),
        ('no address', started(one_channel(free, destination).replace(f'listen = "127.0.0.1:{free}"', 'listen = "nowhere"')),
         (3, '', 'device: listen ADT\n')),
    ]
    holder.close()
    return [f'{name}: {got}, not {expected}' for name, got, expected in cases if got != expected]


def failed_accept(program, folder):
    """A channel whose listener fails accepts no more connections; the other channel's connections continue. The counts are
    printed first, then the fault."""
    lab, ports = Destination(lambda text, before: b'AA'), free_ports(2)
    text = plan([('A', ports[0], [('LAB', None, None)]), ('B', ports[1], [('LAB', None, None)])], [('LAB', lab.port, [])])
    with Engine(program, text, 3, folder) as engine, connected(ports[1]) as b0, connected(ports[1]) as b1, \
            connected(ports[1]) as b2, connected(ports[0]) as a0:
        replies = [speak(peer, message(b'M%d' % n)) for n, peer in enumerate((b0, b1, b2, a0))]
        wait_received(lab, 4)
        break_listener(engine.process.pid, ports[0])
        engine.wait_logged('no further one is taken', 'channel=A')
        replies += [speak(peer, message(b'N%d' % n)) for n, peer in enumerate((b0, b1, b2, a0))]
        for peer in (b0, b1, b2, a0):
            peer.close()
        status, counts = engine.ended(30)
    lab.close()
    channels, expected = [counts.get(('channel', name)) for name in 'AB'], [channel_counts(n, accepted=n) for n in (2, 6)]
    if (status, engine.log[-1], channels, len(lab.received), b'' in replies) != (3, 'device: listen A', expected, 8, False):
        return [f'a failed accept: status {status}, {engine.log}, {counts}, {len(lab.received)} messages received, {replies}']
    return []


def refused_thread(program, folder):
    """If the system refuses a further thread, no further worker is started, which is logged, and the others run to their end.
    The fault reported then is `memory`. Not tried if the program checks its memory accesses, since it needs more memory than the
    limit leaves it."""
    if checks_accesses(program):
        print('a refused thread: not tried, this program checks its memory accesses')
        return []
    lab, port = Destination(lambda text, before: b'AA'), free_ports(1)[0]
    with Engine(program, one_channel(port, [('LAB', lab.port, [])]), 3, folder) as engine:
        pid, texts = engine.process.pid, [message(b'A%d' % n) for n in range(2)]
        with connected(port) as first:
            replies = [speak(first, texts[0])]
            wait_received(lab, 1)
            with open(f'/proc/{pid}/statm', encoding='utf-8') as file:
                pages = int(file.read().split()[0])
            allowed = resource.prlimit(pid, resource.RLIMIT_AS)
            resource.prlimit(pid, resource.RLIMIT_AS, (pages * resource.getpagesize(), allowed[1]))
            with connected(port):
                time.sleep(0.5)
                resource.prlimit(pid, resource.RLIMIT_AS, allowed)
                replies.append(speak(first, texts[1]))
        status, counts = engine.ended(30)
    lab.close()
    warnings = len(engine.lines_with('WARN', 'no thread for a connection', 'channel=ADT'))
    if (status, counts, engine.log[-1], warnings, len(replies), lab.received) != (3, {}, 'memory', 1, 2, texts):
        return [f'a refused thread: status {status}, {counts}, {engine.log}, {replies}, {lab.received}']
    return []


def reset_connection(program, folder):
    """A connection that its peer resets is logged as one warning, with its number, its channel and its peer."""
    ports = free_ports(3)
    text = plan([(name, port, [('LAB', None, None)]) for name, port in zip('AB', ports)], [('LAB', ports[2], [])])
    with Engine(program, text, 1, folder) as engine, connected(ports[0]) as other:
        peer = connected(ports[1])
        peer.setsockopt(socket.SOL_SOCKET, socket.SO_LINGER, struct.pack('ii', 1, 0))
        port = peer.getsockname()[1]
        peer.sendall(b'\x0bMSH|')
        time.sleep(0.5)
        peer.close()
        other.close()
        status, counts = engine.ended(30)
    warnings, expected = engine.warnings(), ('reading from the sender failed: ', 'channel=B', 'connection=1', f'peer=127.0.0.1:{port}')
    if status != 0 or len(warnings) != 1 or engine.lines_with(*expected) != warnings:
        return [f'a reset connection: status {status}, {warnings}, {counts}']
    return []


def full_disk(program, folder):
    """Counts that can't be written are a device fault. They are printed on standard error before it."""
    port, = free_ports(1)
    path = os.path.join(folder, 'plan.toml')
    with open(path, 'w', encoding='utf-8') as file:
        file.write(one_channel(port, [('LAB', port, [])]))
    with open('/dev/full', 'wb') as full:
        process = subprocess.Popen([program, 'run', path, '--accept', '1'], stdout=full, stderr=subprocess.PIPE)
        while not process.stderr.readline().startswith(b'listening on '):
            if process.poll() is not None:
                return [f'a full disk: it ended with {process.returncode} before it listened']
        Sender(port, []).run()
        _, printed = process.communicate(timeout=30)
    expected = [b'channel ADT received 0 filtered 0 accepted 0 refused 0 repeats 0',
                b'destination LAB waiting 0 inflight 0 delivered 0 failed 0 attempts 0', b'device: write']
    return [] if (process.returncode, printed.splitlines()[-3:]) == (3, expected) else [f'a full disk: {process.returncode}, {printed}']


def all_faults(program, folder):
    return (before_a_run(program, folder) + failed_accept(program, folder) + refused_thread(program, folder)
            + reset_connection(program, folder) + full_disk(program, folder))
