#!/usr/bin/env python3
"""Measures what a store costs the built service: with `--memory`, with `--store` on a disk and with `--store` on a memory file system,
in turns. Messages a second from 64 connections, acknowledged and delivered; one message alone; times at a moderate rate; processor
time; what the file has for each message, take and settlement; how many messages share a commit; and a start over what was kept.

Usage: bench/store.py [PROGRAM] [--turns N] [--messages N] [--rate N] [--growth N] [--start N] [--disk FOLDER] [--ram FOLDER]

PROGRAM is the built service, by default crates/hl7_service/out/hl7_service ('rt run' in crates/hl7_service builds it). --messages is
how many a turn sends at full speed, --rate how many a second at the moderate rate, --growth by how many the file is measured, --start
over how many messages a start is timed (0: none), --disk a folder on the disk to measure, and --ram one in memory. The commits
are counted by peers/power.c, for which a C compiler is needed. Plain Python 3, no packages. Senders and the destination are
processes of their own. It prints what is wanted beside what was measured, and judges nothing: the exit status is 0 once all of it
was measured.
"""
import argparse
import multiprocessing
import os
import selectors
import socket
import sqlite3
import statistics
import subprocess
import sys
import tempfile
import threading
import time
from collections import deque
from multiprocessing.sharedctypes import RawArray
from typing import NamedTuple

sys.path.insert(0, os.path.join(os.path.dirname(os.path.abspath(__file__)), '..', 'peers'))
import power  # noqa: E402
from crash import PROGRAM  # noqa: E402
from engine import checks_accesses, one_channel  # noqa: E402
from meter import seconds_of  # noqa: E402
from mllp import block, free_ports, message  # noqa: E402
from served import Service  # noqa: E402

CONNECTIONS, IN_FLIGHT, SIZE = 64, 16, 700
# How many messages are sent one at a time in a turn, and how many seconds pass before each that is alone: a store writes what nobody
# waits for, as a settlement, within 20 ms. For how long a moderate rate lasts, over how many connections.
ALONE, QUIET, PACED_SECONDS, PACED_CONNECTIONS = 60, 0.03, 3.0, 8
# How many messages are sent at most to count commits.
COUNTED = 10_000
SYNCS, STARTS, LIMIT = 200, 3, 600


def numbered(name, number):
    """A message of SIZE bytes, as a block."""
    text = message(b'%s-%d' % (name, number), patient=b'4711^^^H||DOE^JANE||19700101|F')
    return block(text + b'NTE|1||' + b'x' * (SIZE - len(text) - 8) + b'\r')


class Lab:
    """A destination that acknowledges each message, in a process of its own. It knows how many it has received, and when the last one."""

    def __init__(self):
        self.port, self._counted, up = free_ports(1)[0], RawArray('d', 2), multiprocessing.Event()
        self._process = multiprocessing.Process(target=self._receive, args=(up,), daemon=True)
        self._process.start()
        up.wait(10)

    def __enter__(self):
        return self

    def __exit__(self, *_):
        self._process.kill()
        self._process.join()

    def _receive(self, up):
        with socket.create_server(('127.0.0.1', self.port)) as listener:
            up.set()
            while True:
                peer, _ = listener.accept()
                peer.setsockopt(socket.IPPROTO_TCP, socket.TCP_NODELAY, 1)
                threading.Thread(target=self._take, args=(peer,), daemon=True).start()

    def _take(self, peer):
        held = b''
        with peer:
            while piece := peer.recv(65_536):
                held += piece
                while (end := held.find(b'\x1c\r')) >= 0:
                    control_id = held[:end].split(b'|', 10)[9]
                    held = held[end + 2:]
                    peer.sendall(block(b'MSH|^~\\&|LAB|X|ENG|HUB|20231114221300||ACK|1|P|2.5.1\rMSA|AA|' + control_id + b'\r'))
                    self._counted[1] = time.monotonic()
                    self._counted[0] += 1

    def received(self):
        """How many messages it has received."""
        return int(self._counted[0])

    def wait(self, number):
        """Waits until it has received this many messages. When it received the last one."""
        until = time.monotonic() + LIMIT
        while self.received() < number:
            if time.monotonic() > until:
                raise RuntimeError(f'{self.received()} of {number} messages were delivered in {LIMIT} seconds')
            time.sleep(0.002)
        return self._counted[1]


class Peer:
    """A connection that sends messages, IN_FLIGHT of them at a time."""

    def __init__(self, port, name, number):
        self.socket = socket.create_connection(('127.0.0.1', port), timeout=LIMIT)
        self.socket.setsockopt(socket.IPPROTO_TCP, socket.TCP_NODELAY, 1)
        self._name, self._number, self._sent, self._waiting = name, number, 0, 0

    def send(self):
        """Sends the next ones, if any are left. Whether there were."""
        more = range(self._sent, min(self._sent + IN_FLIGHT, self._number))
        if more:
            self.socket.sendall(b''.join(numbered(self._name, number) for number in more))
        self._sent, self._waiting = more.stop, len(more)
        return bool(more)

    def read(self):
        """Reads acknowledgments. Whether all that was sent is acknowledged."""
        piece = self.socket.recv(65_536)
        if not piece or b'MSA|CE' in piece:
            raise OSError('a message was not booked, or the connection ended')
        self._waiting -= piece.count(b'\x1c')
        return self._waiting == 0


def crowd(port, names, each, ready, go, took):
    """Sends `each` messages by each of several connections, and puts when the first was sent and the last acknowledged into `took`."""
    with selectors.DefaultSelector() as selector:
        peers = [Peer(port, name, each) for name in names]
        for peer in peers:
            selector.register(peer.socket, selectors.EVENT_READ, peer)
        ready.release()
        go.wait()
        began = time.monotonic()
        left = sum(peer.send() for peer in peers)
        while left:
            for key, _ in selector.select():
                if key.data.read() and not key.data.send():
                    left -= 1
        took.put((began, time.monotonic()))


def sent(port, messages, turn):
    """Sends messages over all connections at once. When the first was sent, when the last was acknowledged, and how many there were."""
    ready, go, took = multiprocessing.Semaphore(0), multiprocessing.Event(), multiprocessing.Queue()
    names, each = [b'%s%d' % (turn, number) for number in range(CONNECTIONS)], max(1, messages // CONNECTIONS)
    count = min(4, os.cpu_count() or 1)
    crowds = [multiprocessing.Process(target=crowd, args=(port, names[at::count], each, ready, go, took), daemon=True)
              for at in range(count)]
    for process in crowds:
        process.start()
    if not all(ready.acquire(timeout=LIMIT / 10) for _ in crowds):
        raise RuntimeError('not all senders are connected')
    go.set()
    times = [took.get(timeout=LIMIT) for _ in crowds]
    for process in crowds:
        process.join()
    return min(began for began, _ in times), max(ended for _, ended in times), each * CONNECTIONS


def alone(port, name, quiet):
    """Seconds for the acknowledgment of each of ALONE messages, one at a time, with this many seconds between."""
    times = []
    with socket.create_connection(('127.0.0.1', port), timeout=LIMIT) as peer:
        peer.setsockopt(socket.IPPROTO_TCP, socket.TCP_NODELAY, 1)
        for number in range(ALONE):
            time.sleep(quiet)
            text, began = numbered(name, number), time.monotonic()
            peer.sendall(text)
            while b'\x1c' not in peer.recv(65_536):
                pass
            times.append(time.monotonic() - began)
    return times


def paced(port, rate):
    """Seconds from the moment at which each message was due until it was acknowledged, at a rate."""
    times, number, total = [], 0, int(rate * PACED_SECONDS)
    with selectors.DefaultSelector() as selector:
        for _ in range(PACED_CONNECTIONS):
            peer = socket.create_connection(('127.0.0.1', port), timeout=LIMIT)
            peer.setsockopt(socket.IPPROTO_TCP, socket.TCP_NODELAY, 1)
            selector.register(peer, selectors.EVENT_READ, deque())
        keys, began = list(selector.get_map().values()), time.monotonic()
        while len(times) < total:
            due = began + number / rate
            wait = due - time.monotonic() if number < total else LIMIT
            if wait <= 0:
                key = keys[number % len(keys)]
                key.data.append(due)
                key.fileobj.sendall(numbered(b'PACED', number))
                number += 1
            for key, _ in selector.select(max(wait, 0)):
                piece, now = key.fileobj.recv(65_536), time.monotonic()
                if not piece:
                    raise OSError('the connection ended')
                times += [now - key.data.popleft() for _ in range(piece.count(b'\x1c'))]
        for key in keys:
            key.fileobj.close()
    return times


class Turn(NamedTuple):
    """What a turn has found: rates a second, processor seconds a message, and times."""
    acknowledged: float
    delivered: float
    processor: float
    alone: list
    chained: list
    paced: list


def serving(program, folder, store, port, to):
    """The service once it listens, with one channel and one destination."""
    service = Service(program, one_channel(port, [('LAB', to, ['attempts = 2'])]), folder, store=store)
    service.ready.wait(LIMIT)
    return service


def turned(program, folder, store, name, messages, rate):
    """One turn, with a store at this path or in memory alone."""
    with Lab() as lab:
        port, = free_ports(1)
        with serving(program, folder, store, port, lab.port) as service:
            one, chained, many = alone(port, b'ALONE', QUIET), alone(port, b'CHAINED', 0), paced(port, rate)
            before = len(one) + len(chained) + len(many)
            lab.wait(before)
            used = seconds_of(service.process)
            began, acknowledged, number = sent(port, messages, b'T%d-' % name)
            delivered = lab.wait(before + number)
            used = seconds_of(service.process) - used
            stopped(service)
    return Turn(number / (acknowledged - began), number / (delivered - began), used / number, one, chained, many)


def stopped(service, command='stop'):
    """Ends a service."""
    service.ask(command)
    status, _ = service.ended(LIMIT)
    if status != 0:
        raise RuntimeError(f'status {status}: {service.log[-4:]}')


def one_sync(folder):
    """The median time of an fdatasync behind a write of 8 KiB into a file that is there."""
    times = []
    with tempfile.TemporaryFile(dir=folder) as file:
        file.write(bytes(SYNCS * 8_192))
        file.flush()
        os.fsync(file.fileno())
        for number in range(SYNCS):
            os.pwrite(file.fileno(), b'x' * 8_192, number * 8_192)
            began = time.monotonic()
            os.fdatasync(file.fileno())
            times.append(time.monotonic() - began)
    return statistics.median(times)


def size_of(store):
    """The bytes of a store that was closed in order."""
    return sum(os.path.getsize(os.path.join(store, name)) for name in ('events.db', 'events.db-wal'))


def rows(store):
    """How many rows of each kind a store has, and the mean of the bytes in their columns."""
    columns = ('body', 'peer', 'kind', 'channel', 'control_id', 'destination', 'outcome')
    lengths = ' + '.join(f'length({column})' for column in columns)
    with sqlite3.connect(os.path.join(store, 'events.db')) as file:
        found = file.execute(f'select kind, count(*), avg({lengths}) from event group by kind order by count(*) desc').fetchall()
    file.close()
    return found


def growth(program, folder, store, messages):
    """What the file grows by for each message, and for its one take and its settlement: first the destination is down, then up."""
    port, to = free_ports(2)
    with serving(program, folder, store, port, to) as service:
        stopped(service, 'stop now')
    sizes = [size_of(store)]
    with serving(program, folder, store, port, to) as service:
        number = sent(port, messages, b'G')[2]
        stopped(service, 'stop now')
    sizes.append(size_of(store))
    with Lab() as lab, serving(program, folder, store, port, lab.port) as service:
        lab.wait(number)
        stopped(service)
    sizes.append(size_of(store))
    return (sizes[1] - sizes[0]) / number / SIZE, (sizes[2] - sizes[1]) / number / 2, rows(store)


class Commits(NamedTuple):
    """What was counted while messages went through: how many there were, rows, syncs of the log, and bytes written."""
    messages: int
    rows: int
    syncs: int
    written: int


def syncs_and_bytes(log, size):
    """How many syncs of events.db-wal the first bytes of a log of peers/power.c have, and how many bytes were written."""
    calls = power.calls_in(log, size)
    own = next(call.result for call in calls if call.kind == power.MADE and call.data == b'events.db-wal')
    return (sum(call.kind == power.SYNC and call.number == own for call in calls),
            sum(len(call.written()) for call in calls if call.kind == power.WRITE))


def commits(program, folder, store, messages, library):
    """Counts commits by the library of peers/power.c: each makes one sync of the log, seldom two."""
    os.mkdir(store, 0o700)
    log, (port,), before = f'{store}.log', free_ports(1), dict(os.environ)
    with Lab() as lab:
        try:
            os.environ.update(power.noting(library, store, log))
            service = serving(program, folder, store, port, lab.port)
        finally:
            os.environ.clear()
            os.environ.update(before)
        with service:
            begun = os.path.getsize(log)
            number = sent(port, min(messages, COUNTED), b'C')[2]
            lab.wait(number)
            ended = os.path.getsize(log)
            stopped(service)
    (syncs, written), (first_syncs, first_written) = syncs_and_bytes(log, ended), syncs_and_bytes(log, begun)
    os.remove(log)
    return Commits(number, sum(count for _, count, _ in rows(store)), max(1, syncs - first_syncs), written - first_written)


def started(words):
    """Seconds until a service listens."""
    began = time.monotonic()
    with subprocess.Popen(words, stdin=subprocess.PIPE, stdout=subprocess.DEVNULL, stderr=subprocess.PIPE) as process:
        limit = threading.Timer(LIMIT, process.kill)
        limit.start()
        lines = []
        for line in process.stderr:
            lines.append(line.decode(errors='replace'))
            if line.startswith(b'listening on '):
                break
        took = time.monotonic() - began
        limit.cancel()
        process.kill()
        process.wait()
    if 'listening on ' not in lines[-1]:
        raise RuntimeError(f'it does not start: {lines[-4:]}')
    return took


def starting(program, folder, store, messages):
    """Rows of a store through which messages went, and the median time of a start over it."""
    with Lab() as lab:
        port, = free_ports(1)
        with serving(program, folder, store, port, lab.port) as service:
            number = sent(port, messages, b'S')[2]
            lab.wait(number)
            stopped(service)
            path = service.path
    return sum(count for _, count, _ in rows(store)), statistics.median(
        started([program, 'run', path, '--store', store]) for _ in range(STARTS))


def file_system(folder):
    """The type of the file system at a folder, and what is mounted there."""
    real, found = os.path.realpath(folder), ('', '', '')
    with open('/proc/mounts', encoding='utf-8') as file:
        for line in file:
            device, at, kind = line.split()[:3]
            if (real + '/').startswith(at.rstrip('/') + '/') and len(at) >= len(found[1]):
                found = device, at, kind
    return f'{found[2]} of {found[0]}'


def at_part(times, part):
    """The time below which this part of the times is."""
    return sorted(times)[min(int(len(times) * part), len(times) - 1)]


def line(what, figures, form='{:,.0f}'):
    """Prints a line with a figure for each place."""
    print(f'{what:52}' + ''.join(f'{form.format(figure) if figure is not None else "":>14}' for figure in figures), flush=True)


def wanted(what, measured):
    """Prints what is wanted beside what was measured."""
    print(f'wanted: {what}; measured: {measured}', flush=True)


def told(turns, syncs):
    """Prints the figures of all turns, a column for each place. The medians of acknowledged and delivered, over those of --memory."""
    places = list(turns)
    print(f'{"":52}' + ''.join(f'{place:>14}' for place in places))
    ratios = {}
    for name in ('acknowledged', 'delivered'):
        line(f'messages {name} a second', [statistics.median(getattr(turn, name) for turn in turns[place]) for place in places])
        ratios[name] = {place: statistics.median(getattr(turn, name) / getattr(first, name)
                                                 for turn, first in zip(turns[place], turns[places[0]])) for place in places}
        line('  of those with --memory, in the same turn', [ratios[name][place] for place in places], '{:.2f}')
    line('processor time a message, microseconds', [1e6 * statistics.median(turn.processor for turn in turns[place]) for place in places],
         '{:.1f}')
    ones = {place: 1e6 * statistics.median(time for turn in turns[place] for time in turn.alone) for place in places}
    line('one message alone until CA, median, microseconds', [ones[place] for place in places])
    line('one behind another until CA, median, microseconds',
         [1e6 * statistics.median(time for turn in turns[place] for time in turn.chained) for place in places])
    line('one fdatasync by itself, median, microseconds', [syncs.get(place) for place in places])
    many = {place: [time for turn in turns[place] for time in turn.paced] for place in places}
    for part, name in ((0.5, 'median'), (0.99, '99th'), (0.999, '99.9th')):
        line(f'at the moderate rate until CA, {name}, microseconds', [1e6 * at_part(many[place], part) for place in places])
    return ratios, ones


def measured(program, places, args):
    """The turns of each place, in the order in which they were made."""
    turns = {place: [] for place in places}
    for number in range(args.turns):
        for place, folder in places.items():
            with tempfile.TemporaryDirectory(dir=folder) as own:
                store = os.path.join(own, 'store') if folder else None
                turns[place].append(turned(program, own, store, number, args.messages, args.rate))
    return turns


def of_the_file(program, places, args):
    """Measures and prints what the file takes, how many messages share a commit, and a start."""
    where = list(places.values())[-1]
    with tempfile.TemporaryDirectory(dir=where) as folder:
        message_bytes, step_bytes, kinds = growth(program, folder, os.path.join(folder, 'growth'), args.growth)
        for kind, count, size in kinds:
            print(f'rows of the kind {kind}: {count:,}, {size:.1f} bytes in their columns')
        wanted(f'at most 1.25 bytes of the file for a byte of a message of {SIZE} bytes', f'{message_bytes:.3f}')
        wanted('at most 80 bytes for each take and each settlement', f'{step_bytes:.1f}')
        library = power.library(folder)
        for place in list(places)[1:] if library else []:
            with tempfile.TemporaryDirectory(dir=places[place]) as own:
                found = commits(program, own, os.path.join(own, 'store'), args.messages, library)
            print(f'{place}: {found.messages / found.syncs:.1f} messages and {found.rows / found.syncs:.1f} rows a commit ({found.rows:,} '
                  f'rows, {found.syncs:,} syncs of the log), {found.written / found.messages / SIZE:.1f} bytes written for a byte of a message')
        if library is None:
            print('messages a commit: not counted, since no C compiler is installed')
        if args.start:
            count, took = starting(program, folder, os.path.join(folder, 'start'), args.start)
            wanted('a start over 1,000,000 entries in under 5 seconds',
                   f'{took:.2f} seconds over {count:,}, which is {took / count * 1e6:.2f} for 1,000,000')


def main():
    parser = argparse.ArgumentParser()
    parser.add_argument('program', nargs='?', default=PROGRAM)
    parser.add_argument('--turns', type=int, default=5)
    parser.add_argument('--messages', type=int, default=40_000)
    parser.add_argument('--rate', type=int, default=500)
    parser.add_argument('--growth', type=int, default=5_000)
    parser.add_argument('--start', type=int, default=100_000)
    parser.add_argument('--disk', default=tempfile.gettempdir())
    parser.add_argument('--ram', default='/dev/shm')
    args = parser.parse_args()
    os.environ.setdefault('MALLOC_ARENA_MAX', '1')  # as examples/service/hl7-service.service has it
    program, places = os.path.abspath(args.program), {'--memory': None, 'disk': args.disk}
    if os.path.isdir(args.ram) and os.access(args.ram, os.W_OK):
        places['in memory'] = args.ram
    else:
        print(f'a store in memory is not tried, since {args.ram} is not there')
    for place, folder in list(places.items())[1:]:
        print(f'{place}: {folder}, {file_system(folder)}')
    if checks_accesses(program):
        print('the program checks its memory accesses (./build --unproved), so it is slower than a proved one')
    print(f'medians of {args.turns} turns: {args.messages:,} messages of {SIZE} bytes over {CONNECTIONS} connections, {IN_FLIGHT} at a time '
          f'on each; {args.rate:,} a second for {PACED_SECONDS:g} seconds; {ALONE} alone, and {ALONE} one behind another', flush=True)
    turns = measured(program, places, args)
    syncs = {place: 1e6 * one_sync(folder) for place, folder in list(places.items())[1:]}
    ratios, ones = told(turns, syncs)
    if 'in memory' in places:
        wanted('with a store in memory at least 0.8 of what --memory delivers', f'{ratios["delivered"]["in memory"]:.2f}')
        wanted('with a store in memory at least 0.25 of what --memory acknowledges', f'{ratios["acknowledged"]["in memory"]:.2f}')
    for place in syncs:
        wanted(f'{place}: one message alone at most one sync and 200 microseconds more than with --memory, '
               f'{ones["--memory"] + syncs[place] + 200:,.0f} microseconds', f'{ones[place]:,.0f}')
    print('not measured: at least 0.8 of what a plain journal delivers that appends, with one fdatasync a group, and at least 0.5 of what '
          'it acknowledges; a few lines of Python or C in its stead would not be fair to compare with')
    of_the_file(program, places, args)
    return 0


if __name__ == '__main__':
    sys.exit(main())
