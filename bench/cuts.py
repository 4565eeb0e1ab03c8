#!/usr/bin/env python3
"""Measures that the cost of `hl7_engine answer` and `run` is linear in the bytes however these are cut: the instructions per byte if
the messages are received in pieces of 1 byte, of 100 bytes and of 1 MiB, and whether they are the same for twice as many messages.

Usage: bench/cuts.py [PROGRAM] [--quick]

PROGRAM is the built program, by default crates/hl7_engine/out/hl7_engine ('rt run' in crates/hl7_engine builds it). Messages of 676
bytes are sent under valgrind's callgrind: none, a number of them, and twice the number. The difference of the last two, divided by the
bytes, is the cost of a byte. The cost of a byte in the last run over that in the second run, both without the cost of the first run, is
1 if the cost is linear. The same is measured for one long message and one that is twice as long.

`answer` reads a pipe of which each read returns one piece (for pieces of 1 MiB: up to the 16 KiB that a read requests). `run` receives
the messages over one connection on 127.0.0.1 and delivers them to one destination. A piece of 1 or 100 bytes is sent once the previous
one has been read, according to the system's sock_diag, since the system would join them otherwise.

callgrind counts the instructions of the program itself, not those of the system. The cost of a read is measured with bytes outside of
blocks that are received one by one; the cost of a byte is also printed without it. If valgrind isn't installed, everything is measured
in processor time, the system's share included. With --quick there are fewer messages.

Plain Python 3, no packages. The exit status is 0 if each bound is met, else 1.
"""
import argparse
import os
import socket
import struct
import sys
import tempfile
import threading
import time

import meter
from answer import ONE_ATTEMPT, Bench, framed, shorter
from meter import COUNTS, LIMIT, MIB, TIMES, UNIT
from run import PROGRAM, Engine, Server, free_ports, one_channel

READ = 16_384  # the most bytes that one read of the program requests
MOST = 1.1  # the cost of a byte with twice the number of messages over that with the number
# The number of messages that are sent first, by the size of the pieces; then twice as many are sent.
ANSWERED = {1: 150, 100: 1_000, MIB: 6_000}
SERVED = {1: 60, 100: 300, MIB: 3_000}
LONG = {1: 65_536, 100: 262_144, MIB: 524_288}  # bytes of one message, by the size of the pieces; then twice as many
OUTSIDE = 10_000  # bytes outside of blocks
NAMES = {1: '1 byte', 100: '100 bytes', MIB: '1 MiB'}
SOCK_DIAG, BY_FAMILY, REQUEST = 4, 20, 1  # netlink's numbers


def messages(count):
    """Messages of 676 bytes, in their blocks."""
    return b''.join(framed(shorter(n)) for n in range(count))


def one_message(size):
    """One message of this number of bytes, in its block, and the number 1; no bytes and 0 if the size is 0."""
    prefix = shorter(0) + b'NTE|1||'
    return (framed(prefix + b'x' * (size - len(prefix) - 1) + b'\r'), 1) if size else (b'', 0)


def cut(stream, size):
    """The pieces of a stream."""
    return (stream[at:at + size] for at in range(0, len(stream), size))


class Unread:
    """The number of bytes that the peer of a connection on 127.0.0.1 has not read yet, by the system's sock_diag (inet_diag_req_v2)."""

    def __init__(self, connection):
        loopback, here, there = socket.inet_aton('127.0.0.1') + bytes(12), connection.getsockname()[1], connection.getpeername()[1]
        request = struct.pack('=BBBBI', socket.AF_INET, socket.IPPROTO_TCP, 0, 0, 0xFFFF_FFFF)
        request += struct.pack('!HH', there, here) + loopback + loopback + struct.pack('=I', 0) + b'\xff' * 8
        self._request = struct.pack('=IHHII', 16 + len(request), BY_FAMILY, REQUEST, 1, 0) + request
        self._system = socket.socket(socket.AF_NETLINK, socket.SOCK_RAW, SOCK_DIAG)
        self._system.settimeout(10)
        self._system.connect((0, 0))

    def bytes(self):
        """The number of bytes received that have not been read yet."""
        self._system.send(self._request)
        got = self._system.recv(8_192)
        if struct.unpack_from('=IH', got)[1] != BY_FAMILY:
            raise OSError('the system knows no such connection')
        return struct.unpack_from('=I', got, 16 + 4 + 48 + 4)[0]

    def close(self):
        """Closes the socket to the system."""
        self._system.close()


def send_paced(peer, pieces, until):
    """Sends pieces, each once the previous one has been read."""
    unread = Unread(peer)
    try:
        for piece in pieces:
            peer.sendall(piece)
            while unread.bytes() > 0:
                if time.monotonic() > until:
                    raise RuntimeError('a piece was not read')
    finally:
        unread.close()


def acknowledgments(peer, found):
    """Reads a connection to its end, and adds the number of blocks of each read to `found`."""
    while piece := peer.recv(65_536):
        found.append(piece.count(b'\x1c'))


def send(port, stream, size):
    """Sends a stream in pieces over one connection, and returns the number of acknowledgments received."""
    found = []
    with socket.create_connection(('127.0.0.1', port), timeout=LIMIT) as peer:
        peer.setsockopt(socket.IPPROTO_TCP, socket.TCP_NODELAY, 1)
        reader = threading.Thread(target=acknowledgments, args=(peer, found), daemon=True)
        reader.start()
        if size < READ:
            send_paced(peer, cut(stream, size), time.monotonic() + LIMIT)
        else:
            for piece in cut(stream, size):
                peer.sendall(piece)
        peer.shutdown(socket.SHUT_WR)
        reader.join(LIMIT)
    return sum(found)


def served(bench, stream, size, count):
    """The cost of `run` for a stream of this number of messages, sent in pieces, from the start of the program to its end."""
    port, = free_ports(1)
    with Server('acknowledged') as sink:
        plan = one_channel(port, [('D0', sink.port, ['attempts = 1'])])
        with Engine(bench.program, plan, 1, os.path.dirname(bench.source), under=meter.UNDER) as engine:
            acknowledged, before = send(port, stream, size), meter.children_seconds()
            status, counts = engine.ended(LIMIT)
            seconds = meter.children_seconds() - before
    if (status, acknowledged, counts['destination', 'D0']['delivered']) != (0, count, count):
        raise RuntimeError(f'{status} {acknowledged} {counts}')
    return meter.counted('\n'.join(engine.lines_with('Collected')), seconds)


def answered(bench, stream, size, count):
    """The cost of `answer` for a stream of this number of messages, sent in pieces, from the start of the program to its end."""
    command = [bench.program, 'answer', bench.plan, '--now', '1700000000']
    took = meter.from_pipe(command, cut(stream, size), bench.sink, size < READ)
    bench.all_accepted(count)
    return took


def least(way, *args):
    """The cost of `answer` or `run`: the count of callgrind in one run, or without valgrind the shortest time of several runs."""
    return min(way(*args) for _ in range(TIMES))


def of_a_byte(bench, way, size, made, number):
    """The cost of a byte in pieces of a size, and its ratio between twice the bytes and the bytes. `made` returns a stream for a
    number, and the number of messages in it."""
    (nothing, _), (fewer, short), (more, long) = (
        (least(way, bench, stream, size, count), len(stream)) for stream, count in map(made, (0, number, 2 * number)))
    cost = more.more_than(fewer, long - short)
    ratio = more.more_than(nothing, long).work / fewer.more_than(nothing, short).work
    return cost, ratio


def and_calls(cost, unit=''):
    """The system calls of a cost as text; empty if valgrind doesn't count them."""
    return f', {cost.calls:.4f} system calls{unit}' if COUNTS else ''


def report_twice(bench, line, ratio):
    """Prints the cost of a byte with twice the bytes over that with the bytes."""
    bench.report(f'        {line}: {ratio:.3f} (at most {MOST})', ratio <= MOST)


def measure(bench, name, way, counts, outside):
    """Prints the cost of a byte in `answer` or `run`, for each size of the pieces."""
    read, ratio = of_a_byte(bench, way, 1, lambda number: (b'A' * number, 0), outside)
    bench.report(f'{name}, a read that brings one byte outside of blocks: {read.work:,.1f} {UNIT}{and_calls(read)}')
    report_twice(bench, f'at {2 * outside:,} reads over one at {outside:,}', ratio)
    costs = {}
    for size, count in counts.items():
        cost, ratio = of_a_byte(bench, way, size, lambda number: (messages(number), number), count)
        costs[size] = cost.work, cost.work - read.work / min(size, READ)
        bench.report(f'{name}, messages in pieces of {NAMES[size]}: {cost.work:,.2f} {UNIT} a byte{and_calls(cost, " a byte")}')
        report_twice(bench, f'a byte of {2 * count:,} messages over one of {count:,}', ratio)
    whole, rest = costs[MIB]
    for size in (size for size in counts if size != MIB):
        # Without valgrind the system's share of a read differs too much from read to read.
        without = f'; without what reads take: {costs[size][1]:,.2f} over {rest:,.2f}, {costs[size][1] / rest:.2f} times' if COUNTS else ''
        bench.report(f'{name}, a byte in pieces of {NAMES[size]} over one in pieces of 1 MiB: {costs[size][0] / whole:.2f} times{without}')


def measure_long(bench, fewer):
    """Prints the cost of a byte of one long message in `answer`, for each size of the pieces."""
    for size, length in LONG.items():
        length //= fewer
        cost, ratio = of_a_byte(bench, answered, size, one_message, length)
        bench.report(f'answer, one message in pieces of {NAMES[size]}: {cost.work:,.2f} {UNIT} a byte{and_calls(cost, " a byte")}')
        report_twice(bench, f'a byte of one message of {2 * length // 1024:,} KiB over one of {length // 1024:,} KiB', ratio)


def main():
    parser = argparse.ArgumentParser(description='Measures that the cost of a byte is the same however a stream is cut.')
    parser.add_argument('program', metavar='PROGRAM', nargs='?', default=PROGRAM, help='the built program')
    parser.add_argument('--quick', action='store_true', help='fewer messages')
    args = parser.parse_args()
    fewer = 10 if args.quick else 1
    longer = 1 if COUNTS else 5
    with tempfile.TemporaryDirectory() as folder:
        bench = Bench(os.path.abspath(args.program), folder)
        bench.write_plan(ONE_ATTEMPT)
        for name, way, counts in (('answer', answered, ANSWERED), ('run', served, SERVED)):
            measure(bench, name, way, {size: count * longer // fewer for size, count in counts.items()}, OUTSIDE * longer // fewer)
        measure_long(bench, 4 if args.quick else 1)
    print(f'cores: {os.cpu_count()}')
    return 1 if bench.missed else 0


if __name__ == '__main__':
    sys.exit(main())
