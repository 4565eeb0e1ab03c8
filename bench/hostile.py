#!/usr/bin/env python3
"""Measures the cost of hostile streams for `hl7_engine answer`, in instructions per byte, and compares it with the common message of
676 bytes: long runs of carriage returns, the shortest possible segments, fields of a million separators, bytes outside of blocks,
start bytes only, blocks that are too long. A byte of each may cost at most ten times as much as a byte of the common message.

Usage: bench/hostile.py [PROGRAM] [--quick]

PROGRAM is the built program, by default crates/hl7_engine/out/hl7_engine ('rt run' in crates/hl7_engine builds it). Each stream is
answered in two sizes under valgrind's callgrind, and the difference of the instructions is divided by that of the bytes, so that the
start of the program doesn't count. If valgrind isn't installed, the difference of the processor times is used, with longer streams.
The acknowledgments show whether a stream was accepted or refused as intended. With --quick the streams are shorter.

Each block has a cost of its own, however short it is. The cost per byte of the shortest blocks is also printed, without a bound.

Plain Python 3, no packages. The exit status is 0 if each bound is met, else 1.
"""
import argparse
import os
import sys
import tempfile
from typing import Callable, NamedTuple

import meter
from answer import FOUR_ROUTES, ONE_ATTEMPT, PROGRAM, Bench, framed, shorter
from meter import COUNTS, MIB, TIMES, UNIT

DATA_MAX = MIB  # the most bytes of data that a block may hold
SEGMENTS_MAX = 4_096
MOST = 10  # a byte of a stream over a byte of the common message
LONGER = 1 if COUNTS else 20  # the factor by which streams are longer if only time is measured


class Stream(NamedTuple):
    """Units of bytes that are sent one after another."""
    title: str
    made: Callable[[int], bytes]  # the bytes of the nth unit
    few: int  # how many units the shorter stream has; the longer has twice as many
    accepted: int = 0  # how many messages of each unit are accepted
    bounded: bool = True


def header(n, sender=b'REGADT', kind=b'ADT^A01^ADT_A01', after=b''):
    """A header segment that the plans accept, with a control id of its own."""
    return b'MSH|^~\\&|%b|MCM|ENGINE|HUB|20231114221300||%b|MSG%09d|P|2.5.1|||AL|NE%b\r' % (sender, kind, n, after)


def filled(prefix, piece, suffix=b'', size=DATA_MAX):
    """A block of `size` bytes of data: the prefix, the piece repeated, and the suffix."""
    times, left = divmod(size - len(prefix) - len(suffix), len(piece))
    return framed(prefix + piece * times + piece[:left] + suffix)


def separators(n, byte, position):
    """A message of 1,048,576 bytes that repeats one byte at a position: in a header field, at the end of the header, or in a further
    segment."""
    templates = {
        'MSH-3': header(n, sender=b'#'),
        'MSH-9': header(n, kind=b'ADT^A01^#'),
        'MSH': header(n, after=b'#'),
        'NTE': header(n) + b'NTE|1||#\r',
        'PID-3': header(n) + b'PID|1||77^^^MCM^MR#||EVERYWOMAN^EVE\rPV1|1|I\r',
    }
    prefix, suffix = templates[position].split(b'#')
    return filled(prefix, byte, suffix)


def shortest_segments(n, count, name=b'ZZZ', last=()):
    """A text of this number of segments: the header, segments that consist of a name only, and the last ones as given."""
    return framed(header(n) + (name + b'\r') * (count - 1 - len(last)) + b''.join(segment + b'\r' for segment in last))


STREAMS = [
    Stream('blocks of 1 MiB of carriage returns alone, no messages', lambda n: filled(b'', b'\r'), 2),
    Stream('messages of a header and 1 MiB of carriage returns', lambda n: filled(header(n), b'\r'), 2, 1),
    Stream('messages of a header and 1 MiB of carriage returns and line feeds', lambda n: filled(header(n), b'\r\n'), 2, 1),
    Stream('messages of 4,096 segments of three bytes, accepted', lambda n: shortest_segments(n, SEGMENTS_MAX), 60, 1),
    Stream('texts of 4,097 segments of three bytes, refused', lambda n: shortest_segments(n, SEGMENTS_MAX + 1), 60),
    Stream('texts of 4,096 segments of one byte, refused', lambda n: shortest_segments(n, SEGMENTS_MAX, b'Z'), 120),
    Stream('texts of 4,096 segments, the last of one byte, refused', lambda n: shortest_segments(n, SEGMENTS_MAX, last=[b'Z']), 60),
    Stream('blocks of 1 MiB of segments of one byte, refused', lambda n: filled(header(n), b'Z\r'), 2),
    Stream('messages with a million field separators in a segment', lambda n: separators(n, b'|', 'NTE'), 2, 1),
    Stream('messages with a million repetition separators in a field', lambda n: separators(n, b'~', 'NTE'), 2, 1),
    Stream('messages with a million escape characters in a field', lambda n: separators(n, b'\\', 'NTE'), 2, 1),
    Stream('messages with a million field separators at the end of MSH', lambda n: separators(n, b'|', 'MSH'), 2, 1),
    Stream('messages with a million component separators in MSH-9', lambda n: separators(n, b'^', 'MSH-9'), 2, 1),
    Stream('messages with a million repetition separators in MSH-3', lambda n: separators(n, b'~', 'MSH-3'), 2, 1),
    Stream('bytes outside of blocks, letters', lambda n: b'A' * MIB, 2),
    Stream('bytes outside of blocks, block ends', lambda n: b'\x1c\r' * (MIB // 2), 2),
    Stream('start bytes and nothing else', lambda n: b'\x0b' * 1_024, 128),
    Stream('blocks of one byte too many', lambda n: filled(b'', b'A', size=DATA_MAX + 1), 2),
    Stream('blocks of no byte, of 3 bytes with their frame', lambda n: framed(b''), 10_000, bounded=False),
    Stream('blocks that end badly, of 3 bytes', lambda n: b'\x0b\x1cA', 20_000, bounded=False),
    Stream('refused messages of a header of 9 bytes', lambda n: framed(b'MSH|^~\\&|'), 2_000, bounded=False),
]
# For a plan with four routes, each of which has a filter and three steps on PID and PV1.
ROUTED = [
    Stream('messages of 4,096 segments, those that steps change at the end',
           lambda n: shortest_segments(n, SEGMENTS_MAX, last=[b'PID|1||77^^^MCM', b'PV1|1|I']), 20, 1),
    Stream('messages with a million repetition separators in PID-3', lambda n: separators(n, b'~', 'PID-3'), 1, 1),
    Stream('messages with a million escape characters in PID-3', lambda n: separators(n, b'\\', 'PID-3'), 1, 1),
]


def answered(bench, stream, units):
    """The cost of `answer` for the first units of a stream, and their size in bytes."""
    with open(bench.source, 'wb') as file:
        for n in range(units):
            file.write(stream.made(n))
    command = [bench.program, 'answer', bench.plan, '--now', '1700000000']
    took = min(meter.from_file(command, bench.source, bench.sink) for _ in range(TIMES))
    with open(bench.sink, 'rb') as file:
        accepted = file.read().count(b'\rMSA|CA|')
    if accepted != stream.accepted * units:
        raise RuntimeError(f'{stream.title}: {accepted} accepted of {units}')
    return took, os.path.getsize(bench.source)


def a_byte(bench, stream, quick):
    """The cost of a byte of a stream: instructions, or nanoseconds of processor time if valgrind isn't installed."""
    few = max(stream.few * LONGER // (8 if quick else 1), 1)
    (fewer, short), (more, long) = answered(bench, stream, few), answered(bench, stream, 2 * few)
    return more.more_than(fewer, long - short).work


def measure(bench, plan, by, streams, quick):
    """Prints the cost of a byte of the common message with a plan, and the cost of a byte of each stream in comparison."""
    bench.write_plan(plan)
    common = a_byte(bench, Stream('common', lambda n: framed(shorter(n)), 1_000, 1), quick)
    bench.report(f'{by}: the common message of 676 bytes takes {common:.2f} {UNIT} a byte')
    for stream in streams:
        cost = a_byte(bench, stream, quick)
        line = f'{stream.title}: {cost:.2f} a byte, {cost / common:.2f} times the common message'
        if stream.bounded:
            bench.report(f'{line} (at most {MOST})', cost <= MOST * common)
        else:
            bench.report(f'{line}; {cost * len(stream.made(0)):,.0f} a block')


def main():
    parser = argparse.ArgumentParser(description='Measures what hostile streams cost, a byte.')
    parser.add_argument('program', metavar='PROGRAM', nargs='?', default=PROGRAM, help='the built program')
    parser.add_argument('--quick', action='store_true', help='shorter streams')
    args = parser.parse_args()
    with tempfile.TemporaryDirectory() as folder:
        bench = Bench(os.path.abspath(args.program), folder)
        measure(bench, ONE_ATTEMPT, 'one route', STREAMS, args.quick)
        measure(bench, FOUR_ROUTES, 'four routes with filters and steps', ROUTED, args.quick)
    print(f'cores: {os.cpu_count()}')
    return 1 if bench.missed else 0


if __name__ == '__main__':
    sys.exit(main())
