#!/usr/bin/env python3
"""Measures the cost of a message after 10, 1,000, 100,000 and 900,000 entries of history, in microseconds and in instructions, and
draws both: bench/growth.svg.

Usage: bench/growth.py [PROGRAM] [--quick] [--plot PATH]

PROGRAM is the built program, by default crates/hl7_engine/out/hl7_engine ('rt run' in crates/hl7_engine builds it). It answers a
history first. One in 40 of its messages is accepted; the others are filtered, and take one entry without reserving further ones, so
that the book has room. Each has a control id of its own, which the book remembers. Once all are acknowledged, batches of 100 messages
of 676 bytes are written at once, and the program's processor time is read before and after each batch (/proc/PID/schedstat, in
nanoseconds, the system's share included; the clock if there is no such file). The runs of all lengths take turns. The figure is the
median of all batches of all runs, with the quartiles.

If valgrind is installed, callgrind counts the instructions of messages after all histories but the longest: those of the history with
the messages, minus those of the history alone, each up to its last acknowledgment. Other work on the machine doesn't change these.

With --quick there are fewer runs, no history of 900,000 entries, and no drawing unless --plot gives its path. Plain Python 3, no
packages. The exit status is 0 if each bound is met, else 1.
"""
import argparse
import fcntl
import math
import os
import selectors
import statistics
import subprocess
import sys
import tempfile
import threading
import time
from typing import NamedTuple

from answer import HERE, ONE_ATTEMPT, PROGRAM, TOOLS, Bench, framed, shorter
from meter import COUNTS, LIMIT, MIB, write_all
from twins import count_to_acknowledgment, under_valgrind

PLOT = os.path.join(HERE, 'growth.svg')
PLAN = ONE_ATTEMPT.replace('[[channel.route]]', 'filter = { exists = "PV1-2" }\n[[channel.route]]')
ACCEPTED = 40  # one message in 40 of the history is accepted
BATCH = 100
NO_SLOWER = 1.5  # microseconds at the longest history over those at 1,000 entries
NO_MORE = 1.1  # instructions at 100,000 entries over those at 1,000


class Length(NamedTuple):
    """A length of history, and what is measured after it."""
    entries: int
    runs: int  # in each turn
    batches: int  # in each run
    counted: int  # messages that callgrind counts, 0 for none


TURNS = 7
LENGTHS = [Length(10, 10, 1, 100), Length(1_000, 10, 1, 1_000), Length(100_000, 2, 10, 1_000), Length(900_000, 1, 10, 0)]
QUICK_TURNS = 2
QUICK = [Length(10, 3, 1, 100), Length(1_000, 3, 1, 100), Length(20_000, 1, 5, 0)]


def history(entries):
    """Yields the blocks of short messages that add this number of entries, some MB at a time."""
    for first in range(0, entries, 10_000):
        yield b''.join(framed(b'MSH|^~\\&|R|H|E|H|20231114221300||ADT^A01|H%07d|P|2.5.1|||AL|NE\rPV1|1%b\r'
                              % (n, b'' if n % ACCEPTED else b'|I')) for n in range(first, min(first + 10_000, entries)))


def batch(number):
    """The blocks of the messages of a batch."""
    return b''.join(framed(shorter(n)) for n in range(number * BATCH, (number + 1) * BATCH))


class Answering:
    """The program, which answers a pipe to which pieces are written."""

    def __init__(self, bench):
        reads, self._pipe = os.pipe2(os.O_CLOEXEC)
        fcntl.fcntl(self._pipe, fcntl.F_SETPIPE_SZ, MIB)
        self.process = subprocess.Popen([bench.program, 'answer', bench.plan, '--now', '1700000000'], stdin=reads,
                                        stdout=subprocess.PIPE)
        os.close(reads)

    def __enter__(self):
        return self

    def __exit__(self, *_):
        self.process.kill()
        self.process.wait(30)
        self.process.stdout.close()
        os.close(self._pipe)

    def write(self, pieces):
        """Writes pieces to the pipe from which the program reads."""
        for piece in pieces:
            write_all(self._pipe, piece)

    def acknowledged(self, count):
        """Reads this number of acknowledgments."""
        until = time.monotonic() + LIMIT
        with selectors.DefaultSelector() as waits:
            waits.register(self.process.stdout, selectors.EVENT_READ)
            while count > 0:
                if not waits.select(max(until - time.monotonic(), 0)):
                    raise RuntimeError('no acknowledgment')
                piece = os.read(self.process.stdout.fileno(), 65_536)
                if not piece:
                    raise RuntimeError('the program ended')
                count -= piece.count(b'\x1c')

    def worked(self):
        """Its processor time in nanoseconds once it waits for more, the system's share included; None if the system doesn't show it."""
        path = f'/proc/{self.process.pid}'
        if not os.path.exists(f'{path}/schedstat'):
            return None
        for _ in range(10_000):
            with open(f'{path}/stat', encoding='ascii') as file:
                if file.read().rsplit(') ', 1)[1][0] == 'S':
                    break
            time.sleep(0.001)
        with open(f'{path}/schedstat', encoding='ascii') as file:
            return int(file.read().split()[0])


def batches_after(bench, length):
    """The microseconds per message of each batch after a history: of processor time, and on the clock."""
    with Answering(bench) as program:
        feeder = threading.Thread(target=program.write, args=(history(length.entries),), daemon=True)
        feeder.start()
        program.acknowledged(length.entries)
        feeder.join(LIMIT)
        found = []
        for number in range(length.batches):
            piece = batch(number)
            before, began = program.worked(), time.perf_counter_ns()
            program.write([piece])
            program.acknowledged(BATCH)
            clock = time.perf_counter_ns() - began
            work = clock if before is None else program.worked() - before
            found.append((work / 1_000 / BATCH, clock / 1_000 / BATCH))
    return found


def instructions_after(bench, length):
    """The instructions per message after a history, by callgrind."""
    tool, pattern, *_ = TOOLS[0]
    command = [*under_valgrind(tool), bench.program, 'answer', bench.plan, '--now', '1700000000']
    before = b''.join(history(length.entries))
    more = b''.join(framed(shorter(n)) for n in range(length.counted))
    alone, together = (count_to_acknowledgment(command, stream, tool, pattern) for stream in (before, before + more))
    return (together - alone) / length.counted


class Figure(NamedTuple):
    """The cost of a message after a number of entries: the median and quartiles of the microseconds, and the instructions or None."""
    entries: int
    median: float
    low: float
    high: float
    instructions: float | None


def figure(bench, length, found, turns):
    """Prints a line for one length of history, from the times of its batches, and returns the figure."""
    works, clocks = zip(*found)
    low, median, high = statistics.quantiles(works, n=4, method='inclusive')
    counts = COUNTS and length.counted > 0
    made = Figure(length.entries, median, low, high, instructions_after(bench, length) if counts else None)
    counted = f'; {made.instructions:,.0f} instructions (the mean of {length.counted:,})' if counts else ''
    bench.report(f'a message behind {made.entries:>7,} entries: {made.median:.2f} microseconds of processor time (half of {len(works)} '
                 f'batches in {length.runs * turns} runs {made.low:.2f} to {made.high:.2f}), {statistics.median(clocks):.2f} on the '
                 f'clock{counted}')
    return made


def measured(bench, lengths, turns):
    """The figures of all lengths of history, whose runs take turns, so that other work on the machine affects all of them."""
    found = {length: [] for length in lengths}
    for _ in range(turns):
        for length, batches in found.items():
            for _ in range(length.runs):
                batches += batches_after(bench, length)
    return [figure(bench, length, batches, turns) for length, batches in found.items()]


# The drawing: two panels side by side, with the entries on a logarithmic scale.
WIDTH, HEIGHT, LEFT, TOP, WIDE, HIGH = 760, 280, 62, 40, 280, 180
APART = 390


def across(entries):
    """The position of a number of entries, 1 to 1,000,000, on the axis, in pixels."""
    return math.log10(entries) / 6 * WIDE


def text(x, y, words, anchor='middle', size=12, more=''):
    """A text in the drawing."""
    return f'<text x="{x:.0f}" y="{y:.0f}" text-anchor="{anchor}" font-size="{size}"{more}>{words}</text>'


def axes(left, title, top):
    """The frame of a panel, its title, and the labels and ticks of both axes; the vertical one ranges from 0 to `top`."""
    parts = [text(left + WIDE / 2, TOP - 16, title, size=13, more=' font-weight="bold"'),
             text(left + WIDE / 2, TOP + HIGH + 42, 'entries of history before (log scale)'),
             f'<path d="M{left} {TOP}V{TOP + HIGH}H{left + WIDE}" fill="none" stroke="#333"/>']
    for power in range(7):
        x = left + across(10 ** power)
        parts.append(f'<path d="M{x:.0f} {TOP + HIGH}v5" stroke="#333"/>')
        parts.append(text(x, TOP + HIGH + 20, ('1', '10', '100', '1,000', '10k', '100k', '1M')[power], size=11))
    for part in range(5):
        y = TOP + HIGH * (1 - part / 4)
        parts.append(f'<path d="M{left} {y:.0f}h{WIDE}" stroke="#ddd"/>' if part else '')
        parts.append(text(left - 6, y + 4, f'{top * part / 4:,.4g}' if top < 100 else f'{top * part / 4:,.0f}', 'end', 11))
    return parts


def panel(left, title, points, form):
    """A panel for points given as (entries, value, low, high), with a line through the values and a bar from low to high."""
    top = nice(1.25 * max(most for *_, most in points))
    parts, line = axes(left, title, top), []
    for entries, value, least, most in points:
        x, y, low, high = left + across(entries), *(TOP + HIGH * (1 - part / top) for part in (value, least, most))
        parts.append(f'<path d="M{x:.0f} {low:.1f}V{high:.1f}" stroke="#1f6fb2" stroke-width="3" stroke-opacity=".4"/>')
        parts.append(f'<circle cx="{x:.0f}" cy="{y:.1f}" r="3.5" fill="#1f6fb2"/>')
        parts.append(text(x, min(y, high) - 8, format(value, form), size=11))
        line.append(f'{x:.0f} {y:.1f}')
    return [*parts, f'<path d="M{"L".join(line)}" fill="none" stroke="#1f6fb2"/>']


def nice(most):
    """The next round number that is at least this."""
    power = 1.0
    while power < most:
        power *= 10
    return next(power * part for part in (0.12, 0.16, 0.2, 0.3, 0.4, 0.5, 0.6, 0.8, 1.0) if power * part >= most)


def drawn(figures):
    """The drawing of all figures."""
    times = [(one.entries, one.median, one.low, one.high) for one in figures]
    counts = [(one.entries, *3 * (one.instructions,)) for one in figures if one.instructions is not None]
    parts = panel(LEFT, 'microseconds a message: median, quartiles', times, '.2f')
    if counts:
        parts += panel(LEFT + APART, 'instructions a message', counts, ',.0f')
    return '\n'.join([f'<svg xmlns="http://www.w3.org/2000/svg" width="{WIDTH}" height="{HEIGHT}" viewBox="0 0 {WIDTH} {HEIGHT}" '
                      'font-family="sans-serif" fill="#222">',
                      '<title>What a message costs by the entries of history before it</title>',
                      f'<rect width="{WIDTH}" height="{HEIGHT}" fill="#fff"/>', *(part for part in parts if part), '</svg>', ''])


def bounds(bench, figures):
    """Prints the cost after the longest history over that after 1,000 entries, in microseconds and in instructions."""
    short, last = next(one for one in figures if one.entries == 1_000), figures[-1]
    ratio = last.median / short.median
    bench.report(f'microseconds behind {last.entries:,} entries over those behind 1,000: {ratio:.2f} (at most {NO_SLOWER})',
                 ratio <= NO_SLOWER)
    counts = [one for one in figures if one.instructions is not None]
    if counts:
        ratio = counts[-1].instructions / short.instructions
        bench.report(f'instructions behind {counts[-1].entries:,} entries over those behind 1,000: {ratio:.3f} (at most {NO_MORE})',
                     ratio <= NO_MORE)


def main():
    parser = argparse.ArgumentParser(description='Measures what a message costs behind longer and longer histories.')
    parser.add_argument('program', metavar='PROGRAM', nargs='?', default=PROGRAM, help='the built program')
    parser.add_argument('--quick', action='store_true', help='fewer runs, and no history of 900,000 entries')
    parser.add_argument('--plot', metavar='PATH', help='where to draw (bench/growth.svg, or nowhere with --quick)')
    args = parser.parse_args()
    with tempfile.TemporaryDirectory() as folder:
        bench = Bench(os.path.abspath(args.program), folder)
        bench.write_plan(PLAN)
        figures = measured(bench, *(QUICK, QUICK_TURNS) if args.quick else (LENGTHS, TURNS))
        bounds(bench, figures)
    plot = args.plot or (None if args.quick else PLOT)
    if plot is not None:
        with open(plot, 'w', encoding='utf-8') as file:
            file.write(drawn(figures))
    print(f'cores: {os.cpu_count()}, load of the last minute: {os.getloadavg()[0]:.1f}')
    return 1 if bench.missed else 0


if __name__ == '__main__':
    sys.exit(main())
