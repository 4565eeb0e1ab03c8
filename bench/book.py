#!/usr/bin/env python3
"""Measures the calls on a book: arrive, take, settle and cancel. Plain Python 3, no packages.

Usage: bench/book.py [PROGRAM]

PROGRAM is the built crate bench_parts, by default crates/bench_parts/out/bench_parts ('rt run' in
crates/bench_parts builds it). It books messages and cancels them, and then measures 1,000 arrivals, and
500 takes, settlements and cancellations: first in a history of about 1,000 entries, and then in one of
about a million. Half of the takes find their message in the first row, and half of them in a row after
those of all other messages. In the longer history, whose memory fits into no processor's cache, a call may
cost at most BOUND times as much: a cost that grows with the history would be near a thousand times. The
runs in the two histories take turns, and the lowest cost of each counts. The exit status is 0 if the
bounds are met, else 1.
"""
import os
import subprocess
import sys

HERE = os.path.dirname(os.path.abspath(__file__))
PROGRAM = os.path.join(HERE, '..', 'crates', 'bench_parts', 'out', 'bench_parts')
FEW, MANY = 500, 495_000
CALLS = 500
TIMES = 15
BOUND = 1.5
KINDS = {'arrive': 'arrive', 'take': 'take', 'settle': 'settle', 'behind': 'take, behind all', 'cancel': 'cancel'}


def entries(messages):
    """The number of entries before the measured calls: 10 for waiting messages, and two for each cancelled message."""
    return 10 + 2 * messages


def nanoseconds(program, messages):
    """The nanoseconds per call for each kind of call."""
    lines = subprocess.run([program, 'calls', str(messages), '--time'], check=True, capture_output=True, text=True).stdout.splitlines()
    expected = f'{entries(messages)} entries before'
    assert lines[0] == expected, f'{lines[0]!r}, not {expected!r}'
    words = (lines[2] + ' ' + lines[3]).split()
    totals = {kind: int(total) for kind, total in zip(words[::2], words[1::2])}
    totals['arrive'] /= 2
    return {kind: totals[kind] / CALLS for kind in KINDS}


def main():
    program = os.path.abspath(sys.argv[1] if len(sys.argv) > 1 else PROGRAM)
    runs = {FEW: [], MANY: []}
    for _ in range(TIMES):
        for messages in (FEW, FEW, FEW, MANY):
            runs[messages].append(nanoseconds(program, messages))
    cost = {messages: {kind: min(run[kind] for run in of) for kind in KINDS} for messages, of in runs.items()}
    for messages in (FEW, MANY):
        for kind, title in KINDS.items():
            print(f'{title:<16} at {entries(messages):>7,} entries: {cost[messages][kind]:>9,.0f} nanoseconds a call')
    missed = False
    for kind, title in KINDS.items():
        ratio = cost[MANY][kind] / max(cost[FEW][kind], 1)
        missed = missed or ratio > BOUND
        print(f'{title:<16} at {entries(MANY):,} entries over that at {entries(FEW):,}: {ratio:.2f} (at most {BOUND})  '
              f'{"ok" if ratio <= BOUND else "MISSED"}')
    print(f'cores: {os.cpu_count()}')
    return 1 if missed else 0


if __name__ == '__main__':
    sys.exit(main())
