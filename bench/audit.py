#!/usr/bin/env python3
"""Measures the audit of 1,000,000 receipts, and an arrival at a shared book. Plain Python 3, no packages.

Usage: bench/audit.py [PROGRAM]

PROGRAM is the built crate bench_parts, by default crates/bench_parts/out/bench_parts ('rt run' in crates/bench_parts
builds it). It books 1,000,000 messages at a shared book, closes it, and audits their receipts in the order of the arrivals
and in the reverse order: each audit has to take less than SECONDS. Then it measures 500 arrivals at a shared book that no
other thread uses, after 1,000 entries and after 990,000: taking the lock, booking, and releasing the lock, so at least the
time for which the lock is held. After the longer history an arrival may cost at most BOUND times as much. Arrivals have runs
of their own, short and long histories in turn, since after a large audit an arrival would reuse memory that the audited book
released. The lowest value of each measurement counts. The exit status is 0 if the bounds are met, else 1.
"""
import os
import subprocess
import sys

HERE = os.path.dirname(os.path.abspath(__file__))
PROGRAM = os.path.join(HERE, '..', 'crates', 'bench_parts', 'out', 'bench_parts')
RECEIPTS = 1_000_000
FEW, MANY = 1_000, 990_000
CALLS = 500
AUDITS, ARRIVALS = 3, 9
SECONDS = 1.0
BOUND = 1.5


def lines(program, *words):
    """The lines that a run prints."""
    return subprocess.run([program, *map(str, words), '--time'], check=True, capture_output=True, text=True).stdout.splitlines()


def audits_of(program, receipts):
    """The nanoseconds that an audit of this number of receipts takes, in both orders."""
    printed = lines(program, 'audit', receipts)
    assert printed[0] == f'{receipts} receipts audited', printed
    return int(printed[1].split()[1]), int(printed[1].split()[3])


def arrival_after(program, entries):
    """The nanoseconds that an arrival takes after this number of entries."""
    printed = lines(program, 'arrivals', entries)
    assert printed[0] == f'{CALLS} arrivals behind {entries} entries', printed
    return int(printed[1].split()[1]) / CALLS


def main():
    program = os.path.abspath(sys.argv[1] if len(sys.argv) > 1 else PROGRAM)
    audits = [audits_of(program, RECEIPTS) for _ in range(AUDITS)]
    pairs = [(arrival_after(program, FEW), arrival_after(program, MANY)) for _ in range(ARRIVALS)]
    missed = False
    for index, order in enumerate(['in the order of the arrivals', 'in the other order']):
        took = min(run[index] for run in audits)
        ok = took < SECONDS * 1e9
        missed = missed or not ok
        print(f'audit of {RECEIPTS:,} receipts {order}: {took / 1e9:.3f} seconds, {took / RECEIPTS:.0f} nanoseconds a receipt '
              f'(under {SECONDS:.0f} second)  {"ok" if ok else "MISSED"}')
    short, long = map(min, zip(*pairs))
    for entries, cost in ((FEW, short), (MANY, long)):
        print(f'arrival at a shared book behind {entries:>7,} entries: {cost:,.0f} nanoseconds, the lock taken and left')
    ratio = long / max(short, 1)
    print(f'arrival behind {MANY:,} entries over that behind {FEW:,}: {ratio:.2f} (at most {BOUND})  '
          f'{"ok" if ratio <= BOUND else "MISSED"}')
    print(f'cores: {os.cpu_count()}')
    return 1 if missed or ratio > BOUND else 0


if __name__ == '__main__':
    sys.exit(main())
