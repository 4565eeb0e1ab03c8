#!/usr/bin/env python3
"""Measures prunings of a full book. Plain Python 3, no packages.

Usage: bench/pruning.py [PROGRAM]

PROGRAM is the built crate bench_parts, by default crates/bench_parts/out/bench_parts ('rt run' in crates/bench_parts
builds it). It books messages and cancels each, two entries per message, until there is no room for another one, and then
prunes. This is done ten times: the longest pruning has to take less than SECONDS, and the positions of entries and the numbers
of messages have to continue. A pruning has to be linear in what it folds and in what remains: the nanoseconds per message of a
full book may be at most LINEAR times those of a tenth of it, both if all messages are forgotten and if all but one in ten
remain. The memory of forgotten messages is used again: for ten rounds the program may take at most AGAIN times the memory that
it takes for one. The exit status is 0 if the bounds are met, else 1.
"""
import os
import subprocess
import sys

HERE = os.path.dirname(os.path.abspath(__file__))
PROGRAM = os.path.join(HERE, '..', 'crates', 'bench_parts', 'out', 'bench_parts')
FULL = 499_999  # messages of two entries each; the last one needs room for its arrival and three further entries
TIMES = 10
RUNS = 3
SECONDS = 1.0
LINEAR = 2.0
AGAIN = 1.25
MIB = 1024 * 1024


def folded(program, messages, times, kept):
    """The nanoseconds of the longest of `times` prunings, and the peak memory of the run in bytes."""
    child = subprocess.Popen([program, 'foldings', str(messages), str(times), str(kept), '--time'], stdout=subprocess.PIPE, text=True)
    lines = child.stdout.read().splitlines()
    _, status, usage = os.wait4(child.pid, 0)
    child.returncode = os.waitstatus_to_exitcode(status)
    assert child.returncode == 0, lines
    expected = [f'{times} foldings of {messages} messages, {kept} kept',
                f'next place {2 * messages * times}, next message {messages * times}']
    assert lines[:2] == expected, lines
    return int(lines[2].split()[1]), usage.ru_maxrss * 1024


def main():
    program = os.path.abspath(sys.argv[1] if len(sys.argv) > 1 else PROGRAM)
    bounds = []
    ten, once = folded(program, FULL, TIMES, 0), folded(program, FULL, 1, 0)
    bounds.append((f'the longest of {TIMES} prunings of {2 * FULL:,} entries, in seconds', ten[0] / 1e9, SECONDS))
    for kept, which in ((0, 'forgotten'), (9, 'kept, but one in ten')):
        few, many = (min(folded(program, n, 1, n // 10 * kept)[0] for _ in range(RUNS)) / n for n in (FULL // 10, FULL))
        print(f'a pruning of {2 * (FULL // 10):,} entries, all {which}: {few:,.0f} nanoseconds a message; of {2 * FULL:,}: {many:,.0f}')
        bounds.append((f'the latter over the former, all {which}', many / few, LINEAR))
    print(f'memory of one book that is filled and pruned once: {once[1] / MIB:,.0f} MiB; {TIMES} times: {ten[1] / MIB:,.0f} MiB')
    bounds.append((f'memory after {TIMES} prunings over that after one', ten[1] / once[1], AGAIN))
    for what, measured, bound in bounds:
        print(f'{what}: {measured:.2f} (at most {bound})  {"ok" if measured <= bound else "MISSED"}')
    print(f'cores: {os.cpu_count()}')
    return 0 if all(measured <= bound for _, measured, bound in bounds) else 1


if __name__ == '__main__':
    sys.exit(main())
