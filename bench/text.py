#!/usr/bin/env python3
"""Measures reading, looking up and changing message text. Plain Python 3, no packages.

Usage: bench/text.py [PROGRAM]

PROGRAM is the built crate bench_parts, by default crates/bench_parts/out/bench_parts ('rt run' in
crates/bench_parts builds it). Each operation is repeated on messages of 10, 100 and 4,096 segments.
The time per byte at 4,096 segments may be at most three times that at 100, which a quadratic cost would
exceed by far. The exit status is 0 if it is, else 1.
"""
import os
import subprocess
import sys
import time

HERE = os.path.dirname(os.path.abspath(__file__))
PROGRAM = os.path.join(HERE, '..', 'crates', 'bench_parts', 'out', 'bench_parts')
HEAD = 76 + 91
RESULT = 69
BYTES = {segments: HEAD + (segments - 2) * RESULT for segments in (10, 100, 4096)}
TOTAL = {'parse': 600_000_000, 'get': 200_000_000, 'set': 200_000_000}


def seconds(program, work, segments, rounds):
    began = time.perf_counter()
    subprocess.run([program, work, str(segments), str(rounds)], check=True, stdout=subprocess.DEVNULL)
    return time.perf_counter() - began


def main():
    program = os.path.abspath(sys.argv[1] if len(sys.argv) > 1 else PROGRAM)
    missed = False
    for work, what in (('parse', 'parse'), ('get', 'get of 20 paths'), ('set', 'set of a field')):
        cost = {}
        for segments, size in BYTES.items():
            rounds = max(TOTAL[work] // size // (8 if work == 'get' and segments < 4096 else 1), 1)
            took = min(seconds(program, work, segments, rounds) for _ in range(3)) - seconds(program, work, segments, 0)
            cost[segments] = took / rounds
            print(f'{what:<16} {segments:>5} segments of {size:>7} bytes: {1e6 * cost[segments]:10.2f} microseconds, '
                  f'{1e9 * cost[segments] / size:7.3f} nanoseconds a byte')
        ratio = (cost[4096] / BYTES[4096]) / (cost[100] / BYTES[100])
        held = ratio <= 3
        missed = missed or not held
        print(f'{what:<16} a byte at 4096 segments over one at 100: {ratio:.2f} (at most 3)  {"ok" if held else "MISSED"}')
    print(f'cores: {os.cpu_count()}')
    return 1 if missed else 0


if __name__ == '__main__':
    sys.exit(main())
