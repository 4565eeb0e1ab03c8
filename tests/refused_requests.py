#!/usr/bin/env python3
"""Refuses each memory request of a test in turn, and prints whether the test passes whichever request is refused.

Usage: tests/refused_requests.py [--from N] [--to N] [--jobs N] [CRATE..]

It runs 'rt try --test --fail-alloc N' in the crates below, for N from 1 until no request is refused, and so needs no proof.
A test that has to pass under each refusal has a twin that does the same with memory to spare: if the twin fails, the Nth
request was one of the test's. For a test without a twin, the number of its requests is listed here. Each N builds the tests again,
which takes half a minute or more, so this is run by hand; the test command runs tests/refused_growths.py, which refuses requests
of built programs. The exit status is 0 if all tests pass. Plain Python 3, no packages.
"""
import argparse
import concurrent.futures
import os
import subprocess
import sys

CRATES = os.path.join(os.path.dirname(os.path.abspath(__file__)), '..', 'crates')
# The number of refusals in a row that a twin has to pass before its test is considered to make no more requests: if the refused
# request grows a buffer, the buffer is grown by less, and the twin passes.
ENOUGH = 4
# A crate, the test that has to pass, and its twin or the number of requests that it makes.
TESTS = [
    ('book_lock_tests', 'refused_serving::holds_where_memory_is_refused', 'refused_serving::all_is_done_with_memory_to_spare'),
    ('delivery_worker_tests', 'refused_delivering::holds_where_memory_is_refused',
     'refused_delivering::all_is_done_with_memory_to_spare'),
    ('book_lock_tests', 'refused_calls::holds_where_memory_is_refused', 'refused_calls::all_is_done_with_memory_to_spare'),
    ('unit_tests', 'dropped::each_item_is_dropped_once', 13),
]


def tried(crate, number):
    """The tests of a crate that passed with this request refused, and those that failed."""
    ran = subprocess.run(['rt', 'try', '--test', '--fail-alloc', str(number)], cwd=os.path.join(CRATES, crate),
                         stdin=subprocess.DEVNULL, capture_output=True, text=True, timeout=1_800)
    passed, failed = set(), set()
    for line in (ran.stdout + ran.stderr).splitlines():
        words = line.split()
        if len(words) == 4 and words[0] == 'test' and words[2] == '...':
            (passed if words[3] == 'ok' else failed).add(words[1])
    if not passed | failed:
        raise RuntimeError(f'{crate} was not tried: {(ran.stdout + ran.stderr)[-500:]}')
    return passed, failed


def each_in_turn(crate, test, twin, numbers, jobs):
    """The number of refused requests, those at which the test failed, and whether all requests of the test were refused."""
    refused, broken, spared = 0, [], 0
    with concurrent.futures.ThreadPoolExecutor(jobs) as pool:
        while numbers and spared < ENOUGH:
            batch, numbers = numbers[:jobs], numbers[jobs:]
            for number, (passed, _) in zip(batch, pool.map(lambda n: tried(crate, n), batch)):
                if test not in passed:
                    broken.append(number)
                was_one = number <= twin if isinstance(twin, int) else twin not in passed
                refused += was_one
                spared = 0 if was_one else spared + 1
    return refused, broken, spared >= ENOUGH


def main():
    parser = argparse.ArgumentParser()
    parser.add_argument('crates', nargs='*')
    parser.add_argument('--from', dest='first', type=int, default=1)
    parser.add_argument('--to', dest='last', type=int, default=2_000)
    parser.add_argument('--jobs', type=int, default=2)
    args = parser.parse_args()
    wrong = False
    for crate, test, twin in TESTS:
        if args.crates and crate not in args.crates:
            continue
        refused, broken, ended = each_in_turn(crate, test, twin, range(args.first, args.last + 1), args.jobs)
        wrong = wrong or bool(broken)
        result = 'all passed' if not broken else f'FAILED at {broken}'
        print(f'{crate} {test}: {refused} requests refused{"" if ended else " so far"}, {result}', flush=True)
    return 1 if wrong else 0


if __name__ == '__main__':
    sys.exit(main())
