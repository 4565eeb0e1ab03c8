#!/usr/bin/env python3
"""Checks that each constant of crates/fixed_numbers has a clause of its own that gives its value as a number.

The prover checks every clause, so the value of a constant that has one can't be changed alone: 'ensures turns { TURNS_MAX ≡
1000000000 }' is refused if TURNS_MAX is another number. The prover can't detect a constant without a clause, or with a clause that
names another constant instead of a number; this script looks for both. Plain Python 3, no packages.

It prints a line for each constant that isn't pinned, and the number of those that are. The exit status is 0 if all are.
"""

import ast
import pathlib
import re
import sys

SOURCES = pathlib.Path(__file__).resolve().parent.parent / 'crates' / 'fixed_numbers' / 'src'
CONSTANT = re.compile(r'pub const (\w+): \w+ = (.+);$')
CLAUSE = re.compile(r'^    ensures \w+ \{ (\w+) ≡ (\d+) \}$', re.M)


def number_of(text):
    """The value of a constant's text: digits, 0x.., or a byte such as b'\\r'."""
    if text.startswith("b'"):
        return ast.literal_eval(text)[0]
    return int(text.replace('_', ''), 0)


def is_pinned(line, clauses):
    """Whether the constant defined in a line has exactly one clause, which gives its value as a number."""
    found = CONSTANT.match(line)
    return bool(found) and [number for name, number in clauses if name == found[1]] == [number_of(found[2])]


def main():
    """Compares the constants of each file with the clauses of the file."""
    constants = unpinned = 0
    for source in sorted(SOURCES.glob('*.rt')):
        text = source.read_text(encoding='utf-8')
        clauses = [(name, int(number)) for name, number in CLAUSE.findall(text)]
        for line in filter(lambda it: it.startswith('pub const '), text.split('\n')):
            constants += 1
            if not is_pinned(line, clauses):
                unpinned += 1
                print(f'{source.name}: no clause of its own writes this number out: {line}')
    if unpinned or not constants:
        print(f'fixed_numbers: {unpinned} of {constants} constants are not pinned')
        return 1
    print(f'fixed_numbers: each of {constants} constants is pinned by a clause of its own')
    return 0


if __name__ == '__main__':
    sys.exit(main())
