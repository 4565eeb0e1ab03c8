#!/usr/bin/env python3
"""Compares the list "Who may name whom" of docs/ARCHITECTURE.md with crates.txt. Plain Python 3.

Usage: tests/layers.py

A crate may name the crates that the list shows to its right, and those that these may name. The exit status is 1 if crates.txt lets
a crate name one that the list doesn't allow; if the list shows one that crates.txt doesn't let it name, or one that others on the
line imply; or if a crate of crates.txt is not in the list.
"""
import os
import re
import sys

TOP = os.path.join(os.path.dirname(os.path.abspath(__file__)), '..')


def named():
    """The crates that each crate of this repository names according to crates.txt, without the kit's crates."""
    found = {}
    with open(os.path.join(TOP, 'crates.txt'), encoding='utf-8') as lines:
        for line in lines:
            name, colon, rest = line.partition('#')[0].partition(':')
            if colon:
                found[name.split()[0]] = rest.split()
    return {name: {each for each in rest if each in found} for name, rest in found.items()}


def listed():
    """The crates that the page lists to the right of each crate."""
    with open(os.path.join(TOP, 'docs', 'ARCHITECTURE.md'), encoding='utf-8') as page:
        block = page.read().partition('## Who may name whom')[2].partition('```text\n')[2].partition('```')[0]
    found = {}
    for line in block.splitlines():
        columns = re.split(r'\s{2,}', line.strip())
        names = [name for name in columns[0].split(', ') if re.fullmatch(r'[a-z0-9_]+', name)]
        if line.startswith('   ') and names:
            below = set(columns[1].split(', ')) if len(columns) > 1 else set()
            found.update({name: below for name in names})
    return found


def reach(name, below, seen):
    """Adds all crates that a crate may name to `seen`, directly or through others, and returns it."""
    for each in below.get(name, ()):
        if each not in seen:
            seen.add(each)
            reach(each, below, seen)
    return seen


def main():
    crates, page = named(), listed()
    wrong = [f'{name} is not in the list' for name in sorted(crates) if name not in page]
    wrong += [f'{name} is in the list, and not in crates.txt' for name in sorted(page) if name not in crates]
    for name in sorted(set(page) & set(crates)):
        may, does = reach(name, page, set()), reach(name, crates, set())
        wrong += [f'{name} names {each}, which the list leaves out' for each in sorted(crates[name] - may)]
        wrong += [f'{name} is listed with {each}, which it does not name' for each in sorted(page[name] - does)]
        for each in sorted(page[name]):
            if any(each in reach(other, page, set()) for other in page[name] - {each}):
                wrong.append(f'{name} is listed with {each}, which others on its line imply')
    for line in wrong:
        print(f'layers: {line}')
    print(f'layers: {len(page)} crates, {len(wrong)} faults')
    return 1 if wrong else 0


if __name__ == '__main__':
    sys.exit(main())
