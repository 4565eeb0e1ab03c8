#!/usr/bin/env python3
"""Looks that the tables of docs/PROVED.md name what is in the sources. In a row of the table of crates, each name in brackets has
to be one of the row's crates: a call, a clause of a call, a law, a type, a trait, or a definition of its specs. Where a call and
clauses are given, as in (`Framer::feed`: `ok`), the clauses have to be that call's; a definition behind a call has to be named in a
clause of it. In the tables of the store each cell behind a claim names calls and clauses likewise.

Usage: tests/claims.py

Prints each name that isn't found, by its row. The exit status is 1 if there is one, else 0. Plain Python 3.
"""
import collections
import os
import re
import sys

import edits

TOP = os.path.dirname(os.path.dirname(os.path.abspath(__file__)))
FUNCTION = re.compile(r'^\s*(?:pub(?:\([a-z]+\))?\s+)?(?:ghost\s+)?(?:const\s+)?(?:unsafe\s+)?fn\s+(\w+)')
CLAUSE = re.compile(r'^\s*(?:ensures|requires)\*?\s+(\w+)?\s*\{(.*)')
BLOCK = re.compile(r'^\s*(?:pub(?:\([a-z]+\))?\s+)?(?:unsafe\s+)?(?:impl|trait|struct|enum)\b[^{;]*')
FACT = re.compile(r'^\s*(?:invariant|ghost)\s+(\w+)')
TYPE = re.compile(r'\b(?:struct|enum|trait|type|const)\s+(\w+)')
NAME = re.compile(r'`([^`]+)`')
GROUP = re.compile(r'\(([^()]*`[^()]*)\)')


class Crate:
    """What a crate has names for."""

    def __init__(self, folder):
        self.clauses = collections.defaultdict(list)  # by the call's name: the name and the text of each clause
        self.owners = collections.defaultdict(set)  # by the call's name: the types and traits that have it
        self.names = set()  # types, traits, fields, definitions, invariants
        self.pages = []  # the definitions of each page
        for part, ends in (('src', '.rt'), ('specs', '.antt')):
            for at, _, names in os.walk(f'{folder}/{part}'):
                for name in (it for it in names if it.endswith(ends)):
                    with open(f'{at}/{name}', encoding='utf-8') as file:
                        (self.read_code if part == 'src' else self.read_specs)(file.read())

    def read_code(self, text):
        """Notes the calls, clauses and types of a file."""
        owner, call = '', None
        for line in text.split('\n'):
            if BLOCK.match(line):
                owner = line
            if line and not line[0].isspace() and not BLOCK.match(line) and not line.startswith(('}', ')', ' ', '{')):
                owner = owner if FACT.match(line) else ''
            found = FUNCTION.match(line)
            if found:
                call = found[1]
                self.owners[call] |= set(re.findall(r'\w+', owner))
            clause = CLAUSE.match(line)
            if clause and call:
                self.clauses[call].append([clause[1] or '', clause[2]])
            fact = FACT.match(line)
            if fact:
                self.names.add(fact[1])
            elif call and not clause and self.clauses[call] and line.startswith('      '):
                self.clauses[call][-1][1] += line
            self.names |= set(TYPE.findall(line)) | set(re.findall(r'\bimpl\b.*?(\w+)(?:<.*>)? for', line))
            variant = re.match(r'^    (\w+)[ ,({]', line)
            if variant:
                self.names.add(variant[1])
            for field in re.findall(r'^\s+(?:pub(?:\([a-z]+\))?\s+)?(?:ghost\s+)?(\w+):', line):
                self.names.add(field)

    def read_specs(self, text):
        """Notes the definitions of a page, and the fields of its records."""
        found = set(re.findall(r"(?m)^\s*(?:\w+ )*?(?:pub )?(?:record |data )?([A-Za-z_][\w']*)(?= [:({⟨]|:)", text))
        found |= set(re.findall(r'(?m)\b(?:record|data|abbrev|unfoldable)\s+(?:pub\s+)?(?:record\s+)?([A-Za-z]\w*)', text))
        self.names |= found
        self.pages.append(found)

    def has_call(self, path):
        """Whether there is a call of this path, as `any_pieces` or `Framer::feed`."""
        *owner, name = path.split('::')
        return name in self.owners and (not owner or owner[-1] in self.owners[name])

    def knows(self, name):
        return self.has_call(name) or name in self.names or self.has_clause(name)

    def has_clause(self, name):
        return any(name == it for clauses in self.clauses.values() for it, _ in clauses)

    def beside(self, name):
        """The definitions of the pages that have this one, with it."""
        return {name}.union(*(page for page in self.pages if name in page))


def words_of(text):
    """The names of a text, without generics: `From<clap::Error>` is From."""
    return [re.sub(r'<.*>', '', it).removesuffix('()') for it in NAME.findall(text)]


def faults_of(row, crates, text):
    """The names of a row that its crates don't have."""
    found, calls = [], []
    for part in re.split(r';', text):
        *left, right = re.split(r'(?<=`): ', part, maxsplit=1)
        colon, left = bool(left), ''.join(left)
        if colon:
            calls = words_of(left)
            found += [f'{row}: no call, law or clause {it}' for it in calls if not any(crate.knows(it) for crate in crates)]
        for name in words_of(right):
            if not any(crate.knows(name) for crate in crates):
                found.append(f'{row}: nothing is called {name}')
            elif colon and not any(belongs(crate, calls, name) for crate in crates):
                found.append(f'{row}: {name} is no clause of {", ".join(calls)}, and in none of its clauses')
    return found


def belongs(crate, calls, name):
    """Whether a name is a clause of one of the calls, or is on a page with a definition that such a clause names. Where the call is
    a clause, a type or a trait itself, a definition is said of it, which is not looked for."""
    for call in (it.split('::')[-1] for it in calls):
        for clause, text in crate.clauses.get(call, []):
            if name == clause or crate.beside(name) & set(re.findall(r"[\w']+", text)):
                return True
        if call in crate.names or crate.has_clause(call):
            return True
    return False


def main():
    found = []
    with open(f'{TOP}/docs/PROVED.md', encoding='utf-8') as file:
        lines = file.read().split('\n')
    crates = {}
    for name in os.listdir(f'{TOP}/crates'):
        if os.path.isdir(f'{TOP}/crates/{name}/src'):
            crates[name] = Crate(f'{TOP}/crates/{name}')
    rows, rows_of = 0, edits.rows_of(TOP)
    for line in lines:
        first, *cells = [it.strip() for it in line.strip('|').split('|')] if line.startswith('| ') else ['']
        own = [it for it in re.split(r',\s*', first) if it in crates]
        named = [crates[it] for it in [*own, *dict.fromkeys(below for it in own for below in rows_of[it] if below in crates)]]
        if not named:
            continue
        rows += 1
        for group in GROUP.findall(' '.join(cells)):
            found += faults_of(first, named, group)
    print('\n'.join([*found, f'{rows} rows, {len(found)} names that are not found']))
    return 1 if found or not rows else 0


if __name__ == '__main__':
    sys.exit(main())
