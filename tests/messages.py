#!/usr/bin/env python3
"""Tries each message of examples/messages against examples/hospital.toml, and compares its verdict, its destinations and some of
their fields with the table of examples/messages/README.md; then tries messages of each kind, tests/try/messages by the plan
beside it, and compares all that is printed with tests/try/printed. Plain Python 3, no packages.

Usage: tests/messages.py [PROGRAM]

PROGRAM is the built service, by default crates/hl7_service/out/hl7_service ('rt run' in crates/hl7_service builds it).
The second is tried by the program as Rattle's own compiler built it, too, where PROGRAM.by-rattle is there. The exit status is 0
if everything is as in the table and in that file, else 1.
"""
import os
import subprocess
import sys

HERE = os.path.dirname(os.path.abspath(__file__))
PROGRAM = os.path.join(HERE, '..', 'crates', 'hl7_service', 'out', 'hl7_service')
EXAMPLES = os.path.join(HERE, '..', 'examples')


def rows():
    """The rows of the table, each a list of its cells."""
    with open(os.path.join(EXAMPLES, 'messages', 'README.md'), encoding='utf-8') as file:
        return [[cell.strip() for cell in line.split('|')[1:-1]] for line in file if '.hl7 |' in line]


def field(segments, path):
    """The field with a path such as MSH-5 of the first segment of that name; empty if there is none."""
    name, _, number = path.partition('-')
    for fields in (segment.split(b'|') for segment in segments):
        if fields[0] == name.encode():
            index = int(number or 0) - (name == 'MSH')
            return fields[index] if index < len(fields) else b''
    return b''


def payloads(printed):
    """The verdict that 'try' printed, and the segments that it printed for each destination."""
    verdict, found, now = '', {}, None
    for line in printed.split(b'\n'):
        if line.startswith(b'verdict: '):
            verdict = line[9:].decode()
        elif line.startswith(b'payload for '):
            now = found.setdefault(line[12:-1].decode(), [])
        elif line.startswith(b'  ') and now is not None:
            now.append(line[2:])
        else:
            now = None
    return verdict, found


def wrong(program, row):
    """How the output differs from a row of the table, or an empty string."""
    name, _, channel, verdict, to, looks = row
    path = os.path.join(EXAMPLES, 'messages', name)
    with open(path, 'rb') as file:
        given = file.read()
    words = [program, 'try', os.path.join(EXAMPLES, 'hospital.toml'), '--channel', channel]
    done = subprocess.run(words, input=given, capture_output=True, timeout=60, check=False)
    got, found = payloads(done.stdout)
    if (got, list(found), done.returncode) != (verdict, to.split(), int(verdict.startswith('refused'))):
        return f'{name}: {got}, to {list(found)}, status {done.returncode}'
    for look in filter(None, looks.split(', ')):
        destination, _, expected = look.partition(' ')
        field_path, _, value = expected.partition('=')
        if field(found[destination], field_path) != value.encode():
            return f'{name}: {destination} gets {field(found[destination], field_path)} in {field_path}, and not {value}'
    # ARCHIVE gets each message as it was received, byte for byte; 'try' prints it with one segment a line.
    received = [segment for segment in given.replace(b'\n', b'\r').split(b'\r') if segment]
    if 'ARCHIVE' in found and found['ARCHIVE'] != received:
        return f'{name}: ARCHIVE gets {found["ARCHIVE"]}'
    return ''


def tried(program):
    """How what a program prints of tests/try differs from what it should print, or an empty string."""
    folder = os.path.join(HERE, 'try')
    with open(os.path.join(folder, 'messages'), 'rb') as given, open(os.path.join(folder, 'printed'), 'rb') as expected:
        done = subprocess.run([program, 'try', 'plan.toml'], cwd=folder, stdin=given, capture_output=True, timeout=60, check=False)
        if done.returncode != 1:
            return f'tests/try: {os.path.basename(program)} ended with status {done.returncode}, and not 1'
        for number, (got, line) in enumerate(zip(done.stdout.split(b'\n'), expected.read().split(b'\n')), 1):
            if got != line:
                return f'tests/try: {os.path.basename(program)} prints {got} in line {number}, and not {line}'
        expected.seek(0)
        return '' if done.stdout == expected.read() else f'tests/try: {os.path.basename(program)} prints more or fewer lines'


def main():
    program, table = os.path.abspath(sys.argv[1] if len(sys.argv) > 1 else PROGRAM), rows()
    lines = [line for row in table if (line := wrong(program, row))]
    files = {name for name in os.listdir(os.path.join(EXAMPLES, 'messages')) if name.endswith('.hl7')}
    if files != {row[0] for row in table}:
        lines.append(f'not in both the folder and the table: {files ^ {row[0] for row in table}}')
    built = [it for it in (program, f'{program}.by-rattle') if os.path.exists(it)]
    lines += filter(None, map(tried, built))
    for line in lines:
        print(line)
    print(f'examples/messages: {len(table)} messages, {"as the table says" if not lines else "WRONG"}')
    return 1 if lines else 0


if __name__ == '__main__':
    sys.exit(main())
