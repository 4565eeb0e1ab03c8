#!/usr/bin/env python3
"""Runs the built service with several command lines, and compares what it prints: its version, which has to name the same
toolchain logic as the README, CHANGELOG and docs/PROVED.md do, and as 'rt version' does if 'rt' is on the path; its help; and
'check --verbose'. Plain Python 3, no packages.

Usage: tests/service_line.py [PROGRAM]

PROGRAM is the built service, by default crates/hl7_service/out/hl7_service ('rt run' in crates/hl7_service builds it).
The exit status is 0 if every run is as expected, else 1. Each one that isn't is printed on a line of its own.
"""
import os
import re
import shutil
import subprocess
import sys

TOP = os.path.join(os.path.dirname(os.path.abspath(__file__)), '..')
PROGRAM = os.path.join(TOP, 'crates', 'hl7_service', 'out', 'hl7_service')
VERSION = 'hl7_service 0.2.0 (toolchain logic dac8208d650f15bf)\n'
LOGIC = re.compile(r'logic `?([0-9a-f]{16})')
# The arguments, and what the help has to contain beside the usage.
HELP = [
    (['--help'], ['run ', 'try ', 'check ', 'The exit status:', *(f'\n  {status}  ' for status in range(9)), 'Example: hl7_service run']),
    (['run', '--help'], ['--store <FOLDER>', '--memory', '--connections <N>', '[default: 64]', '[default: 1000000]', '[default: 0]',
                         '[default: 5]', '[default: on]', 'a quarter of --events]', '--http <ADDRESS>', '--http-name <NAMES>', 'deploy PATH', 'stop now', 'Example: hl7_service run']),
    (['try', '--help'], ['--channel <NAME>', "[default: the plan's first]", 'The status is 1', 'Example: hl7_service try']),
    (['check', '--help'], ['--verbose', 'plan ok: N channels, M destinations', 'plan: NAME at PATH', 'Example: hl7_service check']),
    (['help', 'check'], ['<PLAN>']),
]
TWO = '''\
plan ok: 2 channels, 3 destinations
channel     destination  filter  types
ADMISSIONS  LAB          yes     ADT
ADMISSIONS  ARCHIVE      no      ADT
RESULTS     RECORD       no      ORU^R01
RESULTS     ARCHIVE      no      ORU^R01
'''
# A filter of a channel and of a route, no route, no type, any type, and names that are wider than their column's heading.
ODD = '''\
destination = [{ name = "A", address = "127.0.0.1:6001" }, { name = "A-MUCH-LONGER-NAME", address = "127.0.0.1:6002" }]
[[channel]]
name = "C"
listen = "127.0.0.1:6003"
types = ["*", "ADT^A01"]
processing = ["P"]
versions = []
filter = { exists = "PID-3" }
route = [{ to = "A-MUCH-LONGER-NAME" }, { to = "A", filter = { exists = "PID-4" } }]
[[channel]]
name = "NOWHERE"
listen = "127.0.0.1:6004"
types = []
processing = ["P"]
versions = []
filter = { exists = "PID-3" }
[[channel]]
name = "ANYWHERE"
listen = "127.0.0.1:6005"
types = ["ORU"]
processing = ["P"]
versions = []
'''
ODD_TABLE = '''\
plan ok: 3 channels, 2 destinations
channel   destination         filter  types
C         A-MUCH-LONGER-NAME  yes     *, ADT^A01
C         A                   yes     *, ADT^A01
NOWHERE   -                   yes     none
ANYWHERE  -                   no      ORU
'''


def called(program, words, given=''):
    done = subprocess.run([program, *words], input=given, capture_output=True, timeout=60, check=False, encoding='utf-8')
    return done.returncode, done.stdout, done.stderr


def versions(program):
    """The failures of the version and of the documents that name it, one line each."""
    logic, lines = LOGIC.search(VERSION)[1], []
    for words in (['--version'], ['-V']):
        if (got := called(program, words)) != (0, VERSION, ''):
            lines.append(f'{words}: {got}, not {VERSION}')
    if shutil.which('rt'):
        printed = called('rt', ['version'])[1]
        if not (found := LOGIC.search(printed)) or found[1] != logic:
            lines.append(f'rt version: {printed.strip()}, and the program says {logic}')
    for name in ('README.md', 'CHANGELOG.md', os.path.join('docs', 'PROVED.md')):
        with open(os.path.join(TOP, name), encoding='utf-8') as file:
            if (found := set(LOGIC.findall(file.read()))) != {logic}:
                lines.append(f'{name}: {found}, and the program says {logic}')
    with open(os.path.join(TOP, 'CHANGELOG.md'), encoding='utf-8') as file:
        if re.search(r'^## (\d\S*)', file.read(), re.M)[1] != VERSION.split()[1]:
            lines.append(f'CHANGELOG.md: its last version is not {VERSION.split()[1]}')
    return lines


def places(program):
    """The failures of `run` where no place for its history is given, or two are, one line each: both forms are named."""
    plan, lines = os.path.join(TOP, 'examples', 'two_channels.toml'), []
    forms = ['hl7_service run <PLAN> --store <FOLDER>', 'hl7_service run <PLAN> --memory']
    for words in (['run', plan], ['run', plan, '--store', 'no/such', '--memory'], ['run', '--memory', '--store=no/such', plan]):
        status, out, err = called(program, words)
        if (status, out) != (2, '') or 'exactly one of' not in err or any(form not in err for form in forms):
            lines.append(f'{words}: {(status, out, err)}, and not both forms')
    return lines


def wrong(program):
    """The runs that are not as expected, one line each."""
    lines = versions(program) + places(program)
    for words, contents in HELP:
        status, out, err = called(program, words)
        if (status, err) != (0, '') or any(text not in out for text in ['Usage: hl7_service', *contents]):
            lines.append(f'{words}: {(status, out, err)}, not the help')
    two = os.path.join(TOP, 'examples', 'two_channels.toml')
    for words, given, expected in [
            (['check', two, '--verbose'], '', (0, TWO)), (['check', '--verbose', two], '', (0, TWO)),
            (['check', two], '', (0, TWO.splitlines(True)[0])), (['check', '/dev/stdin', '--verbose'], ODD, (0, ODD_TABLE)),
            (['check', '/dev/stdin', '--verbose'], '[[channel]', (1, '')), (['check', two, '--verbose=yes'], '', (2, '')),
            (['check', two, '--verbose', '--verbose'], '', (2, '')), (['check', '--verbose'], '', (2, '')),
            (['try', two, '--verbose'], '', (2, '')), (['check', 'no/such.toml', '--verbose'], '', (3, ''))]:
        if (got := called(program, words, given))[:2] != expected:
            lines.append(f'{words}: {got}, not {expected}')
    if os.path.exists('/dev/full'):
        with open('/dev/full', 'wb') as full:
            done = subprocess.run([program, 'check', two, '--verbose'], stdout=full, stderr=subprocess.PIPE, timeout=60, check=False)
        if done.returncode != 3 or not done.stderr.endswith(b'device: write\n'):
            lines.append(f'check --verbose to a full device: {done}')
    return lines


def main():
    lines = wrong(os.path.abspath(sys.argv[1] if len(sys.argv) > 1 else PROGRAM))
    for line in lines:
        print(line)
    print('all runs are as expected' if not lines else f'{len(lines)} failures')
    return 1 if lines else 0


if __name__ == '__main__':
    sys.exit(main())
