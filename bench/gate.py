#!/usr/bin/env python3
"""Shows where the time of the gate goes: runs a command, by default `rt ci`, and prints the time of each crate.

Processor time is read from /proc every second, so up to a second of each check is missed. Checks in another session of the
system (setsid) aren't counted, so two gates can be measured side by side. For the checks that are no edits it also prints the
functions whose proofs took longest, by the times at which the prover wrote each checked part: these are seconds on the clock,
not of a processor, and only approximate if a check has several processes. The same is printed for the files of each crate, the
slowest first, and for everything that is derived or dropped. An interruption (SIGINT, SIGTERM) ends the command, and the times
seen until then are printed. What the command wrote to the file that GATE_LAST names in its environment is printed last.

Usage: bench/gate.py [COMMAND WORD..]
"""

import collections
import os
import re
import signal
import subprocess
import sys
import tempfile
import time

ROUND = 1.0  # seconds between two readings
SLOWEST = 40  # the number of functions printed
FILES = 6  # the number of files printed for a crate
TICKS = os.sysconf('SC_CLK_TCK')
KINDS = ('proof', 'tests', 'edits')
DERIVED = re.compile(r'(Debug|Display|PartialEq|Clone|Destruct)(?=\.|$)')  # what is derived or dropped, in a function's path
PARTS = re.compile(r'rattle-logic-built-locked-(\d+)-')  # the directory in which a check keeps its parts while it runs


def check_of(pid):
    """The identity of a process that is a check, its crate and kind, and its processor seconds so far; None for other processes."""
    try:
        with open(f'/proc/{pid}/cmdline', 'rb') as it:
            words = it.read().decode(errors='replace').split('\0')
        if '--crate-name' not in words:
            return None
        with open(f'/proc/{pid}/stat') as it:
            fields = it.read().rsplit(')', 1)[1].split()
        is_edit = '/rt-edit-' in os.readlink(f'/proc/{pid}/cwd')
    except OSError:
        return None
    if int(fields[3]) != os.getsid(0):
        return None
    kind = 'edits' if is_edit else 'tests' if '--test' in words else 'proof'
    crate = words[words.index('--crate-name') + 1]
    return (pid, fields[19]), (crate, kind), (int(fields[11]) + int(fields[12])) / TICKS


def look(taken, checks, parts):
    """Records the processor seconds of each check so far, and the parts that it has written."""
    for pid in filter(str.isdigit, os.listdir('/proc')):
        found = check_of(pid)
        if found:
            taken[found[0]] = found[1:]
            checks[pid] = found[1]
    for folder in os.listdir('/tmp'):
        at = PARTS.match(folder)
        if at and checks.get(at[1], ('', 'edits'))[1] != 'edits':
            note_parts(f'/tmp/{folder}', parts[at[1], checks[at[1]][0]])


def note_parts(folder, times):
    """Records when each part in a directory was written."""
    try:
        for it in os.scandir(folder):
            if '.oantt' in it.name and it.name not in times:
                times[it.name] = it.stat().st_mtime
    except OSError:
        pass  # the check has ended


def functions(parts):
    """The seconds that the parts of each function took."""
    found = collections.Counter()
    for (_, crate), times in parts.items():
        order = sorted((at, name) for name, at in times.items())
        for (before, _), (at, name) in zip(order, order[1:]):
            path = name.split('.oantt')[0].split('-proofs.')[-1]
            found[crate, path.rpartition('.')[0]] += at - before
    return found


def report(taken, parts, minutes):
    """Prints the times of each crate and its files, and those of the slowest functions."""
    crates = collections.defaultdict(collections.Counter)
    for (crate, kind), seconds in taken.values():
        crates[crate][kind] += seconds
    for crate, by_kind in sorted(crates.items(), key=lambda it: -it[1].total()):
        print(f'{crate:18}', *(f'{by_kind[kind] / 60:6.1f} {kind}' for kind in KINDS))
    total = sum(it.total() for it in crates.values())
    print(f'{total / 60:.0f} processor minutes in {minutes:.0f} minutes')
    slowest = functions(parts)
    files = collections.defaultdict(collections.Counter)
    for (crate, function), seconds in slowest.items():
        files[crate][function.split('.')[0]] += seconds
    for crate, by_file in sorted(files.items(), key=lambda it: -it[1].total()):
        listed = ', '.join(f'{file or "(crate)"} {seconds:.0f}' for file, seconds in by_file.most_common(FILES))
        print(f'{by_file.total():7.1f} s {crate}: {listed}')
    derived = collections.Counter()
    for (_, function), seconds in slowest.items():
        found = DERIVED.search(function)
        if found:
            derived[found[1]] += seconds
    listed = ', '.join(f'{what} {seconds:.0f}' for what, seconds in derived.most_common())
    print(f'{sum(slowest.values()):7.1f} s all, of them what is derived or dropped: {listed}')
    for (crate, function), seconds in slowest.most_common(SLOWEST):
        print(f'{seconds:7.1f} s {crate} {function}')


def main():
    """Runs the command and measures it."""
    taken, checks, parts = {}, {}, collections.defaultdict(dict)
    begun = time.monotonic()
    handle, last = tempfile.mkstemp(prefix='gate-last-')
    os.close(handle)
    command = subprocess.Popen(sys.argv[1:] or ['rt', 'ci'], stdin=subprocess.DEVNULL, env={**os.environ, 'GATE_LAST': last})
    for stop in (signal.SIGINT, signal.SIGTERM):
        signal.signal(stop, lambda *_: command.terminate())
    while command.poll() is None:
        look(taken, checks, parts)
        time.sleep(ROUND)
    report(taken, parts, (time.monotonic() - begun) / 60)
    with open(last, encoding='utf-8') as it:
        print(it.read(), flush=True)
    os.remove(last)
    return command.returncode


if __name__ == '__main__':
    sys.exit(main())
