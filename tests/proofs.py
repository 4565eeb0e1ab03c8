#!/usr/bin/env python3
"""Runs `rt ci` over a copy of the crates without their edits, shows what it prints, and tries the edits beside it (tests/edits.py).

Usage: tests/proofs.py [COMMAND WORD..]

`rt ci` would try each edit by itself, which takes longer than all proofs together. What it builds is put into the crates' out/.
A crate's edits are tried once `rt ci` has proved it, two crates at a time and with what its own checks leave of the processors
and of memory, and more at a time once it has ended. COMMAND is called then, beside the last of them: it plays what was built, so
it isn't called where a program is missing. `rt ci` is ended at the first crate that is not proved, so that a mistake shows early; where the
environment has CI set, it goes on to its end, so that one run names everything that fails. The last line is 'N passed, M failed',
of the edits; the exit status is 0 where all went well. Plain Python 3.
"""
import os
import re
import shutil
import signal
import subprocess
import sys
import tempfile

import edits

ROOT = edits.ROOT
PROVED = re.compile(r'rt: (\w+) proved$')
NOT_PROVED = re.compile(r'rt: .*\bNOT PROVED\b')
FAILED = re.compile(r'rt: (.*\bNOT PROVED\b|FAILED)')
FAILURES = []  # the lines of `rt ci` that say what failed


def copy_to(room):
    """Copies what `rt ci` reads, without the edits and without what earlier runs left."""
    for name in ('crates.txt', 'HANDLES'):
        shutil.copy(f'{ROOT}/{name}', room)
    shutil.copytree(f'{ROOT}/crates', f'{room}/crates', ignore=shutil.ignore_patterns('must-fail', 'out'))


def proofs(room, trials):
    """Runs `rt ci` in the folder, has the edits of each proved crate tried, and returns the exit status."""
    goes_on = bool(os.environ.get('CI'))
    gate = subprocess.Popen(['rt', 'ci'], cwd=room, stdin=subprocess.DEVNULL, stdout=subprocess.PIPE, text=True, errors='replace')
    ended = False
    for line in gate.stdout:
        print(line, end='', flush=True)
        if FAILED.match(line):
            FAILURES.append(line.rstrip('\n')[:300])
        proved = PROVED.match(line)
        if proved:
            trials.begin(proved[1])
        if not goes_on and not ended and NOT_PROVED.match(line):
            ended = True
            print('ended at the first crate that is not proved; with CI set in the environment, all of them are named', flush=True)
            gate.send_signal(signal.SIGTERM)
    status = gate.wait()
    return 1 if ended else status


def keep_programs(room):
    """Puts the programs and tests that were built into the crates' out/."""
    for crate in os.listdir(f'{room}/crates'):
        made = f'{room}/crates/{crate}/out'
        if os.path.isdir(made):
            os.makedirs(f'{ROOT}/crates/{crate}/out', exist_ok=True)
            for name in os.listdir(made):
                if os.path.isfile(f'{made}/{name}'):
                    shutil.copy(f'{made}/{name}', f'{ROOT}/crates/{crate}/out/{name}')


def main():
    by_crate, bad = edits.read_all([])
    with tempfile.TemporaryDirectory(prefix='gate-') as room:
        copy_to(room)
        trials = edits.Trials(edits.Prover(room), by_crate, beside=2)
        status = proofs(room, trials)
        keep_programs(room)
        said = f'{room}/scripts'
        command = subprocess.Popen(sys.argv[1:], env={**os.environ, 'SCRIPTS_LAST': said}) if sys.argv[1:] and not status else None
        failed = bad + trials.end(whole=not status or bool(os.environ.get('CI')))
        status = status or (command.wait() if command else 0)
        if os.path.isfile(said):
            with open(said, encoding='utf-8') as it:
                FAILURES.append(it.read().strip())
    count = sum(map(len, by_crate.values()))
    say_last([*bad, *(f'NOT REFUSED: {it}' for it in failed if it not in bad), *(['`rt ci` or a script failed'] if status and not FAILURES else []),
              f'{count - len(failed) + len(bad)} passed, {len(failed)} failed'])
    return 1 if status or failed else 0


def say_last(lines):
    """Prints the lines, and has bench/gate.py print them once more behind its figures: of a long log only the end may be shown."""
    print('\n'.join(lines), flush=True)
    if os.environ.get('GATE_LAST'):
        with open(os.environ['GATE_LAST'], 'w', encoding='utf-8') as it:
            it.write('\n'.join([*FAILURES, *lines]))


if __name__ == '__main__':
    sys.exit(main())
