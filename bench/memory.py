#!/usr/bin/env python3
"""Measures how many bytes of memory a message takes in the book of the built program, by its size and by the number of its
destinations, for the table in docs/OPERATIONS.md: the peak of `answer` for 20,000 messages minus that for 2,000, per message.

Usage: bench/memory.py [PROGRAM]

PROGRAM is the built program, by default crates/hl7_engine/out/hl7_engine ('rt run' in crates/hl7_engine builds it).
Plain Python 3, no packages.
"""
import os
import subprocess
import sys
import tempfile

HERE = os.path.dirname(os.path.abspath(__file__))
PROGRAM = os.path.join(HERE, '..', 'crates', 'hl7_engine', 'out', 'hl7_engine')
FEW, MANY = 2_000, 20_000
SIZES, DESTINATIONS = (200, 700, 2_000, 10_000), (1, 2, 4, 8)


def plan(destinations, steps):
    """A plan of one channel with this number of destinations, each of whose routes has a step if `steps` is true."""
    text = ''.join(f'[[destination]]\nname = "D{n}"\naddress = "127.0.0.1:1"\n' for n in range(destinations))
    text += '[[channel]]\nname = "C"\nlisten = "127.0.0.1:0"\ntypes = ["ADT"]\nprocessing = ["P"]\nversions = ["2.5.1"]\n'
    change = 'steps = [{ set = ["MSH-5", "X"] }]\n' if steps else ''
    return text + ''.join(f'[[channel.route]]\nto = "D{n}"\n{change}' for n in range(destinations))


def message(number, size):
    """A message of `size` bytes, in its block."""
    text = b'MSH|^~\\&|REG|HOSP|ENG|HUB|20231114221300||ADT^A01^ADT_A01|%08d|P|2.5.1|||AL|NE\rPID|1||77^^^H\rNTE|1||' % number
    return b'\x0b' + text + b'x' * (size - len(text) - 1) + b'\r\x1c\r'


def peak(program, path, number, size):
    """The peak resident memory of `answer` for `number` messages, in bytes, read from /proc while it waits for more input."""
    process = subprocess.Popen([program, 'answer', path], stdin=subprocess.PIPE, stdout=subprocess.DEVNULL, stderr=subprocess.DEVNULL)
    for n in range(number):
        process.stdin.write(message(n, size))
    process.stdin.flush()
    most, last = 0, -1
    while most != last:
        last = most
        subprocess.run(['sleep', '0.3'], check=False)
        with open(f'/proc/{process.pid}/status', encoding='ascii') as file:
            most = next(int(line.split()[1]) * 1024 for line in file if line.startswith('VmHWM'))
    process.kill()
    process.wait()
    return most


def main():
    program = os.path.abspath(sys.argv[1] if len(sys.argv) > 1 else PROGRAM)
    with tempfile.TemporaryDirectory() as folder:
        for steps in (False, True):
            print('changed by steps on the way to each destination:' if steps else 'sent as received:')
            for destinations in DESTINATIONS:
                path = os.path.join(folder, 'plan.toml')
                with open(path, 'w', encoding='utf-8') as file:
                    file.write(plan(destinations, steps))
                cells = []
                for size in SIZES:
                    grown = peak(program, path, MANY, size) - peak(program, path, FEW, size)
                    cells.append(f'{size} bytes: {grown / (MANY - FEW):.0f}')
                print(f'  {destinations} destinations: ' + ', '.join(cells), flush=True)
    return 0


if __name__ == '__main__':
    sys.exit(main())
