#!/usr/bin/env python3
"""Runs the built program with different amounts of memory, and compares its output with that of a run with enough memory.

Usage: tests/refused_memory.py [PROGRAM]

PROGRAM is the built program, by default crates/hl7_engine/out/hl7_engine. A message that is refused memory is
acknowledged with CE and NoMemory if there is memory for the reply. Otherwise the connection ends: the output consists of whole
blocks, each the expected one or that refusal, the program's exit status is 3 and its last line is 'memory'. The exit status is 0
if that holds for each limit. Plain Python 3, no packages.
"""
import os
import resource
import subprocess
import sys

HERE = os.path.dirname(os.path.abspath(__file__))
PROGRAM = os.path.join(HERE, '..', 'crates', 'hl7_engine', 'out', 'hl7_engine')
MESSAGES = 400
PAGE = 4_096
SLACK = 64


def message(number):
    return (f'\x0bMSH|^~\\&|REG|HOSP|ENG|HUB|20231114221300||ADT^A01^ADT_A01|M{number}|P|2.5.1|||AL|NE\r'
            f'PID|1||{"7" * (number % 300)}^^^H\r\x1c\r').encode()


def answered(program, stream, limit=None):
    """The exit status, standard output and standard error of a run with at most `limit` bytes of address space; None if it fails."""
    def limited():
        resource.setrlimit(resource.RLIMIT_AS, (limit, limit))
    try:
        ran = subprocess.run([program], input=stream, capture_output=True, timeout=60, preexec_fn=limited if limit else None)
    except (OSError, subprocess.SubprocessError):
        return None
    return ran.returncode, ran.stdout, ran.stderr


def refused(reply, number):
    """The reply that refuses a message with NoMemory, made from the one that accepts it."""
    return reply.replace(b'MSA|CA|M%d\r' % number, b'MSA|CE|M%d|NoMemory\r' % number)


def least_start(program):
    """The lowest limit, in pages, at which the program starts: it ends normally without input, or reports that it is out of memory."""
    low, high = 0, 1 << 16
    while low < high:
        middle = (low + high) // 2
        ran = answered(program, b'', middle * PAGE)
        if ran is not None and (ran[0] == 0 or ran[2] == b'memory\n'):
            high = middle
        else:
            low = middle + 1
    return low


def main():
    program = os.path.abspath(sys.argv[1] if len(sys.argv) > 1 else PROGRAM)
    stream = b''.join(message(number) for number in range(MESSAGES))
    status, whole, _ = answered(program, stream)
    replies = [part + b'\x1c\r' for part in whole.split(b'\x1c\r')[:-1]]
    if (status, len(replies)) != (0, MESSAGES):
        print(f'with all memory: status {status}, {len(replies)} replies')
        return 1
    first, lines, ends, refusals = least_start(program), [], set(), 0
    pages, enough = first, 0
    while enough < 3 and pages < first + 4_000:
        ran = answered(program, stream, pages * PAGE)
        if ran is None:
            lines.append(f'{pages} pages: no answer')
            break
        status, out, err = ran
        if not out and status not in (0, 3) and pages < first + SLACK:
            # The position of the stack differs from run to run by some pages: the program may fail to start after all.
            pages += 1
            continue
        blocks = [part + b'\x1c\r' for part in out.split(b'\x1c\r')]
        rest = blocks.pop()[:-2]
        right = all(got in (expected, refused(expected, number)) for number, (got, expected) in enumerate(zip(blocks, replies)))
        refusals += sum(b'|NoMemory\r' in got for got in blocks)
        ends.add(len(blocks))
        ended = (status, err) == (3, b'memory\n') or (status, err, len(blocks)) == (0, b'', MESSAGES)
        if rest or not right or not ended:
            lines.append(f'{pages} pages: status {status}, {err}, {len(blocks)} replies, {len(rest)} bytes of another')
        enough = enough + 1 if out == whole else 0
        pages += 1
    for line in lines:
        print(line)
    print(f'{pages - first} limits from {first} pages on, {len(ends)} different ends, {refusals} messages refused: '
          f'{"as it should be" if not lines and enough else "WRONG"}')
    return 1 if lines or not enough else 0


if __name__ == '__main__':
    sys.exit(main())
