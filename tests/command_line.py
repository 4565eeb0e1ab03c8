#!/usr/bin/env python3
"""Runs the built program with many command lines, and compares its exit status and its output. Plain Python 3, no packages.

Usage: tests/command_line.py [PROGRAM]

PROGRAM is the built program, by default crates/hl7_engine/out/hl7_engine ('rt run' in crates/hl7_engine builds it).
The exit status is 0 if every run is as expected, else 1. Each one that isn't is printed on a line of its own.
"""
import ctypes
import errno
import os
import platform
import socket
import struct
import subprocess
import sys
import tempfile
import time

HERE = os.path.dirname(os.path.abspath(__file__))
sys.path.insert(0, os.path.join(HERE, '..', 'peers'))
from mllp import free_ports  # noqa: E402

PROGRAM = os.path.join(HERE, '..', 'crates', 'hl7_engine', 'out', 'hl7_engine')
EXAMPLES = os.path.join(HERE, '..', 'examples')
ONE = open(os.path.join(EXAMPLES, 'one_destination.toml'), encoding='utf-8').read()

ADMISSION = (b'\x0bMSH|^~\\&|REG|HOSP|ENG|HUB|20231114221300||ADT^A01^ADT_A01|M1|P|2.5.1|||AL|NE\r'
             b'PID|1||77^^^H\r\x1c\r')


def accepted(moment):
    """The acknowledgment of the admission, with `moment` as its MSH-7."""
    return (f'\x0bMSH|^~\\&|ENG|HUB|REG|HOSP|{moment}||ACK^A01^ACK|0.1|P|2.5.1|||NE|NE\r'
            'MSA|CA|M1\r\x1c\r').encode()


def plain(printed):
    """Standard error without the notes and warnings about plans, which tests/plan_notes.py compares."""
    return b''.join(line for line in printed.splitlines(True) if not line.startswith((b'note: ', b'warning: ')))


def refuse_random_bytes():
    """Sets a filter of system calls for this process and the program that it starts next: the kernel refuses getrandom."""
    load, equal, end = 0x20, 0x15, 0x06
    instructions = [(load, 0, 0, 4), (equal, 0, 3, 0xC000003E),  # the architecture is x86-64
                    (load, 0, 0, 0), (equal, 0, 1, 318),  # the call is getrandom
                    (end, 0, 0, 0x00050000 | errno.EPERM), (end, 0, 0, 0x7FFF0000)]
    code = b''.join(struct.pack('=HBBI', *one) for one in instructions)
    held = ctypes.create_string_buffer(code, len(code))
    filter_ = ctypes.create_string_buffer(struct.pack('HxxxxxxP', len(instructions), ctypes.addressof(held)))
    prctl = ctypes.CDLL(None, use_errno=True).prctl
    no_new_privileges, seccomp, by_filter = 38, 22, 2
    if prctl(no_new_privileges, 1, 0, 0, 0) or prctl(seccomp, by_filter, ctypes.c_void_p(ctypes.addressof(filter_)), 0, 0):
        raise OSError(ctypes.get_errno(), 'prctl')


def without_random_bytes(program, plan):
    """The failures, one line each, when the system provides no random bytes: the book's keys need some, checking a plan needs none."""
    if platform.machine() != 'x86_64':
        print('no random bytes: not tried, since the filter is for x86-64')
        return []
    lines = []
    for words, wanted in [(['answer'], (3, b'', b'device: random\n')), (['answer', plan], (3, b'', b'device: random\n')),
                          (['run', plan, '--accept', '1'], (3, b'', b'device: random\n')),
                          (['check', plan], (0, b'plan ok: 1 channels, 1 destinations\n', b''))]:
        try:
            ran = subprocess.run([program, *words], input=ADMISSION, capture_output=True, timeout=60, preexec_fn=refuse_random_bytes)
        except subprocess.SubprocessError as error:
            if not isinstance(error, subprocess.TimeoutExpired):
                print('no random bytes: not tried, since no filter of system calls can be set here')
                return []
            lines.append(f'{words} without random bytes: {error}')
            continue
        if (got := (ran.returncode, ran.stdout, plain(ran.stderr))) != wanted:
            lines.append(f'{words} without random bytes: {got}, not {wanted}')
    return lines


def closing(*numbers):
    """A function that closes these descriptors, to be called in the child process before the program starts."""
    def close():
        for number in numbers:
            os.close(number)
    return close


def answers_without(program, numbers, plan):
    """The exit status, standard output and standard error of `answer` when these standard descriptors are closed."""
    ran = subprocess.run([program, 'answer', plan, '--now', '951782400'], input=ADMISSION, capture_output=True, timeout=60,
                         preexec_fn=closing(*numbers))
    return ran.returncode, ran.stdout, ran.stderr


def runs_without(program, number, path, port):
    """The failures, one line each, of a run that starts with this standard descriptor closed: the descriptor has to be open on the
    null device, and a sender has to get its acknowledgment and nothing else."""
    process = subprocess.Popen([program, 'run', path, '--accept', '1'], stdin=subprocess.DEVNULL, stdout=subprocess.PIPE,
                               stderr=subprocess.PIPE, preexec_fn=closing(number))
    deadline, target, got, out, err = time.monotonic() + 20, None, b'', b'', b''
    try:
        while time.monotonic() < deadline:
            try:
                with socket.create_connection(('127.0.0.1', port), timeout=5) as sender:
                    target = os.readlink(f'/proc/{process.pid}/fd/{number}')
                    sender.sendall(b'\x0bHELLO\x1c\r' + ADMISSION)
                    sender.shutdown(socket.SHUT_WR)
                    while piece := sender.recv(65_536):
                        got += piece
                    break
            except ConnectionRefusedError:
                time.sleep(0.05)
        out, err = process.communicate(timeout=30)
    except (OSError, subprocess.TimeoutExpired) as error:
        err = repr(error).encode()
    finally:
        process.kill()
    lines = []
    if target != '/dev/null' or (got.count(b'\x0b'), got.count(b'MSA|CA|M1')) != (1, 1) or process.returncode != 0:
        lines.append(f'run without descriptor {number}: it is {target}, the sender got {got}, status {process.returncode}, {err}')
    if not out.startswith(b'channel ADT received 1 ') or (err == b'') != (number == 2):
        lines.append(f'run without descriptor {number}: {out}, {err}')
    return lines


def without_standard_descriptors(program, folder):
    """The failures, one line each, when the program starts with standard descriptors closed."""
    one, path, (port, lab) = os.path.join(EXAMPLES, 'one_destination.toml'), os.path.join(folder, 'run.toml'), free_ports(2)
    answer = accepted('20000229000000+0000')
    lines = [f'answer without descriptors {numbers}: {got}, not {wanted}' for numbers, wanted in [
        ((1,), (3, b'', b'device: write\n')), ((0,), (3, b'', b'device: read\n')), ((2,), (0, answer, b'')),
        ((0, 1), (3, b'', b'device: write\n')), ((0, 2), (3, b'', b'')), ((1, 2), (3, b'', b'')), ((0, 1, 2), (3, b'', b''))]
             if (got := answers_without(program, numbers, one)) != wanted]
    with open(path, 'w', encoding='utf-8') as file:
        # Nobody listens at the destination's address: its one attempt fails.
        file.write(ONE.replace('6660', str(port)).replace('6661', str(lab)).replace('address = ', 'attempts = 1\naddress = '))
    try:
        ran = subprocess.run([program, 'run', path, '--accept', '1'], stdin=subprocess.DEVNULL, capture_output=True, timeout=20,
                             preexec_fn=closing(1))
        if (ran.returncode, ran.stdout, ran.stderr) != (3, b'', b'device: write\n'):
            lines.append(f'run without descriptor 1: {ran}')
    except subprocess.TimeoutExpired as error:
        lines.append(f'run without descriptor 1: {error}')
    return lines + runs_without(program, 0, path, port) + runs_without(program, 2, path, port)


def called(program, words, given=b''):
    ran = subprocess.run([program, *words], input=given, capture_output=True, timeout=60)
    return ran.returncode, ran.stdout, plain(ran.stderr)


def wrong(program, folder):
    """The runs that are not as expected, one line each."""
    def plan(name, text):
        path = os.path.join(folder, name)
        with open(path, 'wb') as file:
            file.write(text if isinstance(text, bytes) else text.encode())
        return path

    def example(name):
        return os.path.join(EXAMPLES, name)

    one = example('one_destination.toml')
    # No machine has the first channel's address, so the channel can't listen on it.
    nowhere = ONE.replace('127.0.0.1:6660', '192.0.2.1:6660')
    second = nowhere[nowhere.index('[[channel]]'):].replace('"ADT"', '"SECOND"', 1)
    two = plan('two.toml', nowhere + second)
    # The arguments, standard input, and the expected exit status, standard output and standard error.
    exact = [
        ([], ADMISSION, (0, accepted('20231114221320+0000'), b'')),
        (['answer', '--now', '951782400'], ADMISSION, (0, accepted('20000229000000+0000'), b'')),
        (['answer', one, '--now', '253370764799', '--events', '1000000'], ADMISSION,
         (0, accepted('99981231235959+0000'), b'')),
        (['answer', '--events=1000000', '--now=0'], ADMISSION, (0, accepted('19700101000000+0000'), b'')),
        (['answer'], b'', (0, b'', b'')),
        (['check', one], b'', (0, b'plan ok: 1 channels, 1 destinations\n', b'')),
        (['check', example('four_destinations.toml')], b'', (0, b'plan ok: 1 channels, 4 destinations\n', b'')),
        (['check', example('every_key.toml')], b'', (0, b'plan ok: 1 channels, 2 destinations\n', b'')),
        (['check', 'no/such.toml'], b'', (3, b'', b'file: no/such.toml\n')),
        (['answer', 'no/such.toml'], b'', (3, b'', b'file: no/such.toml\n')),
        (['run', 'no/such.toml', '--accept', '1'], b'', (3, b'', b'file: no/such.toml\n')),
        (['run', two, '--accept', '5000'], b'', (2, b'', b'limit: connections\n')),
        (['run', two, '--events', '20', '--accept', '4999'], b'', (3, b'', b'device: listen ADT\n')),
        (['--version'], b'', (0, b'hl7_engine 0.1.0\n', b'')),
        (['-V'], b'', (0, b'hl7_engine 0.1.0\n', b'')),
    ]
    for name, old, new, line in [
        ('range.toml', 'address = ', 'attempts = 0\naddress = ', b'plan: BadRange at destination[0].attempts\n'),
        ('name.toml', 'to = "LAB"', 'to = "X"', b'plan: UnknownName at channel[0].route[0].to\n'),
        ('write.toml', '[[channel.route]]', 'steps = [{ set = ["MSH-10", "1"] }]\n[[channel.route]]',
         b'plan: ForbiddenWrite at channel[0].steps[0].set\n'),
        ('toml.toml', '[[channel]]', '[[channel]', b'plan: NotToml\n'),
    ]:
        path = plan(name, ONE.replace(old, new, 1))
        exact += [(words, b'', (1, b'', line))
                  for words in (['check', path], ['answer', path], ['run', path, '--accept=9999'])]
    exact.append((['check', plan('bytes.toml', b'name = "\xff"')], b'', (1, b'', b'plan: NotToml\n')))
    lines = [f'{words}: {got}, not {wanted}' for words, given, wanted in exact
             if (got := called(program, words, given)) != wanted]

    for words in [['reply'], ['--now', '5'], ['check'], ['check', 'a', 'b'], ['answer', 'a', 'b'], ['answer', '--now'],
                  ['answer', '--now=-1'], ['answer', '--now=253370764800'], ['answer', '--now=1', '--now=2'],
                  ['answer', '--events=0'], ['answer', '--events=1000001'], ['answer', '--events=many'],
                  ['run', '--accept', '1'], ['run', one], ['run', one, '--accept'], ['run', one, '--accept=0'],
                  ['run', one, '--accept=10000'], ['run', one, '--accept=-1'], ['run', one, '--accept=1', '--accept=2'],
                  ['run', one, '--accept=1', '--now=5'], ['run', one, '--accept=1', '--events=0'], ['check', one, '--accept=1']]:
        status, out, err = called(program, words)
        if (status, out) != (2, b'') or not err.startswith(b'error: '):
            lines.append(f'{words}: {(status, out, err)}, not an error of status 2')
    # The arguments, and what the help has to contain beside the usage.
    for words, expected in [
        (['--help'], [b'answer ', b'check ', b'run ', b'exit status', b'audit: NAME', b'Example: hl7_engine run']),
        (['-h'], [b'run ']),
        (['answer', '--help'], [b'--now <SECS>', b'Example: hl7_engine answer']),
        (['help', 'check'], [b'<PLAN>', b'Example: hl7_engine check']),
        (['run', '--help'], [b'--accept <N>', b'--events <N>', b'received A filtered B', b'waiting A inflight B', b'listening on']),
    ]:
        status, out, err = called(program, words)
        if (status, err) != (0, b'') or any(text not in out for text in [b'Usage: hl7_engine', *expected]):
            lines.append(f'{words}: {(status, out, err)}, not the help')
    # Devices that fail: a full disk accepts no byte, and a directory can't be read.
    with open('/dev/full', 'wb') as full:
        ran = subprocess.run([program], input=ADMISSION, stdout=full, stderr=subprocess.PIPE, timeout=60)
    if (ran.returncode, ran.stderr) != (3, b'device: write\n'):
        lines.append(f'a full disk: {ran}')
    unread = os.open(folder, os.O_RDONLY)
    ran = subprocess.run([program], stdin=unread, capture_output=True, timeout=60)
    os.close(unread)
    if (ran.returncode, ran.stdout, ran.stderr) != (3, b'', b'device: read\n'):
        lines.append(f'a folder as standard input: {ran}')
    return lines + without_standard_descriptors(program, folder) + without_random_bytes(program, one)


def main():
    program = sys.argv[1] if len(sys.argv) > 1 else PROGRAM
    with tempfile.TemporaryDirectory() as folder:
        lines = wrong(os.path.abspath(program), folder)
    for line in lines:
        print(line)
    print('all runs are as expected' if not lines else f'{len(lines)} failures')
    return 1 if lines else 0


if __name__ == '__main__':
    sys.exit(main())
