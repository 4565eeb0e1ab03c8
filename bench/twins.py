#!/usr/bin/env python3
"""Compares the built program with twins in Rust without proofs, on the same messages in one run. bench/twins/plain.rs and
bench/twins/tuned.rs do what `answer` does, written plainly and tuned by hand for speed, and bench/twins/threaded.rs does what `run`
does. First their output is compared, then their cost is measured.

Usage: bench/twins.py [--program PROGRAM] [--quick] [--times N]

PROGRAM is the built program, by default crates/hl7_engine/out/hl7_engine ('rt run' in crates/hl7_engine builds it). The twins are
built by rustc, in a directory of their own; if there is no rustc, nothing is measured ('apt-get install rustc'). Instructions and
memory requests are counted by valgrind, if it is installed: for N and for 2N messages, and the difference is divided by N, so that
the start of a program doesn't count. They are counted until the last acknowledgment is written, when the program is ended by a
signal, and once more to the program's own end, including the release of its book. Times are the best of N runs (`--times`, by
default 3), in which the programs take turns, with the median of the ratios of all turns; `--quick` makes one run of few messages,
which shows that everything works.

Plain Python 3, no packages. The exit status is 0 if the programs write the same output, else 1.
"""
import argparse
import multiprocessing
import os
import random
import re
import selectors
import shutil
import signal
import socket
import statistics
import subprocess
import sys
import tempfile
import threading
import time

HERE = os.path.dirname(os.path.abspath(__file__))
sys.path.insert(0, os.path.join(HERE, '..', 'peers'))
import run as loopback  # noqa: E402
from answer import ONE_ATTEMPT, TOOLS, framed, shorter  # noqa: E402
from engine import PROGRAM, Engine, checks_accesses, one_channel  # noqa: E402
from load import compiled  # noqa: E402
from mllp import Destination, free_ports  # noqa: E402

TWINS = ('plain', 'tuned', 'threaded')
COLUMNS = ('engine', *TWINS)
NOW = '1700000000'
LIMIT = 600  # the longest wait for any step, in seconds
CONNECTIONS = 8
ONCE = '--once'
# The plan for the twins' option --filtered.
FILTERED = ONE_ATTEMPT.replace('[[channel.route]]', 'filter = { exists = "PV1-2" }\n[[channel.route]]')


def with_channels(plan, steps, ports, to='LAB'):
    """The plan with further channels at these ports, each with this number of steps. No message is sent to these channels."""
    listed = ',\n'.join(f'  {{ set = ["PV1-{1 + n % 50}.{1 + n // 50}", "{n}"] }}' for n in range(steps))
    return plan + ''.join(
        f'[[channel]]\nname = "C{c}"\nlisten = "127.0.0.1:{port}"\ntypes = ["ADT"]\nprocessing = ["P"]\nversions = ["2.5.1"]\n'
        f'steps = [\n{listed}\n]\n[[channel.route]]\nto = "{to}"\n' for c, port in enumerate(ports))


# The plan of a hospital, and the largest plan: the messages are received on the one channel without steps.
HOSPITAL = '20 channels, 15 steps in 19', with_channels(ONE_ATTEMPT, 15, range(7_000, 7_019))
LARGEST = '64 channels, 256 steps in 63', with_channels(ONE_ATTEMPT, 256, range(7_000, 7_063))


def built(folder):
    """Builds the twins with rustc, and returns their paths by name; None if there is no rustc."""
    return compiled(TWINS, folder)


class Table:
    """A table whose rows have a figure for each program."""

    def __init__(self):
        print(f'\n{"":<66}' + ''.join(f'{name:>12}' for name in COLUMNS) + '   the engine over', flush=True)

    def row(self, title, figures, form=',.0f', small=None, turns=None):
        """Prints a row, with the ratio of the engine's figure to each twin's, or to the engine's own with the small plan. If the
        figures are the best of several turns, the median of the turns' ratios is added in parentheses."""
        cells = ''.join(f'{format(figures[name], form) if name in figures else "":>12}' for name in COLUMNS)
        others = {name: figures[name] for name in TWINS if name in figures} if small is None else {'the small plan': small}
        shown = [name for name, other in others.items() if 'engine' in figures and re.search('[1-9]', format(other, form))]
        ratios = {name: f'{name} {figures["engine"] / others[name]:.2f}' for name in shown}
        for name in shown if turns else ():
            over = [one / other for one, other in zip(turns['engine'], turns[name]) if other]
            ratios[name] += f' ({statistics.median(over or [0]):.2f})'
        print(f'{title:<66}{cells}   {", ".join(ratios.values())}'.rstrip(), flush=True)


class Programs:
    """The engine and its twins, and their command lines for `answer`."""

    def __init__(self, engine, twins, folder):
        self.paths = {'engine': engine, **twins}
        self.folder = folder
        self.checked = checks_accesses(engine)

    def file(self, name, content):
        path = os.path.join(self.folder, name)
        with open(path, 'wb') as file:
            file.write(content)
        return path

    def answering(self, name, plan=ONE_ATTEMPT, *words):
        """The command line of a program that answers with a plan. A twin has its plan built in, with the filter or without."""
        if name == 'engine':
            return [self.paths[name], 'answer', self.file('plan.toml', plan.encode()), '--now', NOW, *words]
        return [self.paths[name], '--now', NOW, *(['--filtered'] if plan == FILTERED else []), *words]


# The output of the programs


def text(control_id, kind=b'ADT^A01^ADT_A01', processing=b'P', version=b'2.5.1', modes=(b'AL', b'NE'), rest=b'PID|1||77\rPV1|1|I\r'):
    fields = [b'MSH', b'^~\\&', b'REG', b'HOSP', b'ENG', b'HUB', b'20231114221300', b'', kind, control_id, processing, version, b'',
              b'', *modes]
    return b'|'.join(fields) + b'\r' + rest


def mode_texts():
    """Yields texts for each pair of MSH-15 and MSH-16: accepted, without PV1-2, refused, repeated, and repeated with other bytes."""
    for n, modes in enumerate((a, b) for a in MODES for b in MODES):
        yield text(b'A%d' % n, modes=modes)
        yield text(b'F%d' % n, modes=modes, rest=b'PID|1||77\rPV1|1\r')
        yield text(b'R%d' % n, kind=b'ORU^R01', modes=modes)
        yield text(b'A%d' % n, modes=modes)
        yield text(b'F%d' % n, modes=modes, rest=b'PID|1||77\rPV1|1\r')
        yield text(b'A%d' % n, modes=modes, rest=b'PID|1||78\rPV1|1|I\r')
        yield text(b'E%d' % n, version=b'2.4', modes=modes)
        yield text(b'', modes=modes)


MODES = (b'', b'""', b'AL', b'NE', b'ER', b'SU', b'XX')


def refused_texts():
    """Yields texts with headers of all kinds: refused ones, acknowledgments, and headers that end early."""
    for n, kind in enumerate((b'', b'""', b'ADT', b'ADT^', b'ADT^""', b'ADT^A01~ORU^R01', b'^A01', b'ACK', b'ACK^A01^ACK', b'adt^A01')):
        yield text(b'K%d' % n, kind=kind)
    for n, processing in enumerate((b'', b'""', b'D', b'T', b'P^A', b'P~D', b'PP')):
        yield text(b'P%d' % n, processing=processing)
    for n, version in enumerate((b'', b'""', b'2.5.1^USA', b'2.5.1~2.4', b'2.5', b'2.5.1.1')):
        yield text(b'V%d' % n, version=version)
    for control_id in (b'', b'""', b'"', b'X' * 199, b'X' * 200, b'C~1', b'C^1', b'\xff\x00 \\T\\'):
        yield text(control_id)
    whole = text(b'SHORT').split(b'\r')[0].split(b'|')
    for fields in range(1, len(whole) + 1):
        yield b'|'.join(whole[:fields])
        yield b'|'.join(whole[:fields]) + b'\rPID|1\r'
        yield b'|'.join(whole[:fields]) + b'|\rPID|1\r'


def other_texts():
    """Yields texts with segments, delimiters and ends of all kinds."""
    yield from (b'', b'\r', b'\r\n\r', b'MSH', b'MSH|', b'MSH|^~\\', b'PID|1\r', b'\nMSH|^~\\&|A\r')
    for n, rest in enumerate((b'PV1||I', b'\r\r\nPV1||I\r', b'\nPV1||I\r\n', b'\n\nPV1||I\r', b'PV1\r', b'PV1||""\r', b'PV1||\r',
                              b'pv1||I\r', b'1V1||I\r', b'PV\r', b'PV1^||I\r', b'MSH|^~\\&\r', b'PV1||O\rPV1||I\r', b'PV2||I\r',
                              b'ZZ9\rPV1||\xe9\r')):
        yield text(b'S%d' % n, rest=rest)
        yield text(b'T%d' % n, rest=b'PID|1||77\r' + rest)
        yield b'\r\n' + text(b'U%d' % n, rest=b'PID|1||77\r' + rest)
    for n, (bar, characters) in enumerate(((b'!', b'^~\\&'), (b'|', b'^~\\&#'), (b'|', b'^~\\&#$'), (b'|', b'^^\\&'), (b'|', b'^~\\'),
                                           (b'A', b'^~\\&'), (b'|', b'^~.&'), (b'#', b'@%*;'), (b'|', b'^~\\|'), (b' ', b'^~\\&'))):
        body = text(b'D%d' % n, kind=b'ADT' + characters[:1] + b'A01', rest=b'PV1||I\r').replace(b'|', bar)
        yield body.replace(b'^~\\&', characters, 1)
    for segments in (4_095, 4_096):
        yield text(b'N%d' % segments, rest=b'PV1||I\r' + b'NTE|1\r' * (segments - 1))


def whole_stream():
    """The blocks of all these texts, and bytes between and within blocks that break them."""
    blocks = [framed(one) for one in (*mode_texts(), *refused_texts(), *other_texts())]
    limit, head = 1_048_576, text(b'LONG')
    longest = [framed(head + b'NTE|' + b'x' * (limit + more - len(head) - 5) + b'\r') for more in (0, 1, 40_000)]
    return b''.join([*blocks, b'outside', framed(text(b'B1')), b'\x0bbroken', framed(text(b'B2')), b'\x0b', text(b'B3'), b'\x1cX\r',
                     framed(text(b'B4')), b'\x0b\x1c\x1c\r\x0b' + text(b'B5') + b'\x1c\x0b' + text(b'B6') + b'\x1c\r\r\n',
                     *longest, framed(text(b'B7')), b'\x0b' + text(b'B8') + b'\x1c'])


def replied(command, stream, folder):
    """The output of a program for a stream that it reads from a file."""
    path = os.path.join(folder, 'stream')
    with open(path, 'wb') as file:
        file.write(stream)
    with open(path, 'rb') as fed:
        return subprocess.run(command, stdin=fed, capture_output=True, check=True, timeout=LIMIT).stdout


def replied_to_pieces(command, pieces):
    """The output of a program for a stream of which each read returns one piece."""
    reads, writes = os.pipe2(os.O_DIRECT)
    with subprocess.Popen(command, stdin=reads, stdout=subprocess.PIPE) as child:
        os.close(reads)

        def feed():
            for piece in pieces:
                os.write(writes, piece)
            os.close(writes)

        feeder = threading.Thread(target=feed, daemon=True)
        feeder.start()
        return child.communicate(timeout=LIMIT)[0]


def cut(stream):
    """The stream, cut into pieces of 1 to 200 bytes."""
    chance, at, pieces = random.Random(7), 0, []
    while at < len(stream):
        pieces.append(stream[at:at + chance.randint(1, chance.choice((1, 20, 200)))])
        at += len(pieces[-1])
    return pieces


def compared(what, found):
    """Prints whether the programs wrote the same, and the first difference if they didn't; returns whether they did."""
    engine, same = found['engine'], True
    for name, got in found.items():
        if got != engine:
            same = False
            pairs = zip(engine, got)
            first = next((n for n, (one, other) in enumerate(pairs) if one != other), min(len(engine), len(got)))
            print(f'{name} differs at {first} of {len(engine)} and {len(got)}: {got[first:first + 2]}, not {engine[first:first + 2]}')
    print(f'{what}: {len(engine)}, the same by {", ".join(found)}  {"ok" if same else "MISSED"}', flush=True)
    return same


def compare_answers(programs):
    """Compares the acknowledgments of `answer` and its twins, byte for byte, with two plans, with a small book, and in pieces."""
    stream, names, same = whole_stream(), ('engine', 'plain', 'tuned'), []
    # A filtered message is acknowledged like an accepted one, but takes less room in a small book.
    for title, plan in (('the small plan', ONE_ATTEMPT), ('one with a filter', FILTERED)):
        for events in ('1000000', '300'):
            found = {name: replied(programs.answering(name, plan, '--events', events), stream, programs.folder) for name in names}
            found = {name: wrote.split(b'\x1c\r') for name, wrote in found.items()}
            same.append(compared(f'acknowledgments by {title}, in a book of {events} entries', found))
    pieces = cut(b''.join(map(framed, (*mode_texts(), *refused_texts()))) + b'\x0bX\x0b' + text(b'Q1') + b'\x1c\r' + framed(text(b'Q2')))
    found = {name: replied_to_pieces(programs.answering(name), pieces).split(b'\x1c\r') for name in names}
    same.append(compared(f'acknowledgments of a stream in {len(pieces)} pieces', found))
    return all(same)


def served(program, folder):
    """The acknowledgments of `run` without their timestamps, its deliveries, and its counts, for one sender and one destination."""
    codes = {b'1': (b'AE', b'AA'), b'2': (b'AR',), b'3': (b'CE', b'CE'), b'4': (b'CR',), b'5': (b'AE', b'CA')}

    def respond(one, before):
        given = codes.get(one.split(b'|')[9][-1:], (b'AA',))
        return given[min(before, len(given) - 1)]

    texts = [text(b'%d' % n, kind=(b'ADT^A01', b'ADT^A08', b'ORU^R01')[n % 5 % 3], modes=(MODES[n % 7], b'AL')) for n in range(150)]
    texts = [one for one in texts if b'|NE|AL' in one or b'||AL' in one or b'|AL|AL' in one or b'|XX|AL' in one or b'"|AL' in one]
    port, = free_ports(1)
    destination = Destination(respond)
    plan = one_channel(port, [('LAB', destination.port, ['attempts = 2', 'interval = 0'])])
    try:
        with Engine(program, plan, 1, folder) as engine:
            with socket.create_connection(('127.0.0.1', port), timeout=LIMIT) as peer:
                peer.sendall(b''.join(map(framed, texts + texts[:20])))
                peer.shutdown(socket.SHUT_WR)
                replies = b''
                while piece := peer.recv(65_536):
                    replies += piece
            status, counts = engine.ended(LIMIT)
    finally:
        destination.close()
    replies = re.sub(rb'\|\d{14}\+0000\|', b'|STAMP|', replies).split(b'\x1c\r')
    return [*replies, *destination.received, status, *sorted(counts.items())]


def compare_runs(programs):
    """Compares the acknowledgments, deliveries and counts of `run` and its twin, without the timestamps of the acknowledgments."""
    return compared('acknowledgments, deliveries and counts of run',
                    {name: served(programs.paths[name], programs.folder) for name in ('engine', 'threaded')})


# The cost of a message


def count_to_acknowledgment(command, stream, tool, pattern):
    """The number that a valgrind tool prints, found by a pattern, for a program that is ended once it has acknowledged a stream."""
    with tempfile.TemporaryFile() as lines:
        child = subprocess.Popen(command, stdin=subprocess.PIPE, stdout=subprocess.PIPE, stderr=lines)
        feeder = threading.Thread(target=lambda: (child.stdin.write(stream), child.stdin.flush()), daemon=True)
        feeder.start()
        left, until = stream.count(b'\x1c'), time.monotonic() + LIMIT
        with selectors.DefaultSelector() as waits:
            waits.register(child.stdout, selectors.EVENT_READ)
            while left > 0 and waits.select(max(until - time.monotonic(), 0)):
                piece = os.read(child.stdout.fileno(), 65_536)
                left = left - piece.count(b'\x1c') if piece else -1
        if left == 0:
            time.sleep(0.5)  # it waits in its next read
        child.send_signal(signal.SIGTERM)
        child.wait(LIMIT)
        feeder.join(LIMIT)
        child.stdin.close()
        child.stdout.close()
        lines.seek(0)
        printed = lines.read().decode(errors='replace')
    if left != 0:
        raise RuntimeError(f'not all messages were acknowledged: {printed}')
    return int(re.search(pattern, printed).group(1).replace(',', ''))


def count_to_end(command, stream, folder, pattern):
    """The same number for a program that reads to the end of the stream."""
    path = os.path.join(folder, 'stream')
    with open(path, 'wb') as file:
        file.write(stream)
    with open(path, 'rb') as fed:
        ran = subprocess.run(command, stdin=fed, stdout=subprocess.DEVNULL, stderr=subprocess.PIPE, check=True, timeout=LIMIT)
    return int(re.search(pattern, ran.stderr.decode(errors='replace')).group(1).replace(',', ''))


def under_valgrind(tool):
    return ['valgrind', f'--tool={tool}', *(['--callgrind-out-file=/dev/null'] if tool == 'callgrind' else ['--leak-check=no'])]


def a_message(command, count, tool, pattern, folder, to_end=False):
    """The cost of a message: the difference between `count` messages and twice as many, divided by `count`."""
    found = []
    for messages in (count, 2 * count):
        stream = b''.join(framed(shorter(n)) for n in range(messages))
        words = under_valgrind(tool) + command
        found.append(count_to_end(words, stream, folder, pattern) if to_end else count_to_acknowledgment(words, stream, tool, pattern))
    return (found[1] - found[0]) / count


def measure_work(programs, table, count, quick):
    """Measures the instructions and memory requests of a message of 676 bytes with one destination."""
    if shutil.which('valgrind') is None:
        print('valgrind is not installed: no instructions and no requests for memory')
        return
    names = [name for name in ('engine', 'plain', 'tuned') if name != 'engine' or not programs.checked]
    for tool, pattern, what, _ in TOOLS:
        def taken(name, plan, messages=count, to_end=False):
            return a_message(programs.answering(name, plan), messages, tool, pattern, programs.folder, to_end)
        small = {name: taken(name, ONE_ATTEMPT) for name in names}
        table.row(f'answer, the small plan: {what}', small, ',.1f')
        if tool == 'callgrind' and not quick:
            found = {name: taken(name, ONE_ATTEMPT, to_end=True) for name in names}
            table.row(f'answer, the small plan: {what}, with the end', found, ',.1f')
        for title, plan in ((HOSPITAL,) if quick else (HOSPITAL, LARGEST)) if 'engine' in names else ():
            found = taken('engine', plan, count if plan == HOSPITAL[1] else count // 10)
            table.row(f'answer, {title}: {what}', {'engine': found}, ',.1f', small['engine'])


def measure_run_work(programs, table, count):
    """Measures the same for `run`, from the message's block to the settlement of its delivery."""
    if shutil.which('valgrind') is None:
        return
    names = [name for name in ('engine', 'threaded') if name != 'engine' or not programs.checked]
    for tool, pattern, what, _ in TOOLS:
        found, settled = {}, {}
        for name in names:
            few, many = (loopback.counted(programs.paths[name], programs.folder, n, tool, pattern) for n in (count, 2 * count))
            found[name] = (many[0] - few[0]) / count
            settled[name] = (many[1] - few[1]) / count if tool == 'callgrind' else None
        if tool == 'callgrind':
            table.row(f'run, one connection, one destination: {what}', settled, ',.1f')
        table.row(f'run, one connection, one destination: {what}{", with the end" if tool == "callgrind" else ""}', found, ',.1f')


# Times


def once(source, sink, *command):
    """Runs a program on a file; prints its seconds on the clock, processor seconds and peak memory in bytes, and returns its status."""
    with open(source, 'rb') as fed, open(sink, 'wb') as got:
        began = time.perf_counter()
        child = os.posix_spawn(command[0], command, {}, file_actions=[
            (os.POSIX_SPAWN_DUP2, fed.fileno(), 0), (os.POSIX_SPAWN_DUP2, got.fileno(), 1)])
        _, status, usage = os.wait4(child, 0)
        took = time.perf_counter() - began
    print(took, usage.ru_utime + usage.ru_stime, usage.ru_maxrss * 1024)
    return os.waitstatus_to_exitcode(status)


def timed(programs, name, source):
    """The three figures of one run, measured by a small process: a child's peak memory includes what its parent had at its creation."""
    command = [sys.executable, os.path.abspath(__file__), ONCE, source, os.path.join(programs.folder, 'sink'), *programs.answering(name)]
    ran = subprocess.run(command, check=True, capture_output=True, text=True, timeout=LIMIT)
    return tuple(map(float, ran.stdout.split()))


def measure_time(programs, table, messages, times):
    """Measures the time of `answer` and its twins for the same messages, in turn."""
    source = programs.file('messages', b''.join(framed(shorter(n)) for n in range(messages)))
    runs = {name: [] for name in ('engine', 'plain', 'tuned')}
    for _ in range(times):
        for name, of in runs.items():
            of.append(timed(programs, name, source))
    size = os.path.getsize(source)
    for index, (title, form) in enumerate((('seconds on the clock', '.3f'), ('processor seconds', '.3f'))):
        turns = {name: [figures[index] for figures in of] for name, of in runs.items()}
        best = {name: min(of) for name, of in turns.items()}
        table.row(f'answer, {messages:,} messages: {title}, best of {times}', best, form, turns=turns)
    beside = {name: (max(figures[2] for figures in of) - size) / messages for name, of in runs.items()}
    table.row('answer: bytes at the peak beside those received, a message', beside)


class Receiver:
    """The destination for both programs: the twin's, as a process of its own."""

    def __init__(self, program):
        self.port, = free_ports(1)
        self._process = subprocess.Popen([program, 'receive', str(self.port)], stdout=subprocess.PIPE)
        with selectors.DefaultSelector() as waits:
            waits.register(self._process.stdout, selectors.EVENT_READ)
            if not waits.select(30) or self._process.stdout.readline() != b'up\n':
                self.__exit__()
                raise RuntimeError('the destination does not listen')

    def __enter__(self):
        return self

    def __exit__(self, *_):
        self._process.kill()
        self._process.wait(30)
        self._process.stdout.close()


def sent(port, connections, messages):
    """The times of the first send and of the last acknowledgment, with the senders of bench/run.py."""
    ready, go, took = multiprocessing.Semaphore(0), multiprocessing.Event(), multiprocessing.Queue()
    words = (messages // connections, loopback.IN_FLIGHT, ready, go, took)
    crowd = [multiprocessing.Process(target=loopback.send, args=(port, number, *words), daemon=True) for number in range(connections)]
    try:
        for sender in crowd:
            sender.start()
        if not all([ready.acquire(timeout=60) for _ in crowd]):
            raise RuntimeError('not all senders could connect')
        go.set()
        times = [took.get(timeout=LIMIT) for _ in crowd]
    finally:
        for sender in crowd:
            sender.join(1 if go.is_set() else 0)
            sender.kill()
    return min(begin for begin, _ in times), max(end for _, end in times)


class Worked(threading.Thread):
    """Reads the processor seconds of a process until it ends."""

    def __init__(self, process):
        super().__init__(daemon=True)
        self.process, self.seconds = process, 0.0
        self.start()

    def run(self):
        try:
            while self.process.returncode is None:
                self.seconds = max(self.seconds, loopback.seconds_of(self.process))
                time.sleep(0.02)
        except (OSError, IndexError):
            return  # it has ended


def rates(programs, name, messages):
    """The messages acknowledged per second, those delivered per second, and the processor microseconds per message."""
    port, = free_ports(1)
    with Receiver(programs.paths['threaded']) as sink:
        plan = one_channel(port, [('D0', sink.port, ['attempts = 1'])])
        with Engine(programs.paths[name], plan, CONNECTIONS, programs.folder) as engine:
            worked = Worked(engine.process)
            began, last_acknowledged = sent(port, CONNECTIONS, messages)
            status, counts = engine.ended(LIMIT)
            ended = time.monotonic()
    if status != 0 or counts['destination', 'D0']['delivered'] != messages:
        raise RuntimeError(f'{name}: {status} {counts} {engine.log[-5:]}')
    return messages / (last_acknowledged - began), messages / (ended - began), 1e6 * worked.seconds / messages


def largest_rate(programs, messages):
    """The messages per second that the engine acknowledges with the largest plan. It is killed then, since its other channels get no
    connections."""
    port, *ports = free_ports(64)
    with Receiver(programs.paths['threaded']) as sink:
        plan = with_channels(one_channel(port, [('D0', sink.port, ['attempts = 1'])]), 256, ports, 'D0')
        with Engine(programs.paths['engine'], plan, CONNECTIONS, programs.folder):
            began, last_acknowledged = sent(port, CONNECTIONS, messages)
    return messages / (last_acknowledged - began)


def measure_rates(programs, table, messages, times):
    """Measures the rates of `run` and its twin, and of `run` with the largest plan, in turn."""
    runs, largest = {name: [] for name in ('engine', 'threaded')}, []
    for _ in range(times):
        for name, of in runs.items():
            of.append(rates(programs, name, messages))
        if not programs.checked:
            largest.append(largest_rate(programs, messages))
    rows = (('acknowledged a second', max, ',.0f'), ('delivered a second', max, ',.0f'), ('processor microseconds a message', min, ',.1f'))
    for index, (title, pick, form) in enumerate(rows):
        turns = {name: [figures[index] for figures in of] for name, of in runs.items()}
        best = {name: pick(of) for name, of in turns.items()}
        table.row(f'run, {CONNECTIONS} connections: {title}, best of {times}', best, form, turns=turns)
    if largest:
        small = [figures[0] for figures in runs['engine']]
        table.row(f'run, {LARGEST[0]}: acknowledged a second, best of {times}', {'engine': max(largest)}, small=max(small))
        over = statistics.median(one / other for one, other in zip(largest, small))
        print(f'the largest plan over the small one, the median of {times} turns: {over:.2f}', flush=True)


def measure(programs, quick, times):
    same = compare_answers(programs)
    same = compare_runs(programs) and same
    if programs.checked:
        print('the program checks its accesses (it was built by ./build --unproved): its times say nothing of a proved one, and what '
              'valgrind counts of it and its rate by the largest plan are left out')
    table = Table()
    measure_work(programs, table, 100 if quick else 1_000, quick)
    measure_time(programs, table, 1_000 if quick else 200_000, times)
    measure_rates(programs, table, 800 if quick else 80_000, times)
    if not quick:
        measure_run_work(programs, table, 500)
    print(f'cores: {os.cpu_count()}, load of the last minute: {os.getloadavg()[0]:.1f}')
    return same


def main():
    parser = argparse.ArgumentParser(description='Measures the built program beside twins in Rust without proofs.')
    parser.add_argument('--program', default=PROGRAM, help='the built program')
    parser.add_argument('--quick', action='store_true', help='one run of few messages')
    parser.add_argument('--times', type=int, default=3, help='how many runs a time is the best of')
    args = parser.parse_args()
    socket.setdefaulttimeout(LIMIT)
    if not os.path.exists(args.program):
        print(f'there is no program {args.program}: ./build hl7_engine')
        return 1
    with tempfile.TemporaryDirectory() as folder:
        twins = built(folder)
        if twins is None:
            print('rustc is not installed: nothing is measured (apt-get install rustc)')
            return 0
        programs = Programs(os.path.abspath(args.program), twins, folder)
        return 0 if measure(programs, args.quick, 1 if args.quick else args.times) else 1


if __name__ == '__main__':
    if sys.argv[1:2] == [ONCE]:
        sys.exit(once(*sys.argv[2:]))
    sys.exit(main())
