#!/usr/bin/env python3
"""Measures how fast the built program acknowledges messages, and in how much memory. Plain Python 3, no packages.

Usage: bench/answer.py [PROGRAM] [--against FORMER]

PROGRAM is the built program, by default crates/hl7_engine/out/hl7_engine ('rt run' in
crates/hl7_engine builds it). All figures are measured in this one run, and every figure that has a
bound is printed with it. If python3-hl7 is installed, the same blocks are also parsed and
acknowledged with that library, in this process, and the ratio is printed, without the time that either
process takes to start. Large messages (about 1 GB of them, in the directory for temporary files) show that
a message's bytes are kept in memory once: each further byte received should cost about one byte of memory.
If valgrind is installed, the instructions and the memory requests of a message are counted: other
work on the machine doesn't change these.

With --against, the program and another build of it answer the same messages in turn. Their output
has to be the same, and the program may take no longer than the other build, within a tolerance.

The exit status is 0 if every bound is met, else 1.
"""
import argparse
import os
import re
import shutil
import subprocess
import sys
import tempfile
import time

HERE = os.path.dirname(os.path.abspath(__file__))
PROGRAM = os.path.join(HERE, '..', 'crates', 'hl7_engine', 'out', 'hl7_engine')
FEW, MANY, ROUTED = 2_000, 200_000, 5_000
COUNTED = (1_000, 3_000)  # messages of the two runs under valgrind, whose difference is printed
TOOLS = [('callgrind', r'Collected : ([0-9]+)', 'instructions', 7_000),
         ('memcheck', r'total heap usage: ([0-9,]+) allocs', 'requests for memory', 3)]  # each with its bound for a message
BESIDE = 222  # bytes that a message may take at the peak, in addition to those received
ROW = 200  # bytes that a message takes in addition to its text, at most: its row, key and entry, and the owner of its bytes
LARGE, LARGE_SEGMENTS = (2_000, 20_000), 660
HELD_ONCE = 1.5
NO_SLOWER = 1.05
ENDLESS = 64 * 1024 * 1024
MIB = 1024 * 1024
RUN_ONCE = '--run-once'


def admission(n):
    """A realistic ADT^A01 of about 700 bytes, with a control id of its own."""
    fields = [
        f'MSH|^~\\&|REGADT|MCM|ENGINE|HUB|20231114221300||ADT^A01^ADT_A01|MSG{n:09d}|P|2.5.1|||AL|NE',
        'EVN|A01|20231114221300||ADM|1007^Nightingale^Florence^^^Ms|20231114220900',
        f'PID|1||{n % 9_999_999:07d}^^^MCM^MR~{n % 888_888:06d}^^^SSA^SS||EVERYWOMAN^EVE^E^^MRS^^L|JONES|19620320|F||2106-3|'
        '153 FERNWOOD DR^^STATESVILLE^OH^35292^USA^H||(206)555-0123^PRN^PH~(206)555-0177^ORN^CP|(206)555-0199|EN|M|CHR|'
        'AC555-44-4444||DL-00123^OH|||||||||N',
        'NK1|1|JONES^BARBARA^K|SPO^Spouse|153 FERNWOOD DR^^STATESVILLE^OH^35292|(206)555-0124||EC^Emergency contact',
        'PV1|1|I|W^389^1^MCM^^^^N|E|||1234^Ripley^Ellen^^^Dr||5678^House^Gregory^^^Dr|MED|||A0||2|VIP|'
        '1234^Ripley^Ellen^^^Dr|IP|V100245^^^MCM^VN|SELF',
        'AL1|1|DA|1545^Penicillin^99MCM|SV|Produces hives',
        'DG1|1|I10|J18.9^Pneumonia, unspecified organism^I10C||20231114|A',
    ]
    return ('\r'.join(fields) + '\r').encode()


def shorter(n):
    """The same admission in 676 bytes, without the diagnosis and the last fields of PV1."""
    *fields, visit, allergy, _, end = admission(n).split(b'\r')
    text = b'\r'.join([*fields, visit.removesuffix(b'|IP|V100245^^^MCM^VN|SELF'), allergy, end])
    assert len(text) == 676, len(text)
    return text


def framed(text):
    return b'\x0b' + text + b'\x1c\r'


# The built-in plan with one attempt: a message then takes or reserves 4 of the book's 1,000,000 entries. With the three
# attempts of the built-in plan it would be 8, and MANY messages would not fit.
ONE_ATTEMPT = '''
[[destination]]
name = "LAB"
address = "127.0.0.1:6661"
attempts = 1

[[channel]]
name = "ADT"
listen = "127.0.0.1:6660"
types = ["ADT"]
processing = ["P", "T"]
versions = ["2.5.1"]
[[channel.route]]
to = "LAB"
'''

FOUR_ROUTES = ''.join(f'''
[[destination]]
name = "{name}"
address = "127.0.0.1:{6671 + index}"
''' for index, name in enumerate('ABCD')) + '''
[[channel]]
name = "ADT"
listen = "127.0.0.1:6670"
types = ["ADT"]
processing = ["P"]
versions = ["2.5.1"]
''' + ''.join(f'''
[[channel.route]]
to = "{name}"
filter = {{ all = [{{ exists = "PID-3.1" }}, {{ equals = ["PV1-2", "I"] }}] }}
steps = [
  {{ set = ["PV1-3.1", "WARD {name}"] }},
  {{ copy = ["PID-3.1", "PID-2.1"] }},
  {{ lookup = "PID-8", table = [["M", "1"], ["F", "2"]], default = "9" }},
]
''' for name in 'ABCD')


def large_plan():
    """64 channels and 32 destinations, each channel with 256 steps."""
    destinations = ''.join(f'[[destination]]\nname = "D{d}"\naddress = "127.0.0.1:{7000 + d}"\n' for d in range(32))
    steps = ',\n'.join(f'  {{ set = ["PV1-{1 + n % 50}.{1 + n // 50}", "{n}"] }}' for n in range(256))
    return destinations + ''.join(
        f'[[channel]]\nname = "C{c}"\nlisten = "127.0.0.1:{8000 + c}"\ntypes = ["*"]\nprocessing = ["P"]\n'
        f'versions = ["*"]\nsteps = [\n{steps}\n]\n'
        + ''.join(f'[[channel.route]]\nto = "D{d}"\n' for d in range(32)) for c in range(64))


def run_once(program, source, sink, *words):
    """Runs the program on a file, and prints the seconds, the peak memory in bytes, and the exit status."""
    with open(source, 'rb') as fed, open(sink, 'wb') as got:
        began = time.perf_counter()
        child = os.posix_spawn(program, [program, *words], {}, file_actions=[
            (os.POSIX_SPAWN_DUP2, fed.fileno(), 0), (os.POSIX_SPAWN_DUP2, got.fileno(), 1)])
        _, status, usage = os.wait4(child, 0)
        took = time.perf_counter() - began
    print(took, usage.ru_maxrss * 1024, os.waitstatus_to_exitcode(status))


def run(program, source, sink, *arguments):
    """Calls `run_once` in a small process, since a child's peak memory includes what its parent had when it was created."""
    words = subprocess.run([sys.executable, os.path.abspath(__file__), RUN_ONCE, program, source, sink, *arguments],
                           check=True, capture_output=True, text=True).stdout.split()
    return float(words[0]), int(words[1]), int(words[2])


def best(program, source, sink, times, *words):
    runs = [run(program, source, sink, *words) for _ in range(times)]
    assert all(status == 0 for _, _, status in runs), 'the program did not end with status 0'
    return min(took for took, _, _ in runs), max(peak for _, peak, _ in runs)


def library_seconds(texts, times):
    """The seconds that python-hl7 takes to parse and acknowledge a message; None if it isn't installed."""
    try:
        import hl7
    except ImportError:
        return None
    texts = [text.decode() for text in texts]
    runs = []
    for _ in range(times):
        began = time.perf_counter()
        for text in texts:
            str(hl7.parse(text).create_ack('CA'))
        runs.append(time.perf_counter() - began)
    return min(runs) / len(texts)


def observations(count):
    """`count` OBX segments."""
    return b''.join(b'OBX|%d|NM|2345-7^GLUCOSE^LN||97|mg/dL|70-105|N|||F|||20231114220000|||||||\r' % n
                    for n in range(count))


class Bench:
    """The files of a run, and the bounds that it missed."""

    def __init__(self, program, folder):
        self.program = program
        self.source, self.sink = os.path.join(folder, 'in'), os.path.join(folder, 'out')
        self.plan = os.path.join(folder, 'plan.toml')
        self.missed = []

    def report(self, line, holds=None):
        print(line + ('' if holds is None else '  ok' if holds else '  MISSED'), flush=True)
        if holds is False:
            self.missed.append(line)

    def write_plan(self, text):
        with open(self.plan, 'w') as f:
            f.write(text)

    def write_messages(self, count, extra=b'', made=admission):
        """Writes `count` admissions with further segments, and returns their size in bytes."""
        with open(self.source, 'wb') as f:
            for n in range(count):
                f.write(framed(made(n) + extra))
        return os.path.getsize(self.source)

    def answered(self, times, program=None):
        """The seconds and the peak memory that a program takes to answer the messages written, by the plan and at a fixed time."""
        return best(program or self.program, self.source, self.sink, times, 'answer', self.plan, '--now', '1700000000')

    def all_accepted(self, count):
        with open(self.sink, 'rb') as f:
            accepted = f.read().count(b'\rMSA|CA|MSG')
        assert accepted == count, f'{accepted} of {count} messages were accepted'


def measure_messages(bench):
    """Measures few and many messages of the usual size, and returns the seconds per message of the few and bytes per second of the many."""
    seconds = {}
    for count, times in ((FEW, 15), (MANY, 3)):
        size = bench.write_messages(count)
        took, peak = bench.answered(times)
        bench.all_accepted(count)
        seconds[count] = took / count
        bench.report(f'{count:>7} messages of {size // count} bytes: {count / took:,.0f} messages a second, '
                     f'{1e6 * took / count:.2f} microseconds a message, {size / took / MIB:,.0f} MiB/s, '
                     f'peak memory {peak / MIB:.0f} MiB')
        bound = 2 * size + ROW * count + 50_000_000
        bench.report(f'        peak memory at most twice the input, {ROW} bytes a message and 50 MB ({bound / MIB:.0f} MiB)',
                     peak <= bound)
    ratio = seconds[MANY] / seconds[FEW]
    bench.report(f'time a message at {MANY} over that at {FEW}: {ratio:.2f} (at most 1.3)', ratio <= 1.3)
    return seconds[FEW], size / took


def measure_held_once(bench):
    """Measures whether a message's bytes are kept once, by the peak memory for few and for many large messages."""
    peaks, sizes = {}, {}
    for count in LARGE:
        sizes[count] = bench.write_messages(count, observations(LARGE_SEGMENTS))
        took, peaks[count] = bench.answered(1)
        bench.all_accepted(count)
        bench.report(f'{count:>7} messages of {sizes[count] // count} bytes: {sizes[count] / took / MIB:,.0f} MiB/s, '
                     f'peak memory {peaks[count] / MIB:,.0f} MiB, {peaks[count] / sizes[count]:.3f} bytes for each byte, '
                     f'{peaks[count] / count:,.0f} bytes a message')
    few, many = LARGE
    more, grown = peaks[many] - peaks[few], sizes[many] - sizes[few]
    bench.report(f'        each further message takes {more / (many - few):,.0f} bytes, {(more - grown) / (many - few):+,.0f} to '
                 f'those that came')
    bench.report(f'        memory for each further byte: {more / grown:.3f} bytes (held once: at most {HELD_ONCE})',
                 more <= HELD_ONCE * grown)


def measure_endless(bench, good):
    """Measures a block that never ends."""
    with open(bench.source, 'wb') as f:
        f.write(b'\x0b' + b'A' * ENDLESS)
    took, peak = best(bench.program, bench.source, bench.sink, 3)
    bench.report(f'a block of {ENDLESS // MIB} MiB that never ends: {ENDLESS / took / MIB:,.0f} MiB/s '
                 f'(at least a tenth of {good / MIB:,.0f})', ENDLESS / took >= good / 10)
    bench.report(f'        peak memory {peak / MIB:.1f} MiB (bounded: at most 16)', peak <= 16 * MIB)


def measure_routes(bench):
    """Measures shorter and longer messages that go through four routes with filters and steps."""
    bench.write_plan(FOUR_ROUTES)
    cost = {}
    for copies in (1, 8):
        size = bench.write_messages(ROUTED, observations(10 * copies))
        took, _ = bench.answered(5)
        cost[copies] = took / size
        bench.report(f'{ROUTED:>7} messages of {size // ROUTED} bytes by four routes, each with a filter and three steps: '
                     f'{1e6 * took / ROUTED:.2f} microseconds a message, {1e9 * took / size:.2f} nanoseconds a byte')
    bench.report(f'        a byte of the longer over one of the shorter: {cost[8] / cost[1]:.2f} (at most 1.3)',
                 cost[8] <= 1.3 * cost[1])


def measure_plan(bench):
    """Measures how long it takes to read the largest plan."""
    bench.write_plan(large_plan())
    took, _ = best(bench.program, os.devnull, bench.sink, 3, 'check', bench.plan)
    bench.report(f'reading a plan of 64 channels and 32 destinations with 256 steps each '
                 f'({os.path.getsize(bench.plan) // 1024} KiB): {took:.2f} s (under 1)', took < 1)


def under_valgrind(bench, tool, pattern):
    """The number that a valgrind tool prints for one run, found by a pattern; None if valgrind isn't installed."""
    if shutil.which('valgrind') is None:
        return None
    with open(bench.source, 'rb') as fed:
        run = subprocess.run(['valgrind', f'--tool={tool}', *(['--callgrind-out-file=/dev/null'] if tool == 'callgrind' else []),
                              bench.program, 'answer', bench.plan, '--now', '1700000000'],
                             stdin=fed, stdout=subprocess.DEVNULL, stderr=subprocess.PIPE, text=True, check=True)
    return int(re.search(pattern, run.stderr).group(1).replace(',', ''))


def measure_work(bench):
    """Measures the instructions and memory requests of a message of 676 bytes, by valgrind, and the memory of many such messages."""
    for tool, pattern, what, most in TOOLS:
        counted = []
        for count in COUNTED:
            bench.write_messages(count, made=shorter)
            counted.append(under_valgrind(bench, tool, pattern))
        if None in counted:
            bench.report(f'valgrind is not installed: no {what} a message')
            continue
        cost = (counted[1] - counted[0]) / (COUNTED[1] - COUNTED[0])
        bench.report(f'{cost:,.1f} {what} a message of 676 bytes (at most {most:,})', cost <= most)
    size = bench.write_messages(MANY, made=shorter)
    _, peak = bench.answered(1)
    bench.all_accepted(MANY)
    bench.report(f'{MANY:>7} messages of 676 bytes: peak memory {peak / MIB:.0f} MiB, {(peak - size) / MANY:.0f} bytes a message '
                 f'beside those that came (at most {BESIDE})', peak <= size + BESIDE * MANY)


def compare_library(bench, seconds):
    """Compares the time with that of python-hl7 for the same messages, without the time that either process takes to start."""
    library = library_seconds([admission(n) for n in range(FEW)], 3)
    if library is None:
        bench.report('python3-hl7 is not installed: no ratio to it')
        return
    ratio = library / seconds
    bench.report(f'python-hl7, parsing and acknowledging the same {FEW}: {1e6 * library:.0f} microseconds a message, '
                 f'{ratio:.0f} times the program without its start (at least 200)', ratio >= 200)


def compare_builds(bench, former):
    """Compares the output and the time with those of another build for the same messages. The two builds run in turn."""
    bench.write_plan(ONE_ATTEMPT)
    for count, times in ((FEW, 15), (MANY, 5)):
        bench.write_messages(count)
        took, wrote = {}, {}
        for _ in range(times):
            for program in (former, bench.program):
                once, _ = bench.answered(1, program)
                took[program] = min(once, took.get(program, once))
                with open(bench.sink, 'rb') as f:
                    wrote[program] = f.read()
        bench.report(f'{count:>7} messages by both builds: the same bytes were written', wrote[former] == wrote[bench.program])
        ratio = took[bench.program] / took[former]
        bench.report(f'        {took[bench.program]:.4f} s against {took[former]:.4f} s, {ratio:.2f} times the former '
                     f'(at most {NO_SLOWER})', ratio <= NO_SLOWER)


def measure(bench):
    bench.write_plan(ONE_ATTEMPT)
    start, _ = best(bench.program, os.devnull, bench.sink, 15, 'answer', bench.plan, '--now', '1700000000')
    bench.report(f'start of the program, with nothing to answer: {1e3 * start:.2f} milliseconds')
    seconds, good = measure_messages(bench)
    measure_work(bench)
    measure_held_once(bench)
    measure_endless(bench, good)
    measure_routes(bench)
    measure_plan(bench)
    compare_library(bench, seconds - start / FEW)


def main():
    parser = argparse.ArgumentParser(description='Measures how fast the built program acknowledges messages.')
    parser.add_argument('program', metavar='PROGRAM', nargs='?', default=PROGRAM, help='the built program')
    parser.add_argument('--against', metavar='FORMER', help='another build, to be compared with it')
    given = parser.parse_args()
    with tempfile.TemporaryDirectory() as folder:
        bench = Bench(os.path.abspath(given.program), folder)
        if given.against is None:
            measure(bench)
        else:
            compare_builds(bench, os.path.abspath(given.against))
    print(f'cores: {os.cpu_count()}')
    return 1 if bench.missed else 0


if __name__ == '__main__':
    if sys.argv[1:2] == [RUN_ONCE]:
        run_once(*sys.argv[2:])
    else:
        sys.exit(main())
