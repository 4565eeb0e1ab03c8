"""The cost of one run of a program: its instructions and its system calls, as counted by valgrind's callgrind. Other work on the
machine doesn't change these. If valgrind isn't installed, it is the processor time in nanoseconds, the system's share included, without
system calls; a measurement then takes the lowest cost of several runs.

Used by bench/cuts.py, bench/growth.py, bench/hostile.py, bench/run.py and bench/twins.py; it has no command line of its own.
"""
import fcntl
import os
import re
import resource
import shutil
import subprocess
import tempfile
import threading
import time
from typing import NamedTuple

LIMIT = 600  # the longest time that one run may take, in seconds
IDLE = 0.6  # seconds without work after which a program under valgrind is considered idle
MIB = 1024 * 1024
COUNTS = shutil.which('valgrind') is not None
UNIT = 'instructions' if COUNTS else 'nanoseconds of processor time'
UNDER = ['valgrind', '--tool=callgrind', '--callgrind-out-file=/dev/null', '--collect-systime=yes'] if COUNTS else []
TIMES = 1 if COUNTS else 5  # runs of which a measurement takes the lowest cost


class Taken(NamedTuple):
    """Instructions (nanoseconds if valgrind isn't installed) and system calls."""
    work: float
    calls: float

    def more_than(self, other, number):
        """The cost of this run minus that of another one, divided by a number of bytes, messages or reads."""
        return Taken((self.work - other.work) / number, (self.calls - other.calls) / number)


def counted(lines, seconds):
    """The counts that callgrind printed in these lines; without valgrind the processor seconds."""
    if not COUNTS:
        return Taken(1e9 * seconds, 0)
    found = re.search(r'Collected : ([0-9]+) ([0-9]+)', lines)
    if found is None:
        raise RuntimeError(f'valgrind counted nothing: {lines[-500:]}')
    return Taken(int(found[1]), int(found[2]))


def seconds_of(process):
    """The processor seconds of a running process."""
    with open(f'/proc/{process.pid}/stat', encoding='utf-8') as file:
        words = file.read().rsplit(') ', 1)[1].split()
    return (int(words[11]) + int(words[12])) / os.sysconf('SC_CLK_TCK')


def instructions_so_far(process, out):
    """The instructions of a program until now, once it is idle. It runs under callgrind, with `out` as its `--callgrind-out-file`.
    It can be called once for each program, since it reads callgrind's first dump."""
    before = -1
    while before != (now := seconds_of(process)):
        before = now
        time.sleep(IDLE)
    subprocess.run(['callgrind_control', '--dump', str(process.pid)], stdout=subprocess.DEVNULL, stderr=subprocess.DEVNULL, check=True,
                   timeout=60)
    with open(f'{out}.1', encoding='utf-8') as file:
        return int(re.search(r'^totals: (\d+)', file.read(), re.MULTILINE)[1])


def children_seconds():
    """The processor seconds of all processes that this one has waited for."""
    usage = resource.getrusage(resource.RUSAGE_CHILDREN)
    return usage.ru_utime + usage.ru_stime


def write_all(pipe, piece):
    """Writes a whole piece to a pipe."""
    rest = memoryview(piece)
    while rest:
        rest = rest[os.write(pipe, rest):]


def taken(command, source, sink, feed=None):
    """The cost of a program that reads `source`, an open file or pipe, and writes to the file at `sink`. `feed`, if it is given, is
    called once the program runs. The program is killed at the limit, and has to end with status 0."""
    with open(sink, 'wb') as out, tempfile.TemporaryFile() as lines:
        child = subprocess.Popen([*UNDER, *command], stdin=source, stdout=out, stderr=lines)
        limit = threading.Timer(LIMIT, child.kill)
        limit.start()
        try:
            if feed is not None:
                feed()
            _, status, usage = os.wait4(child.pid, 0)
            child.returncode = os.waitstatus_to_exitcode(status)
        finally:
            limit.cancel()
            if child.returncode is None:
                child.kill()
                child.wait(30)
        lines.seek(0)
        printed = lines.read().decode(errors='replace')
    if child.returncode != 0:
        raise RuntimeError(f'status {child.returncode}: {printed[-500:]}')
    return counted(printed, usage.ru_utime + usage.ru_stime)


def from_file(command, path, sink):
    """The cost of a program that reads a file to its end."""
    with open(path, 'rb') as source:
        return taken(command, source, sink)


def from_pipe(command, pieces, sink, packets):
    """The cost of a program that reads pieces from a pipe of 1 MiB. With `packets` each read returns exactly one piece, of at most
    4,096 bytes; without it a read returns what is available."""
    reads, writes = os.pipe2(os.O_CLOEXEC | (os.O_DIRECT if packets else 0))
    fcntl.fcntl(writes, fcntl.F_SETPIPE_SZ, MIB)

    def feed():
        """Writes the pieces, and closes the pipe."""
        nonlocal writes, reads
        os.close(reads)
        reads = None
        for piece in pieces:
            write_all(writes, piece)
        os.close(writes)
        writes = None

    try:
        return taken(command, reads, sink, feed)
    finally:
        for end in (reads, writes):
            if end is not None:
                os.close(end)
