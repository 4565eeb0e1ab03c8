#!/usr/bin/env python3
"""Measures the share of time for which the threads that serve 1, 8 and 64 connections wait for the book's one lock under
`hl7_engine run`.

Usage: bench/lock.py [PROGRAM] [--quick]

PROGRAM is the built program, by default crates/hl7_engine/out/hl7_engine ('rt run' in crates/hl7_engine builds it). The senders of
bench/run.py send with 16 unacknowledged messages on each connection, and one destination acknowledges all. Meanwhile the system call
of each serving thread is sampled repeatedly from /proc/PID/task/TID/syscall. The serving threads are those that wait in a read of
their connection before anything is sent. A thread that waits for a lock or a bell is in the call futex, with its address. The book's
lock is the address at which the most threads of the program were seen, serving or delivering; only one thread waits at a bell.

A share is that of all samples of serving threads. A thread that spins before it sleeps, and one that is ready but has no processor
yet, are seen as running; so shares mean less if other work uses the processors. With --quick there are fewer messages.

Plain Python 3, no packages; Linux on x86-64. There is no bound: the exit status is 0.
"""
import argparse
import collections
import contextlib
import multiprocessing
import multiprocessing.connection
import os
import sys
import tempfile
import time

from run import IN_FLIGHT, PROGRAM, Engine, Server, free_ports, one_channel, send

LIMIT = 120  # the longest time for which one crowd of senders is sampled, in seconds
CONNECTIONS = (1, 8, 64)
MESSAGES, RUNS = 240_000, 5  # of each run; a book holds 250,000
MOST_SAMPLES = 200_000  # of one run
READS, WRITES, FUTEX = {'0', '45', '47'}, {'1', '44', '46'}, '202'  # read, recvfrom, recvmsg; write, sendto, sendmsg; futex


class Watch:
    """The system calls of a program's threads, read from /proc/PID/task/TID/syscall, which is kept open for each thread."""

    def __init__(self, process):
        self.first = str(process.pid)
        folder = f'/proc/{process.pid}/task'
        self._files = {}
        for thread in os.listdir(folder):
            with contextlib.suppress(FileNotFoundError):  # the thread has ended
                self._files[thread] = os.open(f'{folder}/{thread}/syscall', os.O_RDONLY | os.O_CLOEXEC)

    def __enter__(self):
        return self

    def __exit__(self, *_):
        for file in self._files.values():
            os.close(file)

    def calls(self):
        """Yields for each thread the number of its system call and the call's first argument, or ('running', '') if it is in none.
        Threads that have ended are left out."""
        for thread, file in self._files.items():
            try:
                words = os.pread(file, 256, 0).split()
            except ProcessLookupError:
                continue
            yield thread, (words[0].decode(), words[1].decode()) if len(words) > 2 else ('running', '')


def watched(engine, connections):
    """A watch over the program's threads, and the threads that wait in a read, one for each connection, before anything is sent."""
    until = time.monotonic() + 30
    while time.monotonic() < until:
        watch = Watch(engine.process)
        serving = {thread for thread, (call, _) in watch.calls() if call in READS}
        if len(serving) == connections:
            return watch, serving
        watch.__exit__()
        time.sleep(0.05)
    raise RuntimeError(f'{len(serving)} threads wait in a read, not {connections}')


class Crowd:
    """Senders that are connected, and send once `go` is called."""

    def __init__(self, port, connections, messages):
        self._go, self._took = multiprocessing.Event(), multiprocessing.Queue()
        ready = multiprocessing.Semaphore(0)
        words = (messages // connections, IN_FLIGHT, ready, self._go, self._took)
        self._senders = [multiprocessing.Process(target=send, args=(port, n, *words), daemon=True) for n in range(connections)]
        for sender in self._senders:
            sender.start()
        if not all([ready.acquire(timeout=60) for _ in self._senders]):
            raise RuntimeError('not all senders could connect')

    def __enter__(self):
        return self

    def __exit__(self, *_):
        for sender in self._senders:
            sender.kill()
            sender.join(30)

    def go(self):
        """Starts the senders."""
        self._go.set()

    def at_work(self):
        """Whether no sender has ended yet. Later samples would be of a smaller crowd."""
        return not multiprocessing.connection.wait([sender.sentinel for sender in self._senders], 0)

    def seconds(self):
        """The time from the first send to the last acknowledgment, in seconds."""
        times = [self._took.get(timeout=LIMIT) for _ in self._senders]
        return max(end for _, end in times) - min(begin for begin, _ in times)


def sampled(watch, crowd):
    """The number of times that each thread was seen in each call, from when it is first seen outside of a read, since its sender has
    begun then, until the first sender has ended. The program's first thread, which waits for the others to end, is left out."""
    seen, begun, until, samples = collections.Counter(), set(), time.monotonic() + LIMIT, 0
    crowd.go()
    while crowd.at_work() and time.monotonic() < until and samples < MOST_SAMPLES:
        for thread, found in watch.calls():
            if thread != watch.first and (thread in begun or found[0] not in READS):
                begun.add(thread)
                seen[thread, *found] += 1
                samples += 1
    return seen


def one_run(program, folder, connections, messages):
    """The serving threads of one run, its samples, and the messages acknowledged per second."""
    port, = free_ports(1)
    with Server('acknowledged') as sink:
        plan = one_channel(port, [('D0', sink.port, ['attempts = 1'])])
        # The destination is ended first, though it has more to receive: the deliveries aren't waited for.
        with Engine(program, plan, connections, folder) as engine, Crowd(port, connections, messages) as crowd, sink:
            watch, serving = watched(engine, connections)
            with watch:
                seen = sampled(watch, crowd)
            rate = messages // connections * connections / crowd.seconds()
    return serving, seen, rate


def shares(serving, seen):
    """The number of samples of serving threads at the lock, at other addresses, in a read, in a write, running, and elsewhere."""
    waiting = collections.defaultdict(set)
    for thread, call, argument in seen:
        if call == FUTEX:
            waiting[argument].add(thread)
    lock = max(waiting, key=lambda address: (len(waiting[address]), sum(seen[thread, FUTEX, address] for thread in waiting[address])),
               default=None)
    if lock is not None and len(waiting[lock]) < 2:
        lock = None  # only one thread waits there: it is a bell
    found = collections.Counter()
    for (thread, call, argument), times in seen.items():
        if thread in serving:
            kind = 'read' if call in READS else 'write' if call in WRITES else 'running' if call == 'running' else 'elsewhere'
            found['lock' if call == FUTEX and argument == lock else 'other address' if call == FUTEX else kind] += times
    return found


def measure(program, folder, connections, messages, runs):
    """Prints the shares of all samples for this number of connections."""
    found, rates, least, most = collections.Counter(), [], 1.0, 0.0
    for _ in range(runs):
        serving, seen, rate = one_run(program, folder, connections, messages)
        ours = shares(serving, seen)
        found += ours
        rates.append(rate)
        share = ours['lock'] / max(ours.total(), 1)
        least, most = min(least, share), max(most, share)
    kinds = ('lock', 'other address', 'read', 'write', 'running', 'elsewhere')
    of_all = {kind: 100 * found[kind] / max(found.total(), 1) for kind in kinds}
    busy = 100 * found['lock'] / max(found.total() - found['read'], 1)
    print(f'connections {connections:>2}: waiting for the lock {of_all["lock"]:.2f} % of the time ({100 * least:.2f} to {100 * most:.2f} '
          f'in {runs} runs, {found.total():,} samples), {busy:.2f} % of that in which no sender is waited for')
    print(f'        at another address {of_all["other address"]:.2f} %, reading {of_all["read"]:.1f} %, writing {of_all["write"]:.1f} %, '
          f'running or ready to {of_all["running"]:.1f} %, elsewhere {of_all["elsewhere"]:.1f} %; {min(rates):,.0f} to {max(rates):,.0f} '
          f'messages a second acknowledged', flush=True)


def main():
    parser = argparse.ArgumentParser(description='Measures how long connections wait for the lock of the book.')
    parser.add_argument('program', metavar='PROGRAM', nargs='?', default=PROGRAM, help='the built program')
    parser.add_argument('--quick', action='store_true', help='fewer messages')
    args = parser.parse_args()
    with tempfile.TemporaryDirectory() as folder:
        for connections in CONNECTIONS:
            measure(os.path.abspath(args.program), folder, connections, MESSAGES // (10 if args.quick else 1), 1 if args.quick else RUNS)
    print(f'cores: {os.cpu_count()}, load of the last minute: {os.getloadavg()[0]:.1f}')
    return 0


if __name__ == '__main__':
    sys.exit(main())
