#!/usr/bin/env python3
"""Kills the built service with a store, again and again, among senders and destinations over loopback, and starts it again on the
same folder: what was acknowledged is delivered. The same with a power cut in place of each kill: the service goes on from what the
disk may have then, where no sync has covered what was written (power.py). Then plays what else a store has to do (stores.py), and
how one goes on in a new file (next_files.py), and what is answered about one that no service uses (stopped.py).

Usage: peers/crash.py [PROGRAM] [--seed N] [--kills N] [--cuts N] [--only WORD]

PROGRAM is the built service, by default crates/hl7_service/out/hl7_service ('rt run' in crates/hl7_service builds it). The moments of
the kills, what a power cut leaves, and the messages are drawn by the seed, which is printed; without --seed it is drawn too. Power cuts
need a C compiler, and are skipped without one. Plain Python 3, no packages, bounded in time. The exit status is 0 if every check
passes, else 1. Each failure is printed on a line of its own.
"""
import argparse
import os
import random
import signal
import socket
import subprocess
import sys
import tempfile
import threading
import time
from collections import Counter
from typing import NamedTuple

import power
from engine import checks_accesses, one_channel
from mllp import Destination, block, blocks, field, free_ports, message
from next_files import NEXT_FILES
from served import LIMIT, Service
from stopped import STOPPED
from stores import STORES, tail

PROGRAM = os.path.join(os.path.dirname(os.path.abspath(__file__)), '..', 'crates', 'hl7_service', 'out', 'hl7_service')
EVENTS = '3000'
KILLS, CUTS = 40, 10
# For how many seconds a service runs at most before it is killed: from its start, from when it is ready, and from when it is stopped.
FROM_START, FROM_READY = 0.3, 0.8
# For how long a service that kills itself is waited for at most, from when it is ready and from when it is stopped; and for how long a
# start may take, since a slow program on a busy machine takes a while over its store.
BY_ITSELF, STARTING = 2.0, 120
# In which of its calls on a file it kills itself, one of this many: a commit is four calls on the log, and what is stopped writes to
# events.db.
LOG_CALLS, FILE_CALLS, NUMBER_CALLS = 50, 30, 4
# Each sender has at most this many messages unacknowledged.
WINDOWS = (1, 2, 5, 10)
# With power cuts a tenth of the messages has up to this many bytes, so that the log is copied into events.db now and then.
LONGEST, PRINTABLE = 200_000, bytes(0x20 + number % 0x5B for number in range(256))
# A sender repeats one of this many of its last messages, which the book remembers: it keeps as many as a quarter of its entries.
REMEMBERED = 15
# In which calls on events.db the making of a store is cut off: it takes some ten. Fewer with a slow program.
MAKING, MAKING_SLOWLY = range(1, 15), (5, 8)
# The kills end after this many seconds, with a slow program before all are made, and so do the power cuts.
KILLING, KILLING_SLOWLY, CUTTING = 60, 30, 30
# What is sent and not settled durably was sent during one commit, which takes some milliseconds. A slow program needs longer.
MOST_TWICE, MOST_TWICE_SLOWLY = 100, 1_000


class Recorder(Destination):
    """A destination that knows how many connections are open, and how many messages had come by each moment that was marked."""

    def __init__(self, slowness, chance):
        super().__init__(self._wait)
        self._slowness, self._chance, self._count = slowness, chance, threading.Lock()
        self.open_connections, self.marks = 0, []

    def _wait(self, text, before):
        time.sleep(self._chance.uniform(0, self._slowness))
        return b'AA'

    def _talk(self, connection):
        with self._count:
            self.open_connections += 1
        try:
            super()._talk(connection)
        finally:
            with self._count:
                self.open_connections -= 1

    def mark(self):
        """Waits until what a killed service had sent is received, and marks the moment."""
        deadline = time.monotonic() + 5
        time.sleep(0.02)
        while self.open_connections and time.monotonic() < deadline:
            time.sleep(0.005)
        self.marks.append(len(self.received))

    def runs(self):
        """What was received while each run of the service lasted."""
        ends = [*self.marks, len(self.received)]
        return [self.received[begin:end] for begin, end in zip([0, *ends], ends)]


class Persistent(threading.Thread):
    """A sender of new messages, which connects anew where its connection ends, and then sends again what has no answer, in order and
    with the same control ids. Now and then it sends one of the last messages that were acknowledged again."""

    def __init__(self, name, port, window, chance, longest):
        super().__init__(daemon=True)
        self.name, self._port, self._window, self._chance, self._longest = name, port, window, chance, longest
        self.texts, self.answered, self.repeats, self.ids, self.wrong = [], 0, 0, [], []
        self._is_last = threading.Event()

    def finish(self):
        """Lets it end once all that it has sent is acknowledged."""
        self._is_last.set()

    def run(self):
        while not (self._is_last.is_set() and self.answered == len(self.texts)):
            try:
                with socket.create_connection(('127.0.0.1', self._port), timeout=LIMIT) as connection:
                    connection.setsockopt(socket.IPPROTO_TCP, socket.TCP_NODELAY, 1)
                    self._talk(connection)
            except OSError:
                time.sleep(0.01)

    def _talk(self, connection):
        coming = blocks(connection)
        while self.answered < len(self.texts) or not self._is_last.is_set():
            if self.answered == len(self.texts):
                self.texts += [self._message(len(self.texts) + number) for number in range(self._window)]
            if self.answered and self._chance.random() < 0.1:
                again = self._chance.choice(self.texts[max(0, self.answered - REMEMBERED):self.answered])
                self._exchange(connection, coming, again)
                self.repeats += 1
            waiting = self.texts[self.answered:]
            connection.sendall(b''.join(block(text) for text in waiting))
            for text in waiting:
                self._read(coming, text)
                self.answered += 1
            time.sleep(self._chance.uniform(0, 0.04))

    def _exchange(self, connection, coming, text):
        connection.sendall(block(text))
        self._read(coming, text)

    def _read(self, coming, text):
        reply = next(coming, None)
        if reply is None:
            raise OSError('the connection ended')
        answer = field(reply, b'MSA', 1), field(reply, b'MSA', 2)
        if answer != (b'CA', field(text, b'MSH', 10)):
            self.wrong.append(f'{field(text, b"MSH", 10)} was answered {answer} {field(reply, b"MSA", 3)}')
        self.ids.append(field(reply, b'MSH', 10))

    def _message(self, number):
        size = self._chance.randrange(self._longest if self._chance.random() < 0.1 else 1_000)
        note = self._chance.randbytes(size).translate(PRINTABLE).translate(None, b'|^~\\&')
        return message(b'%s-%d' % (self.name.encode(), number)) + b'NTE|1||' + note + b'\r'


def twice(name, lab, most):
    """The order in which messages came to a destination for the first time, how many came once more in each run, and what is wrong. A
    run begins with what the runs before it had not settled durably: it sends these in order, up to the last, before anything new. No
    run goes back behind where an earlier one began, nor by more than `most` messages behind where the last one ended."""
    order, counts, found, begun, ended = [], [], [], 0, 0
    for number, got in enumerate(lab.runs()):
        had = {text: index for index, text in enumerate(order)}
        again = sum(text in had for text in got)
        counts.append(again)
        if len(set(got)) != len(got):
            found.append(f'{name}: run {number} sent {len(got) - len(set(got))} of {len(got)} messages twice within it')
        if not got:
            continue
        at = had.get(got[0], len(order))
        order += [text for text in got if text not in had]
        if got != order[at:at + len(got)] or not begun <= at or not ended - at <= most:
            found.append(f'{name}: run {number} sent {again} messages again, from the one with index {at} on, not in order or too '
                         f'many: runs before it began at {begun} and the last one ended at {ended}')
        begun, ended = at, at + len(got)
    return order, counts, found


class Moment(NamedTuple):
    """When a service is killed: this many seconds after its start, or after it is ready; and where it is stopped then, this many seconds
    after that."""
    is_ready: bool
    seconds: float
    stop_seconds: float | None = None


def any_moment(chance):
    """A moment during the start, or once it is ready."""
    waits = chance.random() < 0.75
    return Moment(waits, chance.uniform(0, FROM_READY if waits else FROM_START))


def has_ended(process, seconds):
    """Whether a process ends within this many seconds."""
    try:
        process.wait(seconds)
    except subprocess.TimeoutExpired:
        return False
    return True


def lived(program, plan_path, store, moment, env=None, endings=()):
    """Starts the service, and kills it at a moment, if it hasn't ended with one of these statuses before. What is wrong with its end."""
    words = [program, 'run', plan_path, '--store', store, '--events', EVENTS]
    with subprocess.Popen(words, stdin=subprocess.PIPE, stdout=subprocess.DEVNULL, stderr=subprocess.PIPE, env=env) as process:
        log, is_ready = [], threading.Event()

        def read():
            for line in process.stderr:
                log.append(line.decode(errors='replace').rstrip('\n'))
                if 'the service is ready' in log[-1]:
                    is_ready.set()
            is_ready.set()
        reader = threading.Thread(target=read, daemon=True)
        reader.start()
        if moment.is_ready:
            is_ready.wait(STARTING)
        if not has_ended(process, moment.seconds) and moment.stop_seconds is not None:
            os.write(process.stdin.fileno(), b'stop now\n')
            has_ended(process, moment.stop_seconds)
        status, is_up = process.poll(), is_ready.is_set() or not moment.is_ready
        process.kill()
        process.wait()
        reader.join(LIMIT)
    return [] if is_up and status in (None, *endings) else [f'status {status}, or not ready in {STARTING} seconds: {tail(log)}']


def begun(port, seed, longest):
    """Two destinations, and senders to a port, which have begun to send messages of up to this many bytes."""
    labs = {lab: Recorder(slowness, random.Random(seed + 1)) for lab, slowness in (('LAB', 0), ('ARCHIVE', 0.004))}
    senders = [Persistent(f'S{number}', port, window, random.Random(seed + 2 + number), longest)
               for number, window in enumerate(WINDOWS)]
    for sender in senders:
        sender.start()
    return labs, senders


def drained(program, text, folder, store, senders):
    """Runs the service until all that the senders have sent is acknowledged and delivered. What is wrong with its end."""
    with Service(program, text, folder, '--events', EVENTS, store=store) as service:
        service.ready.wait(STARTING)
        if not any('listening on ' in line for line in service.log):
            return [f'the end: it does not start: {tail(service.log)}']
        for sender in senders:
            sender.finish()
        for sender in senders:
            sender.join(LIMIT)
        answer = service.ask('stop')
        status, lines = service.ended()
    return [] if answer == ['stopping'] and status == 0 else [f'the end: {answer}, status {status}, {lines}, {tail(service.log)}']


def among_peers(name, program, folder, seed, times, life, seconds, longest):
    """Messages from several connections to two destinations, through a service whose lives end at random moments: each message that was
    acknowledged comes to each destination, byte for byte; all come to both in one order, which is that of each sender; what comes
    once more is what was not settled durably before such an end; no repeat is delivered; and each acknowledgment has its own MSH-10.
    `life` is a function of the plan's path, the store and what is drawn. It returns what is wrong, and the store for the next life."""
    chance, port, store = random.Random(seed), free_ports(1)[0], os.path.join(folder, 'store')
    labs, senders = begun(port, seed, longest)
    text = one_channel(port, [(lab, peer.port, ['attempts = 6', 'interval = 0', 'timeout = 10']) for lab, peer in labs.items()])
    plan_path = os.path.join(folder, 'plan.toml')
    with open(plan_path, 'w', encoding='utf-8') as file:
        file.write(text)
    found, made, until = [], 0, time.monotonic() + seconds
    while made < times and not found and time.monotonic() < until:
        found, store = life(plan_path, store, chance)
        made += 1
        for lab in labs.values():
            lab.mark()
    found = [f'{name}: {line}' for line in found + drained(program, text, folder, store, senders)]
    for lab in labs.values():
        lab.close()
    print(f'{name}: {made} of {times} made, {os.path.getsize(os.path.join(store, "events.db"))} bytes in events.db at the end')
    return found + compared(name, labs, senders, MOST_TWICE_SLOWLY if checks_accesses(program) else MOST_TWICE)


def kills(program, folder, seed, times):
    """The service is killed again and again, and goes on with the files as they are."""
    def life(plan_path, store, chance):
        return lived(program, plan_path, store, any_moment(chance)), store
    return among_peers('kills', program, folder, seed, times, life, KILLING_SLOWLY if checks_accesses(program) else KILLING, 1_000)


def cut_moment(chance):
    """When the power is cut: at any moment, or in a call on a file, of which the name and the number are returned too. No service is
    stopped in order: one that stops answers what it doesn't book any more as Full."""
    kind = chance.choice(('any', 'log', 'log', 'file', 'numbers'))
    if kind == 'log':
        return Moment(True, BY_ITSELF), 'events.db-wal', chance.randint(1, LOG_CALLS)
    if kind == 'file':
        return Moment(True, FROM_READY), 'events.db', chance.randint(1, FILE_CALLS)
    if kind == 'numbers':
        return Moment(True, FROM_READY), 'connections.new', chance.randint(1, NUMBER_CALLS)
    return any_moment(chance), '', 0


def power_cuts(program, folder, seed, times):
    """The power is cut again and again, and the service goes on with what the disk may have then: what a sync has covered, and of
    each later write all, a part or nothing."""
    library, fates, moments = power.library(folder), Counter(), []
    if library is None:
        print('power cuts: skipped, since no C compiler is installed: they are not tried')
        return []

    def life(plan_path, store, chance):
        os.makedirs(store, 0o700, exist_ok=True)
        log, left, files = f'{store}.log', f'{store}-', power.Files(store)
        moment, name, number = cut_moment(chance)
        moments.append(f'{name} {number}' if name else 'stopped' if moment.stop_seconds is not None else 'any')
        endings = [0] * (moment.stop_seconds is not None) + [-signal.SIGKILL] * bool(name)
        wrong = lived(program, plan_path, store, moment, power.noting(library, store, log, name, number), endings)
        calls = power.calls_in(log)
        wrong += power.unnoted(files, calls, store)
        fates.update(power.cut(files, calls, chance))
        power.put(files, left)
        return wrong, left
    found = among_peers('power cuts', program, folder, seed, times, life, CUTTING * max(1, times / CUTS), LONGEST)
    print(f'power cuts: in which call on which file, or when: {", ".join(moments)}')
    print(f'power cuts: of the calls that changed a file, {", ".join(f"{fates[fate]} {fate}" for fate in power.FATES)}')
    return found


def cut_off(program, folder):
    """A store whose making is cut off, in one call on events.db or another, is made by the next start."""
    library, found = power.library(folder), []
    if library is None:
        print('cut off in its making: skipped, since no C compiler is installed: it is not tried')
        return []
    plan_path = os.path.join(folder, 'plan.toml')
    with open(plan_path, 'w', encoding='utf-8') as file:
        file.write(one_channel(free_ports(1)[0], [('LAB', free_ports(1)[0], [])]))
    killed, calls = 0, MAKING_SLOWLY if checks_accesses(program) else MAKING
    for number in calls:
        store = os.path.join(folder, f'store{number}')
        os.mkdir(store, 0o700)
        words, statuses = [program, 'run', plan_path, '--store', store, '--events', EVENTS], []
        for env in (power.noting(library, store, f'{store}.log', 'events.db', number), None):
            done = subprocess.run(words, input=b'stop now\n', capture_output=True, timeout=STARTING, env=env, check=False)
            statuses.append(done.returncode)
        killed += statuses[0] == -signal.SIGKILL
        if statuses[0] not in (-signal.SIGKILL, 0) or statuses[1] != 0:
            found.append(f'cut off in its making: in call {number} on events.db: statuses {statuses}, '
                         f'{tail(done.stderr.decode(errors="replace").splitlines())}')
    print(f'cut off in its making: {killed} times in {len(calls)} calls on events.db')
    return found if killed else [*found, 'cut off in its making: never']


def compared(name, labs, senders, most):
    """What is wrong with what was received and acknowledged. Prints how much that was."""
    found, orders = [], []
    for lab, peer in labs.items():
        order, counts, wrong = twice(f'{name}: {lab}', peer, most)
        found += wrong
        orders.append(order)
        print(f'{name}: {lab} received {len(order)} messages; once more, in each run: {counts}')
        for sender in senders:
            own = [text for text in order if text.startswith(b'MSH|') and field(text, b'MSH', 10).startswith(sender.name.encode() + b'-')]
            if own != sender.texts:
                missing = len(set(sender.texts) - set(own))
                found.append(f'{name}: {lab}: {len(own)} of the {len(sender.texts)} messages of {sender.name}, {missing} missing, '
                             f'{len(set(own) - set(sender.texts))} that it never sent, or not in its order')
    if orders[0] != orders[1]:
        found.append(f'{name}: the two destinations got the messages in different orders')
    ids = [one for sender in senders for one in sender.ids]
    for sender in senders:
        found += [f'{name}: {line}' for line in sender.wrong[:3]]
        if sender.is_alive() or sender.answered != len(sender.texts):
            found.append(f'{name}: {sender.name}: {sender.answered} of {len(sender.texts)} messages were acknowledged')
    print(f'{name}: {len(ids)} acknowledgments, {sum(sender.repeats for sender in senders)} of them of repeats')
    if len(set(ids)) != len(ids):
        found.append(f'{name}: {len(ids)} acknowledgments have {len(set(ids))} different ids')
    return found


def main():
    """Plays each scene."""
    parser = argparse.ArgumentParser()
    parser.add_argument('program', nargs='?', default=PROGRAM)
    parser.add_argument('--seed', type=int, default=int.from_bytes(os.urandom(4), 'big'))
    parser.add_argument('--kills', type=int, default=KILLS)
    parser.add_argument('--cuts', type=int, default=CUTS)
    parser.add_argument('--only', default='')
    args = parser.parse_args()
    program, lines = os.path.abspath(args.program), []
    print(f'seed {args.seed}', flush=True)
    scenes = [(f'{args.kills} kills', lambda program, folder: kills(program, folder, args.seed, args.kills)),
              (f'{args.cuts} power cuts', lambda program, folder: power_cuts(program, folder, args.seed, args.cuts)),
              ('cut off in its making', cut_off), *STORES, *NEXT_FILES, *STOPPED]
    for name, scene in scenes:
        if args.only not in name:
            continue
        began = time.monotonic()
        with tempfile.TemporaryDirectory() as folder:
            try:
                found = scene(program, folder)
            except (OSError, RuntimeError, subprocess.SubprocessError) as error:
                found = [f'{name}: {error!r}']
        print(f'{name}: {"as it should be" if not found else "WRONG"}, {time.monotonic() - began:.1f} seconds', flush=True)
        lines += found
    for line in lines:
        print(line)
    return 1 if lines else 0


if __name__ == '__main__':
    sys.exit(main())
