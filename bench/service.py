#!/usr/bin/env python3
"""Measures the built service under load, over loopback: its memory while messages go through a book with few entries, the rates in
the first and the last part, the longest wait for an acknowledgment, its processor time with nothing to do, and the time for
one message beside busy connections, also while it answers over HTTP. Then, by a load generator and a sink in Rust: messages a second
from 1, 8, 64 and 500 connections to one and to eight destinations, beside the threaded twin of bench/twins; the times of one message
alone, and beside an open load; and the memory of 2,000 connections. The service runs with MALLOC_ARENA_MAX=1, unless that is set
otherwise.

Usage: bench/service.py [PROGRAM] [--only NAME]... [--messages N] [--senders N] [--busy N] [--rated N] [--turns N] [--sizes N,N..]
                        [--rate N] [--seconds N] [--idle N]

PROGRAM is the built service, by default crates/hl7_service/out/hl7_service ('rt run' in crates/hl7_service builds it). NAME is that
of a measure: through, idle, beside, watched, rates, times or memory. --rated is how many messages a turn of the rates sends to one
destination (a quarter of them to eight), --turns of how many turns the median is shown, --sizes the sizes of messages in bytes, one
after another. --rate is how many messages each of the --busy connections of an open load sends a second, --seconds how long one
message at a time is sent beside it. --idle is how many idle connections the memory is measured with.

Plain Python 3, no packages. Senders and the destination are processes of their own. What is in Rust is built by rustc; where there is
none, rates, times and memory are left out. A line with a bound ends with ok or MISSED; the exit status is 0 if every bound is met.
"""
import argparse
import multiprocessing
import os
import socket
import sys
import tempfile
import threading
import time
import urllib.request

sys.path.insert(0, os.path.join(os.path.dirname(os.path.abspath(__file__)), '..', 'peers'))
import rates  # noqa: E402
from bounds import Bounds, resident  # noqa: E402
from engine import checks_accesses, one_channel, plan  # noqa: E402
from load import compiled, more_files  # noqa: E402
from mllp import block, free_ports, message  # noqa: E402
from service import PROGRAM, Service  # noqa: E402

IN_FLIGHT = 16
TENTHS = 10
WATCHED_SECONDS = 15
MEASURES = ('through', 'idle', 'beside', 'watched', 'rates', 'times', 'memory')


def send(port, name, number, waits):
    """Sends `number` messages, IN_FLIGHT of them at a time, and puts the longest wait for their acknowledgments into `waits`."""
    longest = 0.0
    with socket.create_connection(('127.0.0.1', port)) as peer:
        peer.setsockopt(socket.IPPROTO_TCP, socket.TCP_NODELAY, 1)
        for at in range(0, number, IN_FLIGHT):
            batch = [block(message(b'%d-%d' % (name, n))) for n in range(at, min(at + IN_FLIGHT, number))]
            begun, left, held = time.monotonic(), len(batch), b''
            peer.sendall(b''.join(batch))
            while left > 0:
                piece = peer.recv(65_536)
                if not piece:
                    raise OSError('the connection ended')
                held += piece
                left -= piece.count(b'\x1c')
            if b'MSA|CE' in held:
                raise OSError('a message was not booked')
            longest = max(longest, time.monotonic() - begun)
    waits.put(longest)


def receive(port, ready):
    """A destination that answers each message as soon as it is received."""
    with socket.create_server(('127.0.0.1', port)) as listener:
        ready.set()
        while True:
            peer, _ = listener.accept()
            peer.setsockopt(socket.IPPROTO_TCP, socket.TCP_NODELAY, 1)
            threading.Thread(target=take, args=(peer,), daemon=True).start()


def take(peer):
    held = b''
    with peer:
        while piece := peer.recv(65_536):
            held += piece
            while (end := held.find(b'\x1c\r')) >= 0:
                control_id = held[:end].split(b'|', 10)[9]
                held = held[end + 2:]
                peer.sendall(block(b'MSH|^~\\&|LAB|X|ENG|HUB|20231114221300||ACK|1|P|2.5.1\rMSA|AA|' + control_id + b'\r'))


def processor(process):
    """The processor seconds of a process so far."""
    with open(f'/proc/{process.pid}/stat', encoding='ascii') as file:
        words = file.read().rsplit(')', 1)[1].split()
    return (int(words[11]) + int(words[12])) / os.sysconf('SC_CLK_TCK')


def delivered(service):
    """The number of delivered messages, and the number of messages that the book remembers."""
    lines = service.ask('status')
    counts = next(line.split() for line in lines if line.startswith('destination '))
    book = next(line.split() for line in lines if line.startswith('book '))
    return int(counts[7]), int(book[10])


def through(program, folder, messages, senders, bounds):
    """Sends messages through a book with 60,000 entries, and measures each tenth of them."""
    port, to = free_ports(2)
    ready, waits = multiprocessing.Event(), multiprocessing.Queue()
    peer = multiprocessing.Process(target=receive, args=(to, ready), daemon=True)
    peer.start()
    ready.wait(10)
    words = ('--events', '60000', '--keep', '10000')
    with Service(program, one_channel(port, [('LAB', to, ['attempts = 3'])]), folder, *words) as service:
        clients = [multiprocessing.Process(target=send, args=(port, n, messages // senders, waits), daemon=True) for n in range(senders)]
        began = time.monotonic()
        for client in clients:
            client.start()
        tenths, done = [], 0
        while done < messages // senders * senders:
            time.sleep(0.2)
            done, remembered = delivered(service)
            while len(tenths) < TENTHS and done >= (len(tenths) + 1) * messages // TENTHS:
                tenths.append((time.monotonic() - began, resident(service.process), done, remembered))
                print(f'tenth {len(tenths)}: {done} delivered after {tenths[-1][0]:.1f} s, {tenths[-1][1] / 1e6:.1f} MB, '
                      f'{remembered} remembered', flush=True)
            if not any(client.is_alive() for client in clients) and not waits.qsize():
                break
        longest = max(waits.get(timeout=60) for _ in clients)
        service.ask('stop')
        status, lines = service.ended(120)
    peer.kill()
    print(f'{messages / tenths[-1][0]:.0f} messages a second through, status {status}, '
          f'longest wait for {IN_FLIGHT} acknowledgments {longest * 1000:.0f} ms')
    memory = [size for _, size, _, _ in tenths[1:]]
    bounds.at_most('resident memory, greatest over least from the second tenth on', max(memory) / min(memory), 1.1)
    first, last = tenths[1][2] / tenths[1][0], (tenths[-1][2] - tenths[-3][2]) / (tenths[-1][0] - tenths[-3][0])
    bounds.at_least('messages a second in the last fifth over those in the first', last / first, 0.9)
    bounds.at_most('longest wait for acknowledgments', longest, 1.0, ' s')


def idle(program, folder, bounds):
    """Measures the processor time with 64 connections allowed, 32 destinations, and nothing to do."""
    ports = free_ports(33)
    names = [(f'D{n}', port, []) for n, port in enumerate(ports[1:])]
    text = plan([('ADT', ports[0], [(name, None, None) for name, _, _ in names])], names)
    with Service(program, text, folder, '--connections', '64') as service:
        time.sleep(1)
        begun = processor(service.process)
        time.sleep(20)
        used = (processor(service.process) - begun) / 20
    bounds.at_most('of a core with 64 connections allowed, 32 destinations and nothing to do', used * 100, 1.0, ' %')


def one_by_one(port, seconds):
    """Sends one message at a time for some seconds. How long each acknowledgment took, in order of length."""
    times = []
    with socket.create_connection(('127.0.0.1', port)) as one:
        one.setsockopt(socket.IPPROTO_TCP, socket.TCP_NODELAY, 1)
        until, first = time.monotonic() + seconds, time.monotonic_ns()
        while time.monotonic() < until:
            begun = time.monotonic()
            one.sendall(block(message(b'ONE-%d-%d' % (first, len(times)))))
            while b'\x1c' not in one.recv(65_536):
                pass
            times.append(time.monotonic() - begun)
    return sorted(times)


def part(times, share):
    """The time that this share of the times is at most."""
    return times[min(int(len(times) * share), len(times) - 1)]


def shown(times):
    return ', '.join(f'{name} {part(times, share) * 1000:.2f} ms' for name, share in [('median', 0.5), ('99th', 0.99), ('99.9th', 0.999)])


class Busy:
    """A service with a destination, and clients that send to it without a pause."""

    def __init__(self, program, folder, busy, *words):
        port, to = free_ports(2)
        ready, waits = multiprocessing.Event(), multiprocessing.Queue()
        self.peer = multiprocessing.Process(target=receive, args=(to, ready), daemon=True)
        self.peer.start()
        ready.wait(10)
        words = ('--connections', str(busy + 1), '--keep', '10000', *words)
        self.port, self.service = port, Service(program, one_channel(port, [('LAB', to, [])]), folder, *words)
        self.clients = [multiprocessing.Process(target=send, args=(port, n, 1_000_000, waits), daemon=True) for n in range(busy)]
        for client in self.clients:
            client.start()
        time.sleep(2)

    def __enter__(self):
        return self

    def __exit__(self, *_):
        for client in self.clients:
            client.kill()
        self.service.process.kill()
        self.peer.kill()


def beside(program, folder, busy):
    """Measures the time for one message at a time beside busy connections."""
    with Busy(program, folder, busy) as works:
        times = one_by_one(works.port, 20)
    print(f'one message beside {busy} busy connections, of {len(times)}: {shown(times)}')


def ask_each_second(address, target, ends, asked):
    """Asks for a page each second."""
    while not ends.wait(1):
        with urllib.request.urlopen(f'http://{address}{target}', timeout=10) as answer:
            asked.append(len(answer.read()))


def watched(program, folder, bounds):
    """Measures the time for one message at a time beside eight busy connections, without and with a scrape and a page each second and
    30 clients that say nothing."""
    host = free_ports(1)[0]
    with Busy(program, folder, 8, '--http', f'127.0.0.1:{host}') as works:
        alone = one_by_one(works.port, WATCHED_SECONDS)
        ends, asked = threading.Event(), []
        askers = [threading.Thread(target=ask_each_second, args=(f'127.0.0.1:{host}', target, ends, asked), daemon=True)
                  for target in ('/metrics', '/')]
        silent = [socket.create_connection(('127.0.0.1', host)) for _ in range(30)]
        for asker in askers:
            asker.start()
        beside_askers = one_by_one(works.port, WATCHED_SECONDS)
        ends.set()
        for peer in silent:
            peer.close()
        for asker in askers:
            asker.join()
    print(f'one message beside 8 busy connections, of {len(alone)}: {shown(alone)}')
    print(f'the same beside {len(asked)} answers over HTTP and 30 clients that say nothing, of {len(beside_askers)}: {shown(beside_askers)}')
    bounds.at_least('answers over HTTP in that time', len(asked), WATCHED_SECONDS)
    bounds.at_most('later at the 99th percentile', (part(beside_askers, 0.99) - part(alone, 0.99)) * 1000, 10, ' ms')


def by_rust(program, folder, args, bounds):
    """The measures that need the load generator and the sink, by name; none where there is no rustc."""
    if not {'rates', 'times', 'memory'} & set(args.only or MEASURES):
        return {}
    paths = compiled(('load', 'sink', 'threaded'), folder)
    if paths is None:
        print('rustc is not installed: no rates, no times beside an open load, no memory of connections (apt-get install rustc)')
        return {}
    more_files()
    return {'rates': lambda: rates.rates(program, folder, paths, args.rated, args.turns, args.sizes),
            'times': lambda: rates.times(program, folder, paths, args.busy, args.rate, args.seconds, bounds),
            'memory': lambda: rates.memory(program, folder, paths, args.idle, bounds)}


def parsed():
    """The command line."""
    parser = argparse.ArgumentParser()
    parser.add_argument('program', nargs='?', default=PROGRAM)
    parser.add_argument('--only', action='append', choices=MEASURES)
    for name, default in (('messages', 2_000_000), ('senders', 8), ('busy', 64), ('rated', 100_000), ('turns', 3), ('rate', 1_000),
                          ('seconds', 20), ('idle', 2_000)):
        parser.add_argument(f'--{name}', type=int, default=default)
    parser.add_argument('--sizes', default='700')
    return parser.parse_args()


def main():
    args, bounds = parsed(), Bounds()
    os.environ.setdefault('MALLOC_ARENA_MAX', '1')  # as examples/service/hl7-service.service has it
    program = os.path.abspath(args.program)
    if checks_accesses(program):
        print('the program checks its memory accesses (./build --unproved), so it is slower than a proved one and takes more memory')
    with tempfile.TemporaryDirectory() as folder:
        measures = {'through': lambda: through(program, folder, args.messages, args.senders, bounds),
                    'idle': lambda: idle(program, folder, bounds),
                    'beside': lambda: beside(program, folder, args.busy),
                    'watched': lambda: watched(program, folder, bounds),
                    **by_rust(program, folder, args, bounds)}
        for name, measure in measures.items():
            if not args.only or name in args.only:
                measure()
    return 0 if bounds.met else 1


if __name__ == '__main__':
    sys.exit(main())
