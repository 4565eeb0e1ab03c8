"""What bench/service.py measures by the load generator and the sink of bench/twins: messages a second beside the threaded twin, times
of one message, and memory. It has no command line of its own.
"""
import socket
import statistics
import time
from typing import NamedTuple

from bounds import resident
from engine import Engine, one_channel, plan
from load import LIMIT, Load, Sink, loaded
from mllp import block, free_ports, message
from served import Service

IN_FLIGHT = 16
CONNECTIONS, DESTINATIONS = (1, 8, 64, 500), (1, 8)
# The destinations, each with a channel of its own, among which an open load is divided: one destination gets one message at a time.
SHARES = 8
# A book of many entries, so that the twin, which forgets nothing, takes all messages.
ENDLESS = 1_000_000_000
CONNECTION_KIB, SERVICE_MB, MEMORY_DESTINATIONS = 64, 400, 32


class Rate(NamedTuple):
    """Messages a second: acknowledged, and delivered to each destination."""
    acknowledged: float
    delivered: float


def pushed(paths, port, sink, connections, messages, sizes):
    """The rates of messages that a program receives at a port, and delivers to each destination of a sink."""
    each, number = messages // connections, len(sink.ports)
    with Load(paths, [port], connections=connections, window=IN_FLIGHT, messages=each, sizes=sizes) as load:
        began = load.go()
        total = each * connections
        ended, found = sink.wait(total * number), load.found()
    if found['acknowledged'] != total:
        raise RuntimeError(f'{found["acknowledged"]} of {total} messages were acknowledged')
    return Rate(total / found['seconds'], total / (ended - began))


def service_rate(program, folder, paths, text, port, sink, connections, messages, sizes):
    """The rates of the service, and how often it has paused reading."""
    with Service(program, text, folder, '--connections', str(connections)) as service:
        rate = pushed(paths, port, sink, connections, messages, sizes)
        service.ask('stop')
        status, _ = service.ended(LIMIT)
        if status != 0:
            raise RuntimeError(f'status {status}: {service.log[-4:]}')
        return rate, pauses(service)


def twin_rate(folder, paths, text, port, sink, connections, messages, sizes):
    """The rates of the threaded twin."""
    with Engine(paths['threaded'], text, connections, folder, ENDLESS) as engine:
        rate = pushed(paths, port, sink, connections, messages, sizes)
        status, _ = engine.ended(LIMIT)
        if status != 0:
            raise RuntimeError(f'the twin: status {status}: {engine.log[-4:]}')
        return rate


def pauses(service):
    """How often the service has said that it pauses reading."""
    return sum('reading paused' in line for line in service.log)


def turn(program, folder, paths, destinations, connections, messages, sizes):
    """The rates of the service and its pauses, and the rates of the twin, each with a sink of its own."""
    words, found = (connections, messages, sizes), []
    for of in (lambda *given: service_rate(program, *given), twin_rate):
        port, = free_ports(1)
        with Sink(paths, destinations) as sink:
            text = one_channel(port, [(f'D{n}', to, ['attempts = 1']) for n, to in enumerate(sink.ports)])
            found.append(of(folder, paths, text, port, sink, *words))
    (rate, paused), twin = found
    return rate, paused, twin


def rates(program, folder, paths, messages, turns, sizes):
    """Prints messages a second, acknowledged and delivered, of the service and the twin in turn. Fewer messages go to several
    destinations, so that they don't reach the bound at which the service pauses."""
    for connections in CONNECTIONS:
        with Sink(paths, 1) as sink:
            alone = pushed(paths, sink.ports[0], sink, connections, messages, sizes)
        print(f'load and sink by themselves, {connections:>3} connections: {alone.acknowledged:>9,.0f} messages a second', flush=True)
        for destinations in DESTINATIONS:
            many = max(messages // (4 if destinations > 1 else 1), connections)
            all_turns = [turn(program, folder, paths, destinations, connections, many, sizes) for _ in range(turns)]
            own, twin = ([one[index] for one in all_turns] for index in (0, 2))
            shown = []
            for name in Rate._fields:
                middle = statistics.median(getattr(rate, name) for rate in own)
                ratio = statistics.median(getattr(rate, name) / getattr(other, name) for rate, other in zip(own, twin))
                shown.append(f'{middle:>9,.0f} {name} a second, {ratio:.2f} of what the twin does')
            paused = sum(one[1] for one in all_turns)
            print(f'{connections:>3} connections, {destinations} destinations: {"; ".join(shown)}'
                  + (f'; reading paused {paused} times' if paused else ''), flush=True)


def shown_times(found):
    """The times of a load generator, as text."""
    times = found['latency']
    return f'of {times["count"]:,}: ' + ', '.join(f'{name} {times[name] / 1000:.3f} ms' for name in ('median', '99th', '99.9th'))


def one_message(paths, ports, busy, rate, seconds):
    """The times of one message at a time by itself, those beside an open load, and what became of that load. It lasts two seconds
    longer, one of them before."""
    alone = loaded(paths, ports[:1], name='ALONE', window=1, seconds=seconds)
    with Load(paths, ports, name='BUSY', connections=busy, rate=rate, seconds=seconds + 2) as load:
        load.go()
        time.sleep(1)
        one = loaded(paths, ports[:1], name='ONE', window=1, seconds=seconds)
        return alone, one, load.found()


def times(program, folder, paths, busy, rate, seconds, bounds):
    """Prints times of one message, of the service and of the twin. The load is an open one: a message is due at its time, whatever is
    acknowledged, and goes to one of eight destinations. Where the load is more than the machine does, what waits is measured, and
    a bound is missed."""
    for name in ('service', 'twin'):
        ports, at_once = free_ports(SHARES), -(-busy // SHARES) + 2
        with Sink(paths, SHARES) as sink:
            text = plan([(f'C{n}', port, [(f'D{n}', None, None)]) for n, port in enumerate(ports)],
                        [(f'D{n}', to, ['attempts = 1']) for n, to in enumerate(sink.ports)])
            with (Service(program, text, folder, '--connections', str(at_once), '--keep', '10000') if name == 'service'
                  else Engine(paths['threaded'], text, at_once, folder, ENDLESS)) as running:
                alone, one, load = one_message(paths, ports, busy, rate, seconds)
                paused = pauses(running)
        print(f'{name}: one message alone, {shown_times(alone)}')
        print(f'{name}: one message beside {busy} connections that send {rate:,} a second each, {shown_times(one)}')
        print(f'{name}: a message of these, from when it was due, {shown_times(load)}; made late by '
              + ', '.join(f'{load["late"][part] / 1000:.3f} ms ({part})' for part in ('median', '99th', '99.9th')), flush=True)
        if name == 'service':
            refused = sum(found['refused'] for found in (alone, one, load))
            bounds.at_most('messages refused', refused, 0)
            bounds.at_most('pauses of reading, so that the bound of the book is measured', paused, 0)
            bounds.at_least('seconds of that load over those until its last acknowledgment', (seconds + 2) / load['seconds'], 0.98)


def crowd(ports, number, messages):
    """Connections that are idle, once each has sent some messages and got all acknowledgments."""
    peers = [socket.create_connection(('127.0.0.1', ports[n % len(ports)]), timeout=LIMIT) for n in range(number)]
    for name, peer in enumerate(peers):
        peer.setsockopt(socket.IPPROTO_TCP, socket.TCP_NODELAY, 1)
        for n in range(messages):
            peer.sendall(block(message(b'CROWD-%d-%d' % (name, n))))
            while b'\x1c' not in peer.recv(65_536):
                pass
    return peers


def memory_of(program, folder, paths, connections, messages):
    """The resident memory of a service with two channels and 32 destinations: before any connection, and with as many as it serves, all
    idle. The connections send `messages` together, in equal parts, each for all destinations."""
    ports, each = free_ports(2), messages // connections
    with Sink(paths, MEMORY_DESTINATIONS) as sink:
        names = [(f'D{n}', to, ['attempts = 1']) for n, to in enumerate(sink.ports)]
        text = plan([(f'C{n}', port, [(name, None, None) for name, _, _ in names]) for n, port in enumerate(ports)], names)
        with Service(program, text, folder, '--connections', str(connections // 2)) as service:
            time.sleep(1)
            unused = resident(service.process)
            peers = crowd(ports, connections, each)
            sink.wait(each * connections * MEMORY_DESTINATIONS)
            time.sleep(1)
            served = resident(service.process)
            for peer in peers:
                peer.close()
    return unused, served


def memory(program, folder, paths, connections, bounds):
    """Measures the memory of a connection, by services that serve many and a tenth as many at once, and whose books are the same."""
    few = max(connections // 10 // 2 * 2, 2)
    small, large = (memory_of(program, folder, paths, number, connections) for number in (few, connections))
    for index, what in enumerate(('that could be served and is not open', 'that is open and idle')):
        of_one = (large[index] - small[index]) / (connections - few) / 1024
        bounds.at_most(f'memory of a connection {what}', of_one, CONNECTION_KIB, ' KiB')
    bounds.at_most(f'resident with {connections:,} connections and {MEMORY_DESTINATIONS} destinations', large[1] / 1e6, SERVICE_MB, ' MB')
