#!/usr/bin/env python3
"""Measures the built program under `run`: messages per second from many connections into the book and out to destinations, compared
with a plain echo and a plain sender, which show the limits of the senders and destinations used; with `answer` on the same
messages; and with an engine of a few lines on top of python3-hl7. Also an idle engine's processor time, and its memory with many
connections.

Usage: bench/run.py [PROGRAM] [--messages N] [--idle N]

PROGRAM is the built program, by default crates/hl7_engine/out/hl7_engine ('rt run' in crates/hl7_engine builds it).
Plain Python 3, no packages; python3-hl7 is measured if the system's Python has it. Senders, destinations and the echo
are processes of their own. A line with a bound ends with ok or MISSED; the exit status is 0 if every bound is met.
"""
import argparse
import asyncio
import multiprocessing
import os
import re
import shutil
import socket
import subprocess
import sys
import tempfile
import time

sys.path.insert(0, os.path.join(os.path.dirname(os.path.abspath(__file__)), '..', 'peers'))
from answer import COUNTED, TOOLS, framed, shorter  # noqa: E402
from engine import PROGRAM, Engine, one_channel  # noqa: E402
from hostile import idle_connections  # noqa: E402
from meter import instructions_so_far, seconds_of  # noqa: E402
from mllp import block, field, free_ports, message  # noqa: E402
from plain import SYSTEM_PYTHON  # noqa: E402

IN_FLIGHT = 16
ECHO = block(b'MSH|^~\\&|ENG|HUB|REG|HOSP|20231114221320+0000||ACK^A01^ACK|0.1|P|2.5.1|||NE|NE\rMSA|CA|M1\r')


def numbered(connection, number):
    return block(message(b'%d-%d' % (connection, number)))


def send(port, connection, number, in_flight, ready, go, took):
    """Sends `number` messages on one connection, `in_flight` of them at a time, and puts the start and end times into `took`."""
    batches = [b''.join(numbered(connection, n) for n in range(at, min(at + in_flight, number)))
               for at in range(0, number, in_flight)]
    with socket.create_connection(('127.0.0.1', port)) as peer:
        peer.setsockopt(socket.IPPROTO_TCP, socket.TCP_NODELAY, 1)
        ready.release()
        go.wait()
        began = time.monotonic()
        for batch in batches:
            peer.sendall(batch)
            left = batch.count(b'\x1c')
            while left > 0:
                piece = peer.recv(65_536)
                if not piece:
                    raise OSError('the connection ended')
                left -= piece.count(b'\x1c')
        took.put((began, time.monotonic()))


def sent(port, connections, messages, in_flight=IN_FLIGHT):
    """The times of the first send and of the last acknowledgment, and the number of messages sent."""
    ready, go, took = multiprocessing.Semaphore(0), multiprocessing.Event(), multiprocessing.Queue()
    each = messages // connections
    crowd = [multiprocessing.Process(target=send, args=(port, number, each, in_flight, ready, go, took), daemon=True)
             for number in range(connections)]
    for sender in crowd:
        sender.start()
    for _ in crowd:
        ready.acquire()
    go.set()
    times = [took.get(timeout=300) for _ in crowd]
    for sender in crowd:
        sender.join()
    return min(begin for begin, _ in times), max(end for _, end in times), each * connections


def rate(port, connections, messages, in_flight=IN_FLIGHT):
    began, ended, number = sent(port, connections, messages, in_flight)
    return number / (ended - began)


def echoed(_):
    return ECHO


def acknowledged(text):
    return block(b'MSH|^~\\&|PEER|X|ENG|HUB|20231114221300||ACK|1|P|2.5.1\rMSA|AA|' + field(text, b'MSH', 10) + b'\r')


def parsed(text):
    """The least that an engine on top of python3-hl7 does: it parses a message and creates an acknowledgment."""
    import hl7
    return block(str(hl7.parse(text.decode()).create_ack('CA')).encode())


SERVERS = {'echoed': echoed, 'acknowledged': acknowledged, 'parsed': parsed}


def serve(reply_to, port):
    """Answers each block received on any connection, in plain asyncio."""
    async def talk(reader, writer):
        held = b''
        while piece := await reader.read(65_536):
            *texts, held = (held + piece).split(b'\x1c\r')
            writer.write(b''.join(reply_to(text[1:]) for text in texts))
            await writer.drain()
        writer.close()

    async def forever():
        server = await asyncio.start_server(talk, '127.0.0.1', port)
        print('up', flush=True)
        await server.serve_forever()

    asyncio.run(forever())


class Server:
    """One of the servers above, as a process of its own."""

    def __init__(self, name, python=sys.executable):
        self.port, = free_ports(1)
        self._process = subprocess.Popen([python, os.path.abspath(__file__), '--serve', name, str(self.port)],
                                         stdout=subprocess.PIPE)
        self._process.stdout.readline()

    def __enter__(self):
        return self

    def __exit__(self, *_):
        self._process.kill()
        self._process.wait()


def engine_rates(program, folder, connections, destinations, messages):
    """The messages per second that were acknowledged, and those that were delivered to all destinations."""
    sinks, port = [Server('acknowledged') for _ in range(destinations)], free_ports(1)[0]
    peers = [(f'D{index}', sink.port, ['attempts = 1']) for index, sink in enumerate(sinks)]
    with Engine(program, one_channel(port, peers), connections, folder) as engine:
        began, last_acknowledged, number = sent(port, connections, messages)
        status, counts = engine.ended(300)
        ended = time.monotonic()
    for sink in sinks:
        sink.__exit__()
    if status != 0 or any(counts['destination', name]['delivered'] != number for name, _, _ in peers):
        raise RuntimeError(f'{status} {counts} {engine.warnings()[-5:]}')
    return number / (last_acknowledged - began), number / (ended - began)


def answer_rate(program, folder, messages):
    """The messages per second that `answer` acknowledges, from standard input to standard output."""
    plan, stream = os.path.join(folder, 'plan.toml'), b''.join(numbered(0, n) for n in range(messages))
    with open(plan, 'w', encoding='utf-8') as file:
        file.write(one_channel(6660, [('D0', 6661, ['attempts = 1'])]))
    began = time.monotonic()
    ran = subprocess.run([program, 'answer', plan], input=stream, capture_output=True, check=True)
    took = time.monotonic() - began
    if ran.stdout.count(b'MSA|CA|') != messages:
        raise RuntimeError('answer did not acknowledge all messages')
    return messages / took


def idle_share(program, folder):
    """The share of a core that an engine uses with one connection, four destinations and nothing to do."""
    port, *ports = free_ports(5)
    with Engine(program, one_channel(port, [(f'D{n}', at, []) for n, at in enumerate(ports)]), 1, folder) as engine:
        with socket.create_connection(('127.0.0.1', port)):
            time.sleep(0.5)
            before = seconds_of(engine.process)
            time.sleep(10)
            return (seconds_of(engine.process) - before) / 10


def counted(program, folder, messages, tool, pattern):
    """The number that a valgrind tool prints for an engine that has received this number of messages, all for one destination,
    found by a pattern; and under callgrind the instructions until the last message was settled, before the book is closed and
    audited."""
    out = os.path.join(folder, f'callgrind.{os.path.basename(program)}.{messages}')
    under = ['valgrind', f'--tool={tool}', *([f'--callgrind-out-file={out}'] if tool == 'callgrind' else [])]
    port, = free_ports(1)
    with Server('acknowledged') as sink:
        text = one_channel(port, [('D0', sink.port, ['attempts = 1'])])
        with Engine(program, text, 1, folder, under=under) as engine:
            with socket.create_connection(('127.0.0.1', port)) as peer:
                for n in range(messages):
                    peer.sendall(framed(shorter(n)))
                    while not peer.recv(65_536).endswith(b'\x1c\r'):
                        pass
                settled = instructions_so_far(engine.process, out) if tool == 'callgrind' else None
            status, counts = engine.ended(300)
    if status != 0 or counts['destination', 'D0']['delivered'] != messages:
        raise RuntimeError(f'{status} {counts}')
    return int(re.search(pattern, '\n'.join(engine.log)).group(1).replace(',', '')), settled


def measure_work(program, folder):
    """Prints the cost of a message from its block to the settlement of its delivery, without the system's share; and the cost with
    its share of the end, when the book is closed, audited and released."""
    if shutil.which('valgrind') is None:
        print('valgrind is not installed: no instructions and no requests for memory of a message')
        return
    few, many = COUNTED
    for tool, pattern, what, _ in TOOLS:
        (all_few, settled_few), (all_many, settled_many) = (counted(program, folder, n, tool, pattern) for n in (few, many))
        each = f'{(all_many - all_few) / (many - few):,.1f} {what} a message of 676 bytes'
        if settled_few is not None:
            each = (f'{(settled_many - settled_few) / (many - few):,.1f} {what} a message of 676 bytes until it is settled, and '
                    f'{each} with its share of the end')
        print(f'run, one connection, one destination: {each}', flush=True)


def measure(program, folder, messages, idle):
    """Prints a line for each figure, and returns whether each bound is met."""
    met, limits, rates = [], {}, {}

    def bound(text, is_met):
        met.append(is_met)
        print(f'{text}  {"ok" if is_met else "MISSED"}', flush=True)

    with Server('echoed') as echo:
        for connections in (1, 8, 64):
            limits[connections] = rate(echo.port, connections, messages)
            print(f'the senders, {connections:>2} connections: {limits[connections]:>7,.0f} messages a second, by a plain echo')
    with Server('acknowledged') as sink:
        print(f'the destinations: {rate(sink.port, 1, messages // 2, 1):>4,.0f} messages a second into one, one at a time, '
              'by a plain sender')
    alone = answer_rate(program, folder, messages)
    print(f'answer: {alone:,.0f} messages a second, from a file into a file')
    for destinations in (1, 4):
        for connections in (1, 8, 64):
            into, out = rates[connections, destinations] = engine_rates(program, folder, connections, destinations, messages)
            print(f'run, {connections:>2} connections, {destinations} destinations: {into:>7,.0f} messages a second '
                  f'acknowledged, {into / limits[connections]:.2f} of what the senders can; {out:>7,.0f} delivered to all', flush=True)
    eight = rates[8, 1][0]
    bound(f'run with 8 connections over answer: {eight / alone:.2f} (at least a third, or 0.7 of what the senders can)',
          eight >= alone / 3 or eight >= 0.7 * limits[8])
    if not subprocess.run([SYSTEM_PYTHON, '-c', 'import hl7'], capture_output=True).returncode:
        with Server('parsed', SYSTEM_PYTHON) as stock:
            other = rate(stock.port, 8, min(messages, 4_000))
        bound(f'an asyncio engine over python3-hl7, 8 connections: {other:,.0f} messages a second; run {eight / other:.1f} '
              'times as many (at least 10, or 0.7 of what the senders can)', eight >= 10 * other or eight >= 0.7 * limits[8])
    else:
        print('python3-hl7 is not installed: left out')
    measure_work(program, folder)
    share = idle_share(program, folder)
    bound(f'run with nothing to do, one connection, four destinations: {100 * share:.2f} % of a core (under 1)', share < 0.01)
    lines = idle_connections(program, folder, idle)
    bound(f'run with many idle connections: {"; ".join(lines) or "as above"} (at most 1 GiB for 9,999)', not lines)
    print(f'cores: {os.cpu_count()}')
    return all(met)


def main():
    parser = argparse.ArgumentParser()
    parser.add_argument('program', nargs='?', default=PROGRAM)
    parser.add_argument('--messages', type=int, default=20_000)
    parser.add_argument('--idle', type=int, default=9_999)
    parser.add_argument('--serve', nargs=2, help=argparse.SUPPRESS)
    args = parser.parse_args()
    if args.serve:
        return serve(SERVERS[args.serve[0]], int(args.serve[1]))
    with tempfile.TemporaryDirectory() as folder:
        return 0 if measure(os.path.abspath(args.program), folder, args.messages, args.idle) else 1


if __name__ == '__main__':
    sys.exit(main())
