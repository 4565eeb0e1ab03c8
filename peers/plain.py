"""One sender and its acknowledgments, byte for byte; and senders and servers written by others."""
import os
import re
import socket
import subprocess
import time

from engine import Engine, channel_counts, destination_counts, one_channel, plan
from mllp import SILENCE, Destination, Sender, block, blocks, field, free_ports, message

EXAMPLE = os.path.join(os.path.dirname(os.path.abspath(__file__)), '..', 'examples', 'two_channels.toml')
# Debian installs python3-hl7 for the system's own Python.
SYSTEM_PYTHON = '/usr/bin/python3'
SERVER = '''
import asyncio, sys
from hl7.mllp import start_hl7_server

async def talk(reader, writer):
    while not writer.is_closing():
        try:
            message = await reader.readmessage()
        except asyncio.IncompleteReadError:
            break
        print(field(message), flush=True)
        writer.writemessage(message.create_ack('AA'))
        await writer.drain()
    writer.close()

def field(message):
    return str(message).encode().hex()

async def main():
    server = await start_hl7_server(talk, '127.0.0.1', int(sys.argv[1]), encoding='utf-8')
    print('up', flush=True)
    async with server:
        await server.serve_forever()

asyncio.run(main())
'''


def conversation(program, folder):
    """The acknowledgments for messages that are accepted, filtered, repeated, refused and not answered, on one connection."""
    lab, port = Destination(lambda text, before: b'AA'), free_ports(1)[0]
    first, other, filtered = message(b'R1'), message(b'R1', ward=b'O'), message(b'R2', ward=b'X')
    both, original, none = message(b'R3', more=b'AL|AL'), message(b'R4', more=b'|'), message(b'R5', more=b'NE|NE')
    exchanges = [(first, [b'CA|R1']), (first, [b'CA|R1']), (other, [b'CE|R1|IdReused']), (filtered, [b'CA|R2']),
                 (filtered, [b'CA|R2']), (both, [b'CA|R3', b'AA|R3']), (original, [b'AA|R4']),
                 (none, []), (b'HELLO', []), (message(b'R6', kind=b'ACK') + b'MSA|AA|1\r', []),
                 (message(b'R7', kind=b'ORU^R01^ORU_R01'), [b'CR|R7|UnsupportedType']), (message(b''), [b'CE||MissingControlId']),
                 (message(b'R8', version=b'2.9'), [b'CR|R8|UnsupportedVersion']), (message(b'R9'), [b'CA|R9'])]
    expected = [reply for _, replies in exchanges for reply in replies]
    text = plan([('ADT', port, [('LAB', '{ one_of = ["PV1-2", ["I", "O"]] }', None)])], [('LAB', lab.port, [])])
    with Engine(program, text, 1, folder) as engine, socket.create_connection(('127.0.0.1', port), timeout=30) as peer:
        peer.sendall(b''.join(block(text) for text, _ in exchanges))
        peer.shutdown(socket.SHUT_WR)
        replies = list(blocks(peer))
        status, counts = engine.ended(30)
    lab.close()
    codes = [re.sub(rb'.*\rMSA\|(.*)\r', rb'\1', reply, flags=re.DOTALL) for reply in replies]
    numbers = [field(reply, b'MSH', 10) for reply in replies]
    lines = []
    if codes != expected or numbers != [b'0.%d' % (n + 1) for n in range(len(expected))]:
        lines.append(f'a conversation: {list(zip(numbers, codes))}, not {expected}')
    accepted = [first, both, original, none, message(b'R9')]
    if (status, lab.received, engine.faults()) != (0, accepted, []):
        lines.append(f'a conversation: status {status}, {lab.received} received, {engine.warnings()}')
    if counts != {('channel', 'ADT'): channel_counts(10, filtered=1, accepted=5, refused=4, repeats=2),
                  ('destination', 'LAB'): destination_counts(5)}:
        lines.append(f'a conversation: {counts}')
    return lines


def example(program, folder):
    """The example with two channels, at other ports: its deliveries and acknowledgments are those that docs/USE.md shows."""
    peers = {6661: Destination(lambda text, before: b'AA'), 6662: Destination(lambda text, before: SILENCE),
             6663: Destination(lambda text, before: b'AA')}
    channel_ports = dict(zip((6660, 6670), free_ports(2)))
    with open(EXAMPLE, encoding='utf-8') as file:
        text = re.sub(r'127\.0\.0\.1:(\d+)', lambda at: '127.0.0.1:%d' % (
            channel_ports[int(at[1])] if int(at[1]) in channel_ports else peers[int(at[1])].port), file.read())
    result = message(b'E2', kind=b'ORU^R01^ORU_R01', version=b'2.3')
    sent = [(6660, message(b'E0')), (6660, message(b'E1', ward=b'O')), (6670, result), (6670, message(b'E3'))]
    with Engine(program, text, 2, folder) as engine:
        senders = [Sender(channel_ports[at], [text]) for at, text in sent]
        for sender in senders:
            sender.run()
        status, counts = engine.ended(30)
    deadline = time.monotonic() + 10
    while len(peers[6662].received) < 3 and time.monotonic() < deadline:
        time.sleep(0.01)
    received = {at: peer.received for at, peer in peers.items()}
    expected = {6661: [message(b'E0')], 6662: [text for _, text in sent[:3]], 6663: [result.replace(b'|ENG|', b'|RECORD|', 1)]}
    codes = [field(reply, b'MSA', 1) for sender in senders for reply in sender.replies]
    lines = [f'the example: port {at} received {received[at]}, not {expected[at]}' for at in expected if received[at] != expected[at]]
    if (status, codes, engine.faults()) != (0, [b'CA', b'CA', b'CA', b'CR'], []):
        lines.append(f'the example: status {status}, {codes}, {counts}, {engine.warnings()}')
    for peer in peers.values():
        peer.close()
    return lines


def stock_peers(program, folder):
    """The `mllp_send` and the server of python3-hl7, if it is installed: peers written by others."""
    tool = '/usr/bin/mllp_send'
    if not os.path.exists(tool) or subprocess.run([SYSTEM_PYTHON, '-c', 'import hl7'], capture_output=True).returncode:
        print('python3-hl7 is not installed (Debian has it): its mllp_send and its server are left out')
        return []
    ports, path, texts = free_ports(2), os.path.join(folder, 'messages.hl7'), [message(b'T%d' % n) for n in range(20)]
    with open(path, 'wb') as file:
        file.write(b''.join(block(text) for text in texts))
    server = subprocess.Popen([SYSTEM_PYTHON, '-c', SERVER, str(ports[1])], stdout=subprocess.PIPE)
    try:
        server.stdout.readline()
        with Engine(program, one_channel(ports[0], [('LAB', ports[1], [])]), 1, folder) as engine:
            sent = subprocess.run([SYSTEM_PYTHON, tool, '--file', path, '--port', str(ports[0]), '127.0.0.1'],
                                  capture_output=True, timeout=60)
            status, counts = engine.ended(60)
    finally:
        server.terminate()
    received = [bytes.fromhex(line.decode()).rstrip(b'\r') for line in server.stdout.read().split()]
    server.wait()
    lines = []
    if (sent.returncode, sent.stdout.count(b'MSA|CA|T')) != (0, 20):
        lines.append(f'mllp_send: {sent}')
    if received != [text.rstrip(b'\r') for text in texts]:
        lines.append(f'the server of python3-hl7 got {len(received)} messages: {received[:1]}')
    if status != 0 or counts.get(('destination', 'LAB')) != destination_counts(20):
        lines.append(f'python3-hl7: status {status}, {counts}, {engine.warnings()[-5:]}')
    return lines
