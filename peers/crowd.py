"""Many senders through three channels to four destinations at the same time: acknowledgments, deliveries, their order, and counts."""
import re
import time

from engine import Engine, channel_counts, destination_counts, plan
from mllp import HANG_UP, SILENCE, Destination, Sender, field, free_ports, message

# The routes of each channel: the destination, its condition as in the plan, the same condition in Python, and whether a step sets MSH-5.
ROUTES = {
    'EAST': [('UP', '{ equals = ["PV1-2", "I"] }', lambda text: field(text, b'PV1', 2) == b'I', False),
             ('SILENT', None, lambda text: True, True)],
    'WEST': [('AGAIN', '{ equals = ["PV1-2", "O"] }', lambda text: field(text, b'PV1', 2) == b'O', False),
             ('UP', None, lambda text: True, True)],
    'NORTH': [('REJECTS', '{ equals = ["PV1-2", "E"] }', lambda text: field(text, b'PV1', 2) == b'E', False),
              ('SILENT', '{ exists = "PID-3" }', lambda text: field(text, b'PID', 3) != b'', False)],
}
CHANGE = '{ set = ["MSH-5", "HERE"] }'
# How often each destination receives each message.
TIMES = {'UP': 1, 'AGAIN': 3, 'REJECTS': 1, 'SILENT': 1}
# The message, counted from 0, on which UP hangs up once instead of answering.
HUNG_UP = 150
STAMP = re.compile(rb'\d{14}\+0000')


def changed(text):
    return text.replace(b'|ENG|', b'|HERE|', 1)


def destinations():
    """UP is down at first, and hangs up once; AGAIN accepts a message at the third attempt; REJECTS answers a few bytes at a time."""
    up = Destination(lambda text, before: HANG_UP if len(up.received) == HUNG_UP + 1 and not before else b'AA', up=False)
    return {'UP': up, 'AGAIN': Destination(lambda text, before: b'AE' if before < 2 else b'AA'),
            'REJECTS': Destination(lambda text, before: b'AR', slice_size=7),
            'SILENT': Destination(lambda text, before: SILENCE)}


def plan_of(ports, peers):
    more = {'UP': ['attempts = 20', 'interval = 1'], 'AGAIN': ['attempts = 3', 'interval = 0'],
            'REJECTS': ['attempts = 2', 'interval = 0'], 'SILENT': ['attempts = 1', 'await = "none"']}
    return plan([(name, port, [(to, condition, CHANGE if is_changed else None)
                               for to, condition, _, is_changed in ROUTES[name]])
                 for name, port in zip(ROUTES, ports)],
                [(name, peer.port, more[name] + ['timeout = 20']) for name, peer in peers.items()])


def senders(ports, accept, messages):
    """The senders, `accept` for each channel, as pairs of channel and sender. Of each channel's last four, one sends garbage
    first, one sends a byte at a time, and two hang up in the middle of a block, one of them by a reset."""
    crowd = []
    for number in range(3 * accept):
        channel, index = list(ROUTES)[number % 3], accept - 1 - number // 3
        texts = [message(b'%d-%d' % (number, n), ward=b'IOE'[n % 3:][:1], patient=b'' if n % 10 == 7 else b'77^^^H')
                 for n in range(messages if index > 3 else min(messages, 8))]
        odd = [{'after': b'\x0bMSH|^~\\&|REG'}, {'after': b'\x0bMSH|^~\\&|REG', 'resets': True}, {'slice_size': 1},
               {'before': b'GET / HTTP/1.1\r\n\r\n\x1c\r\x0bMSH|\x0b\x1cx\x0b\x1c\r\x0bHELLO\x1c\r'}]
        how = odd[index] if index < 4 else {'in_flight': 1 + number % 16}
        crowd.append((channel, Sender(ports[number % 3], texts, **how)))
    return crowd


def wrong_acknowledgments(crowd, accept):
    """The wrong acknowledgments. Apart from timestamps, each connection's have to be these bytes, in the order of its messages."""
    lines, taken = [], set()
    for channel, sender in crowd:
        if sender.fault:
            lines.append(f'a sender of {channel} failed: {sender.fault!r}')
            continue
        number = field(sender.replies[0], b'MSH', 10).split(b'.')[0] if sender.replies else b'none'
        wanted = [b'MSH|^~\\&|ENG|HUB|REG|HOSP|*||ACK^A01^ACK|%s.%d|P|2.5.1|||NE|NE\rMSA|CA|%s\r'
                  % (number, n + 1, field(text, b'MSH', 10)) for n, text in enumerate(sender.texts)]
        got = [STAMP.sub(b'*', reply) for reply in sender.replies]
        if got != wanted:
            at = next((n for n, (g, w) in enumerate(zip(got, wanted)) if g != w), min(len(got), len(wanted)))
            lines.append(f'acknowledgment {at} of connection {number} of {channel}: {got[at:at + 1]}, not {wanted[at:at + 1]}')
        first = list(ROUTES).index(channel) * accept
        if number in taken or not number.isdigit() or not first <= int(number) < first + accept:
            lines.append(f'a connection of {channel} has number {number}')
        taken.add(number)
    return lines


def wanted_of(crowd):
    """For each destination the expected text by control id; and for each channel its expected counts."""
    wanted, counts = {name: {} for name in TIMES}, {}
    for channel in ROUTES:
        texts = [text for name, sender in crowd if name == channel for text in sender.texts]
        filtered = 0
        for text in texts:
            routes = [(to, is_changed) for to, _, is_true, is_changed in ROUTES[channel] if is_true(text)]
            filtered += not routes
            for to, is_changed in routes:
                wanted[to][field(text, b'MSH', 10)] = changed(text) if is_changed else text
        counts[channel] = channel_counts(len(texts), filtered=filtered, accepted=len(texts) - filtered)
    return wanted, counts


def wrong_deliveries(name, received, wanted):
    """What is wrong with a destination's messages. It has to get each one byte for byte and as often as TIMES says, with no other
    message between two attempts at the same one."""
    ids, lines = [field(text, b'MSH', 10) for text in received], []
    firsts = list(dict.fromkeys(ids))
    if (others := [text for key, text in zip(ids, received) if wanted.get(key) != text]):
        lines.append(f'{name} got {len(others)} texts that were not for it, the first is {others[0]}')
    if (lost := set(wanted) - set(firsts)):
        lines.append(f'{name} did not get {len(lost)} of {len(wanted)} messages, one is {min(lost)}')
    hung_up = [firsts[HUNG_UP]] if name == 'UP' and len(firsts) > HUNG_UP else []
    expected = [key for key in firsts for _ in range(TIMES[name] + (key in hung_up))]
    if ids != expected:
        at = next((n for n, (g, w) in enumerate(zip(ids, expected)) if g != w), min(len(ids), len(expected)))
        lines.append(f'{name} got {ids[at:at + 3]} as text {at} of {len(ids)}, not {expected[at:at + 3]} of {len(expected)}')
    return lines


def wrong_orders(peers, crowd):
    """What is wrong with the order of deliveries. All destinations have to get their messages in the same order. It keeps the
    order of each connection, and a message that was acknowledged before another one was sent comes before that one."""
    sent, answered, lines = {}, {}, []
    for _, sender in crowd:
        ids = [field(text, b'MSH', 10) for text in sender.texts]
        sent.update(zip(ids, sender.sent))
        answered.update(zip(ids, sender.answered))
    order = {name: {key: n for n, key in enumerate(dict.fromkeys(field(text, b'MSH', 10) for text in peer.received))}
             for name, peer in peers.items()}
    for name, positions in order.items():
        for _, sender in crowd:
            got = [positions[key] for key in (field(text, b'MSH', 10) for text in sender.texts) if key in positions]
            if got != sorted(got):
                lines.append(f'{name} got messages of one connection out of order')
                break
        earliest = float('inf')
        for key in reversed(positions):
            if sent.get(key, 0) > earliest:
                lines.append(f'{name} got {key} before a message that was acknowledged before it was sent')
                break
            earliest = min(earliest, answered.get(key, earliest))
        for other, others in order.items():
            got = [others[key] for key in positions if key in others]
            if got != sorted(got):
                lines.append(f'{name} and {other} got their common messages in two orders')
    return lines


def wrong_counts(counts, channels, wanted):
    lines = [f'channel {name}: {counts.get(("channel", name))}, not {expected}' for name, expected in channels.items()
             if counts.get(('channel', name)) != expected]
    for name, texts in wanted.items():
        got, all_of = counts.get(('destination', name), {}), len(texts)
        expected = destination_counts(0 if name == 'REJECTS' else all_of, failed=all_of if name == 'REJECTS' else 0,
                                      attempts=TIMES[name] * all_of)
        if name == 'UP':
            # At least one attempt failed while it was down. Where it hung up, the message was sent again within the attempt.
            expected['attempts'] = max(got.get('attempts', 0), all_of + 1)
        if got != expected:
            lines.append(f'destination {name}: {got}, not {expected}')
    return lines


def many_senders(program, folder, number, messages):
    """Many senders on three channels, and four destinations: one is down at first and hangs up once, one accepts at the third
    attempt, one rejects, and one doesn't acknowledge. Each accepted message is delivered to each destination that its channel
    routes it to, byte for byte, in the same order everywhere; acknowledgments and counts are as expected."""
    peers, ports, accept = destinations(), free_ports(3), -(-number // 3) + 4
    crowd = senders(ports, accept, messages)
    with Engine(program, plan_of(ports, peers), accept, folder) as engine:
        for _, sender in crowd:
            sender.start()
        # All messages of WEST go to UP, so a while after the first acknowledgment of WEST an attempt has failed.
        deadline = time.monotonic() + 60
        while not any(sender.replies for name, sender in crowd if name == 'WEST') and time.monotonic() < deadline:
            time.sleep(0.05)
        time.sleep(1.2)
        peers['UP'].open()
        for _, sender in crowd:
            sender.join(100)
        status, counts = engine.ended()
    wanted, channels = wanted_of(crowd)
    # What is written to a destination that doesn't acknowledge may still be on its way.
    deadline = time.monotonic() + 10
    while len(peers['SILENT'].received) < len(wanted['SILENT']) and time.monotonic() < deadline:
        time.sleep(0.05)
    for peer in peers.values():
        peer.close()
    lines = [] if status == 0 else [f'the status is {status}: {engine.warnings()[-5:]}']
    lines += wrong_acknowledgments(crowd, accept)
    for name, peer in peers.items():
        lines += wrong_deliveries(name, peer.received, wanted[name])
    lines += wrong_orders(peers, crowd)
    lines += wrong_counts(counts, channels, wanted)
    if any('77^^^H' in line or '20231114221300' in line for line in engine.log):
        lines.append('a line on standard error contains part of a message')
    return lines
