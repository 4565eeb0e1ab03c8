"""Scenes of a service whose book has little room: destinations that are down, and channels whose destination is up."""
import os
import time

from engine import plan
from mllp import Destination, Sender, field, free_ports, message
from served import LIMIT, Service, exchange, wait_received

ONE = ['attempts = 1', 'interval = 1']


def codes(replies):
    """The codes of acknowledgments (MSA-1), each once."""
    return {field(reply, b'MSA', 1) for reply in replies}


def logged(service, *words, limit=LIMIT):
    """Whether a line of the log has all these words, within `limit` seconds."""
    deadline = time.monotonic() + limit
    while time.monotonic() < deadline:
        if any(all(word in line for word in words) for line in service.log):
            return True
        time.sleep(0.05)
    return False


def two_down(program, folder):
    """Two of three destinations are down, and either takes less than half of the book. Their channels wait before the book is
    full, a message that waits is not acknowledged, and no message is refused. A third channel continues. When the two are up
    again, everything that was sent is delivered, in order."""
    ports, size = free_ports(3), 700
    up = Destination(lambda text, before: b'AA')
    down = [Destination(lambda text, before: b'AA', up=False) for _ in range(2)]
    text = plan([('A', ports[0], [('LAB', None, None)]), ('B', ports[1], [('RIS', None, None)]), ('C', ports[2], [('UP', None, None)])],
                [('LAB', down[0].port, ONE), ('RIS', down[1].port, ONE), ('UP', up.port, ONE)])
    sent = [[message(b'%c%d' % (65 + which, n)) for n in range(size)] for which in range(2)]
    found = []
    with Service(program, text, folder, '--events', '3000', '--keep', '50') as service:
        senders = [Sender(port, texts, in_flight=8) for port, texts in zip(ports, sent)]
        for sender in senders:
            sender.start()
        paused = logged(service, 'reading paused', 'channel=A') and logged(service, 'reading paused', 'channel=B')
        time.sleep(1)
        before = [len(sender.replies) for sender in senders]
        through = exchange(ports[2], [message(b'C%d' % n) for n in range(300)])
        delivered = wait_received(up, 300)
        still = [len(sender.replies) for sender in senders]
        for destination in down:
            destination.open()
        for sender in senders:
            sender.join(LIMIT)
        whole = all([wait_received(destination, size) for destination in down])
        service.ask('stop')
        status, _ = service.ended()
    up.close()
    for destination in down:
        destination.close()
    if not paused or not all(0 < number < size for number in before + still) or 3 * sum(still) > 2_400:
        found.append(f'two down: paused {paused}, {before} acknowledged, then {still}')
    if codes(through) != {b'CA'} or len(through) != 300 or not delivered:
        found.append(f'two down: {len(through)} acknowledged on the third channel, {codes(through)}, {len(up.received)} delivered')
    if codes(senders[0].replies + senders[1].replies) != {b'CA'} or not whole or status != 0:
        found.append(f'two down: {[codes(sender.replies) for sender in senders]}, {whole}, status {status}')
    if [list(dict.fromkeys(destination.received)) for destination in down] != sent:
        found.append('two down: not all was delivered in order')
    return found


def stops_while_it_waits(program, folder):
    """A message waits since its destination is crowded, and the service stops: the message is answered that there is no room,
    so its sender keeps it, and the service ends."""
    ports = free_ports(1)
    text = plan([('A', ports[0], [('LAB', None, None)])], [('LAB', free_ports(1)[0], ONE)])
    with Service(program, text, folder, '--events', '64') as service:
        sender = Sender(ports[0], [message(b'A%d' % n) for n in range(20)])
        sender.start()
        paused = logged(service, 'reading paused', 'channel=A')
        time.sleep(0.5)
        before = len(sender.replies)
        service.ask('stop now')
        status, _ = service.ended()
        sender.join(LIMIT)
    last = [field(reply, b'MSA', 1) for reply in sender.replies[before:]]
    if not paused or before != 11 or status != 5 or last not in ([], [b'CE']):
        return [f'stops while it waits: paused {paused}, {before} acknowledged, then {last}, status {status}']
    return []


def mostly_owed(program, folder):
    """More than seven eighths of the book are owed to destinations that are down. A channel whose destination is up
    continues: what is settled is forgotten where there is no room, though it is less than an eighth of the book."""
    ports, up = free_ports(3), Destination(lambda text, before: b'AA')
    text = plan([('A', ports[0], [('LAB', None, None)]), ('B', ports[1], [('RIS', None, None), ('PACS', None, None)]),
                 ('C', ports[2], [('UP', None, None)])],
                [('LAB', free_ports(1)[0], ['attempts = 60', 'interval = 1']), ('RIS', free_ports(1)[0], ['attempts = 70', 'interval = 1']),
                 ('PACS', free_ports(1)[0], ['attempts = 70', 'interval = 1']), ('UP', up.port, ONE)])
    with Service(program, text, folder, '--events', '1000', '--keep', '4') as service:
        held = exchange(ports[0], [message(b'A%d' % n) for n in range(5)]) + exchange(ports[1], [message(b'B')])
        through = []
        for n in range(20):
            through += exchange(ports[2], [message(b'C%d-%d' % (n, k)) for k in range(10)])
            wait_received(up, 10 * (n + 1))
        service.ask('stop now')
        status, _ = service.ended()
    up.close()
    if codes(held) != {b'CA'} or len(held) != 6 or codes(through) != {b'CA'} or len(up.received) != 200 or status != 5:
        return [f'mostly owed: {len(held)} held, {codes(held)}; {len(through)} through, {codes(through)}, {len(up.received)} '
                f'received, status {status}']
    return []


def filled_up(program, folder, store):
    """A service whose book is filled but for one entry by what is owed to three destinations that are down, after the message C0 of a
    fourth channel was delivered: its replies to C0, which is repeated and takes the last entry, to two more repeats of C0, to a new
    message and to another one with the control id of C0; what was delivered; and what `status` and `metrics` have of it."""
    ports, up, once = free_ports(4), Destination(lambda text, before: b'AA'), 'interval = 3600'
    text = plan([('A', ports[0], [('LAB', None, None)]), ('B', ports[1], [('RIS', None, None)]), ('C', ports[2], [('UP', None, None)]),
                 ('D', ports[3], [('PACS', None, None)])],
                [('LAB', free_ports(1)[0], ['attempts = 62', once]), ('RIS', free_ports(1)[0], ['attempts = 100', once]),
                 ('PACS', free_ports(1)[0], ['attempts = 43', once]), ('UP', up.port, ONE)])
    first, other = message(b'C0'), message(b'C0', ward=b'O')
    with Service(program, text, folder, '--events', '1000', '--keep', '50', store=store) as service:
        held = exchange(ports[2], [first])
        wait_received(up, 1)
        # 3 entries, 4 and 500 owed, 2 and 402 owed, 1 and 87 owed: 999 of 1,000.
        held += exchange(ports[0], [message(b'A%d' % n) for n in range(4)])
        held += exchange(ports[1], [message(b'B%d' % n) for n in range(2)]) + exchange(ports[3], [message(b'D')])
        replies = exchange(ports[2], [first, first, first, message(b'C1'), other, first])
        counted = service.ask('status') or [], service.ask('metrics') or []
        logged(service, 'INFO', 'message repeated, and not booked again: the book is full', 'control_id=C0')
        service.ask('stop now')
        status, _ = service.ended()
    up.close()
    return held, [field(reply, b'MSA', 1) for reply in replies], up.received == [first], counted, status, service.log


def repeats_without_room(program, folder):
    """A message that was acknowledged is sent again while the book is full, as where its acknowledgment was lost: it is acknowledged
    as a repeat, without being booked, and counted. A new message, and another one with its control id, are refused. So it is with a
    store, where the reply waits until what it repeats is on disk."""
    found = []
    for store in (None, os.path.join(folder, 'store')):
        held, replies, once, (status, metrics), end, log = filled_up(program, folder, store)
        counted = 'repeats unbooked 3' in status and 'hl7_repeats_unbooked_total 3' in metrics
        named = [line for line in log if 'message repeated, and not booked again: the book is full' in line]
        if codes(held) != {b'CA'} or replies != [b'CA', b'CA', b'CA', b'CE', b'CE', b'CA'] or not once or end != (0 if store else 5):
            found.append(f'repeats without room: store {store}, {codes(held)}, {replies}, delivered once {once}, status {end}')
        if not counted or not named or 'unbooked full 2 plan_changed 0 no_memory 0' not in status:
            found.append(f'repeats without room: store {store}, counted {counted}, {status}, {named}')
    return found


ROOM = [('two down', two_down), ('stops while it waits', stops_while_it_waits), ('mostly owed', mostly_owed),
        ('repeats without room', repeats_without_room)]
