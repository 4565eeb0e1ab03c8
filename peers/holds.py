"""Destinations that an operator holds and releases, what was sent to a destination, and what is known of the connections, around the
built service."""
import os
import re
import stat
import time

from engine import one_channel, plan
from mllp import HANG_UP, Destination, field, free_ports, message
from served import LIMIT, Service, exchange, wait_received

# A store with a small bound is opened sooner.
SMALL = ('--events', '3000')
MOMENT = r'\d{4}-\d\d-\d\dT\d\d:\d\d:\d\dZ'


class Counted(Destination):
    """A destination that counts its connections."""

    connections = 0

    def _talk(self, connection):
        self.connections += 1
        super()._talk(connection)


def accepts(text, before):
    """The answer of a destination that accepts all."""
    return b'AA'


def until(holds, limit=LIMIT):
    """Waits until a condition holds, and returns whether it did in time."""
    deadline = time.monotonic() + limit
    while not holds() and time.monotonic() < deadline:
        time.sleep(0.05)
    return holds()


def logged(service, *words):
    """Whether a line of the log has all of these words, within ten seconds."""
    return until(lambda: any(all(word in line for word in words) for line in service.log), 10)


def asked(name, service, exchanges):
    """What is wrong in the answers to commands, by what each has to be answered."""
    found = []
    for command, wanted in exchanges:
        answer = service.ask(command)
        if answer != wanted:
            found.append(f'{name}: {command}: {answer}')
    return found


def deploy(service, folder, text):
    """Puts a plan in force. The answer."""
    path = os.path.join(folder, 'next.toml')
    with open(path, 'w', encoding='utf-8') as file:
        file.write(text)
    return service.ask(f'deploy {path}')


def number(service, line, word):
    """The number behind a word in the line of `status` that begins so, or -1."""
    for text in service.ask('status') or []:
        words = text.split()
        if text.startswith(line) and word in words:
            return int(words[words.index(word) + 1])
    return -1


def held(program, folder):
    """A destination that is held gets no byte and costs no attempt, while the others go on; what waits can be seen, and comes in order
    once it is released."""
    name, port, texts = 'held', free_ports(1)[0], [message(b'H%d' % n) for n in range(20)]
    lab, ehr = Counted(accepts), Destination(accepts)
    with Service(program, one_channel(port, [('LAB', lab.port, []), ('EHR', ehr.port, [])]), folder) as service:
        found = asked(name, service, [
            ('hold LAB', ['held LAB']), ('hold LAB', ['LAB is held already']), ('release EHR', ['EHR is not held']),
            ('hold RAD', ['refused: the plan has no destination of that name']),
            ('release RAD', ['refused: the plan has no destination of that name']),
            ('waiting LAB', ['held LAB', 'waiting 0'])])
        replies = exchange(port, texts)
        goes_on = wait_received(ehr, 20)
        time.sleep(1)
        silent, waiting = (lab.connections, lab.received), service.ask('waiting LAB')
        status, metrics = service.ask('status'), service.ask('metrics')
        lines = ['held LAB', 'destination LAB waiting 20 inflight 0 delivered 0 failed 0 attempts 0']
        if silent != (0, []) or not goes_on or {field(reply, b'MSA', 1) for reply in replies} != {b'CA'}:
            found.append(f'{name}: {silent}, {len(ehr.received)} of 20 at the other')
        if waiting[0] != 'held LAB' or not waiting[1].startswith('message 0 control_id H0 waiting attempts 0') or waiting[-1] != 'waiting 20':
            found.append(f'{name}: waiting: {waiting}')
        if any(line not in status for line in lines) or 'held EHR' in status:
            found.append(f'{name}: status: {status}')
        if any(f'hl7_destination_held{{destination="{place}"}} {value}' not in metrics for place, value in (('LAB', 1), ('EHR', 0))):
            found.append(f'{name}: metrics')
        found += asked(name, service, [('release LAB', ['released LAB']), ('release LAB', ['LAB is not held'])])
        whole = wait_received(lab, 20)
        if not logged(service, 'INFO destination held', 'destination=LAB') or not logged(service, 'INFO destination released', 'destination=LAB'):
            found.append(f'{name}: not logged: {service.log[-5:]}')
        service.ask('stop')
        ended, _ = service.ended()
    for destination in (lab, ehr):
        destination.close()
    if not whole or ended != 0 or lab.received != texts:
        found.append(f'{name}: {len(lab.received)} of 20 received, status {ended}')
    return found


def outlives(program, folder):
    """A hold outlives a deployment, a kill and a start; so does a release. What waits then comes in order."""
    name, port, store, texts = 'outlives', free_ports(1)[0], os.path.join(folder, 'store'), [message(b'O%d' % n) for n in range(10)]
    lab, rad, path = Destination(accepts), Destination(accepts), os.path.join(folder, 'store', 'holds')
    first = one_channel(port, [('LAB', lab.port, [])])
    second = one_channel(port, [('LAB', lab.port, ['interval = 1']), ('RAD', rad.port, [])])
    found, kept = [], []
    with Service(program, first, folder, *SMALL, store=store) as service:
        found += asked(name, service, [('hold LAB', ['held LAB'])])
        exchange(port, texts[:5])
        with open(path, 'rb') as file:
            kept.append((file.read(), stat.S_IMODE(os.stat(path).st_mode)))
        if deploy(service, folder, second) != ['deployed'] or 'held LAB' not in service.ask('status'):
            found.append(f'{name}: not held by the second plan')
        exchange(port, texts[5:])
        wait_received(rad, 5)
        service.process.kill()
        service.ended()
    with Service(program, second, folder, *SMALL, store=store) as service:
        is_logged = logged(service, 'WARN the destination is held since before the start', 'destination=LAB')
        time.sleep(1)
        state = (lab.received, service.ask('waiting LAB')[0], number(service, 'destination LAB', 'waiting'))
        if not is_logged or state != ([], 'held LAB', 10):
            found.append(f'{name}: after a start: logged {is_logged}, {state}')
        found += asked(name, service, [('release LAB', ['released LAB'])])
        whole = wait_received(lab, 10)
        service.process.kill()
        service.ended()
    with open(path, 'rb') as file:
        kept.append((file.read(), stat.S_IMODE(os.stat(path).st_mode)))
    with Service(program, second, folder, *SMALL, store=store) as service:
        released = 'held LAB' not in service.ask('status')
        service.ask('stop')
        status, _ = service.ended()
    for destination in (lab, rad):
        destination.close()
    if kept != [(b'LAB\n', 0o600), (b'', 0o600)] or (whole, released, status, lab.received[:10]) != (True, True, 0, texts):
        found.append(f'{name}: {kept}, {len(lab.received)} received, released {released}, status {status}')
    return found


def gone(program, folder):
    """A destination that a plan drops stays held, and is held again in a plan that has it. Another one in its place is not."""
    name, port = 'gone', free_ports(1)[0]
    lab, rad = Destination(accepts), Destination(accepts)
    with_both = one_channel(port, [('RAD', rad.port, []), ('LAB', lab.port, [])])
    turned = one_channel(port, [('LAB', lab.port, []), ('RAD', rad.port, [])])
    line = "held LAB, which the plan doesn't have: a destination of that name will be held until 'release LAB'"
    with Service(program, with_both, folder) as service:
        found = asked(name, service, [('hold LAB', ['held LAB'])])
        if line not in (deploy(service, folder, one_channel(port, [('RAD', rad.port, [])])) or []):
            found.append(f'{name}: no line of the name that is gone')
        deploy(service, folder, turned)
        exchange(port, [message(b'G0')])
        whole = wait_received(rad, 1)
        time.sleep(0.5)
        if not whole or lab.received or 'held LAB' not in service.ask('status') or 'held RAD' in service.ask('status'):
            found.append(f'{name}: {whole}, {lab.received}, {service.ask("status")}')
        deploy(service, folder, one_channel(port, [('RAD', rad.port, [])]))
        found += asked(name, service, [('release RAD', ['RAD is not held'])])
        service.ask('stop now')
        service.ended()
    for destination in (lab, rad):
        destination.close()
    return found


def at_the_end(program, folder):
    """`stop` doesn't wait for what is held, and ends where what it waits for is held meanwhile. In memory that is left and named, with
    a store it is delivered after the next start."""
    name, ports, store = 'at the end', free_ports(2), os.path.join(folder, 'store')
    lab, found = Destination(accepts), []
    text = one_channel(ports[0], [('LAB', lab.port, []), ('EHR', ports[1], ['interval = 1'])])
    with Service(program, one_channel(ports[0], [('LAB', lab.port, [])]), folder) as service:
        service.ask('hold LAB')
        exchange(ports[0], [message(b'E0')])
        began = time.monotonic()
        service.ask('stop')
        status, _ = service.ended()
        if status != 5 or time.monotonic() - began > 10 or not any('undelivered destination LAB message 0' in line for line in service.log):
            found.append(f'{name}: status {status}, {service.log[-3:]}')
    with Service(program, text, folder, *SMALL, store=store) as service:
        service.ask('hold LAB')
        exchange(ports[0], [message(b'E0'), message(b'E1')])
        service.ask('stop')
        waits = logged(service, 'stopping: messages wait for delivery', 'messages=EHR:2')
        found += asked(name, service, [('hold EHR', ['held EHR'])])
        status, _ = service.ended()
        if not waits or status != 0 or lab.received:
            found.append(f'{name}: waits for the other alone: {waits}, status {status}, {service.log[-3:]}')
    with Service(program, text, folder, *SMALL, store=store) as service:
        found += asked(name, service, [('release LAB', ['released LAB'])])
        whole = wait_received(lab, 2)
        service.ask('stop')
        status, _ = service.ended()
        if not whole or status != 0:
            found.append(f'{name}: {len(lab.received)} of 2 received, status {status}')
    lab.close()
    return found


def damaged(program, folder):
    """A file of held names that is damaged keeps a service from starting: status 7, and the line names it. A name that the plan doesn't
    have is logged, and stays."""
    name, port, store, found = 'damaged names', free_ports(1)[0], os.path.join(folder, 'store'), []
    text, path = one_channel(port, [('LAB', port + 1, [])]), os.path.join(store, 'holds')
    with Service(program, text, folder, *SMALL, store=store) as service:
        service.ask('stop')
        service.ended()
    for kept in (b'LAB', b'LAB\nLAB\n', b'LAB\n\n', b'L B\n', b'\xff\n', b'x' * 33 + b'\n'):
        with open(path, 'wb') as file:
            file.write(kept)
        with Service(program, text, folder, *SMALL, store=store) as service:
            service.process.stdin.close()
            status, _ = service.ended()
        if status != 7 or not any(line.startswith(f'store: {path}: damaged') for line in service.log):
            found.append(f'{name}: {kept[:9]}: status {status}, {service.log[-1:]}')
    with open(path, 'wb') as file:
        file.write(b'RAD\nLAB\n')
    with Service(program, text, folder, *SMALL, store=store) as service:
        is_logged = logged(service, "WARN a destination is held that the plan doesn't have", 'destination=RAD')
        found += asked(name, service, [('release RAD', ['released RAD'])])
        service.ask('stop')
        status, _ = service.ended()
    with open(path, 'rb') as file:
        kept = file.read()
    return found if (is_logged, status, kept) == (True, 0, b'LAB\n') else [*found, f'{name}: {is_logged}, status {status}, {kept}']


def sent_texts(program, folder):
    """`show N NAME` prints a message as it is sent to that destination, or that it doesn't go there; it is logged, and refused with
    --show off."""
    name, ports = 'sent texts', free_ports(4)
    text = plan([('ADT', ports[0], [('LAB', None, '{ set = ["PV1-2", "\u00dc"] }'), ('EHR', None, None),
                                    ('RAD', '{ equals = ["PV1-2", "O"] }', None)])],
                [('LAB', ports[1], []), ('EHR', ports[2], []), ('RAD', ports[3], [])])
    whole = ['  MSH|^~\\&|REG|HOSP|ENG|HUB|20231114221300||ADT^A01^ADT_A01|T0|P|2.5.1|||AL|NE', '  PID|1||77^^^H', '  PV1|1|I']
    with Service(program, text, folder) as service:
        exchange(ports[0], [message(b'T0')])
        found = asked(name, service, [
            ('show 0', whole), ('show 0 LAB', [*whole[:2], '  PV1|1|\\xC3\\x9C']), ('show 0 EHR', whole),
            ('show 0 RAD', ['refused: message 0 does not go to RAD']), ('show 1 LAB', ['no such message']),
            ('show 0 NONE', ['refused: the plan has no destination of that name'])])
        if not logged(service, 'INFO message shown', 'message=0', 'control_id=T0', 'destination=LAB'):
            found.append(f'{name}: not logged: {service.log[-5:]}')
    with Service(program, text, folder, '--show', 'off') as service:
        found += asked(name, service, [('show 0 LAB', ['refused: the service was started with --show off'])])
    return found


def links(program, folder):
    """`links` says whether a destination is connected and since when, why it failed last, and when it is tried next."""
    name, port, found = 'links', free_ports(1)[0], []
    lab = Destination(lambda text, before: HANG_UP if field(text, b'MSH', 10) == b'K1' else b'AA', up=False)
    with Service(program, one_channel(port, [('LAB', lab.port, ['interval = 2', 'attempts = 50'])]), folder) as service:
        def says(*forms):
            """Whether the line of the destination is of this form within a time."""
            whole = re.compile('link LAB ' + ''.join(forms))
            if not until(lambda: any(whole.fullmatch(line) for line in service.ask('links'))):
                found.append(f'{name}: {service.ask("links")} and not {whole.pattern}')
        says('never tried')
        exchange(port, [message(b'K0')])
        says(f'not connected; last fault {MOMENT}: can\'t connect: Connection refused .*; tried next at {MOMENT}')
        service.ask('hold LAB')
        says(f'not connected; last fault {MOMENT}: can\'t connect: .*; not tried while it is held')
        service.ask('release LAB')
        lab.open()
        wait_received(lab, 1)
        says(f'connected since {MOMENT}; last fault {MOMENT}: can\'t connect: Connection refused .*')
        lab.close()
        exchange(port, [message(b'K1')])
        says(f'not connected; last fault {MOMENT}: can\'t connect: Connection refused .*; tried (next at {MOMENT}|with the next message that is due)')
        again = Destination(accepts, port=lab.port)
        whole = wait_received(again, 1)
        says(f'connected since {MOMENT}; last fault {MOMENT}: .*')
        service.ask('stop')
        status, _ = service.ended()
    again.close()
    return found if whole and status == 0 else [*found, f'{name}: {len(again.received)} received, status {status}']


HOLDS = [('a destination is held', held), ('a hold outlives a kill', outlives), ('a held destination is gone', gone),
         ('a hold at the end', at_the_end), ('damaged names', damaged), ('texts as they are sent', sent_texts), ('links', links)]
