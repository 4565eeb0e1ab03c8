"""Messages that are cancelled at some of their destinations, and lists of those that failed, around the built service."""
import time

from engine import one_channel
from mllp import SILENCE, Destination, free_ports, message
from served import Service, exchange, wait_received


def until(holds, limit=20):
    """Waits until a condition holds, and returns whether it did in time."""
    deadline = time.monotonic() + limit
    while not holds() and time.monotonic() < deadline:
        time.sleep(0.05)
    return holds()


def without_notes(lines):
    """The lines of `failed` without what is noted of each message beside the book."""
    return [line.partition('; ')[0] for line in lines or []]


def asked(name, service, exchanges):
    """What is wrong in the answers to commands, by what each has to be answered; of `failed`, but for what is noted beside the book."""
    found = []
    for command, wanted in exchanges:
        answer = service.ask(command)
        if command.startswith('failed '):
            answer = without_notes(answer)
        if answer != wanted:
            found.append(f'{name}: {command}: {answer}')
    return found


def in_flight(number, place):
    """The answer to the cancellation of a message in flight."""
    return [f'refused: message {number} is in flight at {place}: cancel it where it waits again after that attempt']


def logged(name, service, lines):
    """What is missing in the log of cancellations, where each line is wanted once."""
    found = []
    for text in lines:
        if not until(lambda text=text: sum(text in line for line in service.log) == 1):
            found.append(f'{name}: not logged once: {text}: {service.log[-8:]}')
    return found


def one_of_three(program, folder):
    """Of three destinations two are down and one is silent, so that a message waits at two and is in flight at the third. It is
    cancelled at the destination that the command names; where it would be cancelled at several, the command has to say which."""
    name, rad = 'one of three', Destination(lambda text, before: SILENCE)
    port, lab, ehr = free_ports(3)
    stays = 'in flight at RAD: that attempt goes on'
    text = one_channel(port, [('LAB', lab, []), ('EHR', ehr, []), ('RAD', rad.port, ['attempts = 3', 'timeout = 60'])])
    with Service(program, text, folder, '--grace', '1') as service:
        exchange(port, [message(b'A%d' % number) for number in range(3)])
        wait_received(rad, 1)
        found = asked(name, service, [
            ('cancel 0', ['refused: message 0 waits at LAB,EHR', 'to cancel it at one of them: cancel 0 NAME',
                          'to cancel it at each of them: cancel 0 all', stays]),
            ('cancel 0 RAD', in_flight(0, 'RAD')),
            ('cancel 0 EHR', ['cancelled EHR', stays]),
            ('cancel 0 EHR', ['refused: message 0 does not wait at EHR: failed cancelled']),
            ('cancel 0', ['cancelled LAB', stays]),
            ('cancel 0', in_flight(0, 'RAD')),
            ('cancel 0 all', in_flight(0, 'RAD')),
            ('cancel 1', ['refused: message 1 waits at LAB,EHR,RAD', 'to cancel it at one of them: cancel 1 NAME',
                          'to cancel it at each of them: cancel 1 all']),
            ('cancel 1 all', ['cancelled LAB', 'cancelled EHR', 'cancelled RAD']),
            ('cancel 1 all', ['refused: message 1 waits nowhere: it is delivered or failed at each of its destinations']),
            ('cancel 1 WARD', ['refused: the plan has no destination of that name']),
            ('cancel 2 LAB', ['cancelled LAB']),
            ('cancel 3', ['refused: there is no such message']), ('cancel 3 LAB', ['refused: there is no such message']),
            ('cancel 3 all', ['refused: there is no such message'])])
        states = [[line for line in service.ask(f'message {number}') if line.startswith('destination ')] for number in range(3)]
        found += logged(name, service, [
            'message=0 control_id=A0 destinations=EHR', 'message=0 control_id=A0 destinations=LAB',
            'message=1 control_id=A1 destinations=LAB,EHR,RAD', 'message=2 control_id=A2 destinations=LAB'])
        service.ask('stop now')
        service.ended()
    rad.close()
    wanted = [[' failed cancelled', ' failed cancelled', ' in flight attempt 1'], [' failed cancelled'] * 3,
              [' failed cancelled', ' waiting attempts 0 ', ' waiting attempts 0 ']]
    if not all(part in line for lines, parts in zip(states, wanted) for line, part in zip(lines, parts)):
        found.append(f'{name}: {states}')
    return found


def up_to_a_number(program, folder):
    """What waits at a destination is cancelled up to a number: nothing behind it, not the message in flight, and at no other
    destination. The command without a number only says what would be cancelled."""
    name, rad = 'up to a number', Destination(lambda text, before: SILENCE)
    port, lab = free_ports(2)
    text = one_channel(port, [('LAB', lab, []), ('RAD', rad.port, ['attempts = 3', 'timeout = 60'])])
    with Service(program, text, folder, '--grace', '1') as service:
        found = asked(name, service, [('cancel waiting LAB', ['waiting 0']), ('cancel waiting LAB through 7', ['cancelled 0'])])
        exchange(port, [message(b'A%d' % number) for number in range(4)])
        wait_received(rad, 1)
        found += asked(name, service, [
            ('cancel waiting LAB', ['waiting 4 from message 0 control_id A0 to message 3 control_id A3',
                                    'to cancel them: cancel waiting LAB through 3']),
            ('cancel waiting RAD', ['waiting 3 from message 1 control_id A1 to message 3 control_id A3',
                                    'message 0 is in flight, and not counted',
                                    'to cancel them: cancel waiting RAD through 3']),
            ('cancel waiting WARD', ['refused: the plan has no destination of that name']),
            ('cancel waiting WARD through 3', ['refused: the plan has no destination of that name'])])
        exchange(port, [message(b'A4')])
        found += asked(name, service, [
            ('cancel waiting LAB through 3', ['cancelled 4 from message 0 control_id A0 to message 3 control_id A3']),
            ('cancel waiting LAB through 3', ['cancelled 0']),
            ('cancel waiting RAD through 1', ['cancelled 1 from message 1 control_id A1 to message 1 control_id A1']),
            ('failed LAB', [f'message {number} control_id A{number} failed cancelled' for number in (3, 2, 1, 0)] + ['failed 4']),
            ('failed RAD', ['message 1 control_id A1 failed cancelled', 'failed 1'])])
        left = [service.ask(f'waiting {place}') for place in ('LAB', 'RAD')]
        found += logged(name, service, [
            'waiting messages cancelled destination=LAB messages=4 first=0 first_control_id=A0 last=3 last_control_id=A3',
            'waiting messages cancelled destination=RAD messages=1 first=1 first_control_id=A1 last=1 last_control_id=A1'])
        service.ask('stop now')
        service.ended()
    rad.close()
    if [[line.split()[1] for line in lines] for lines in left] != [['4', '1'], ['0', '2', '3', '4', '4']]:
        found.append(f'{name}: {left}')
    return found


def in_slices(program, folder):
    """What waits is cancelled, and what failed is counted, where it is more than is looked at in one slice, and the last hundred are
    listed; what was forgotten is counted and not listed."""
    name, (port, lab) = 'in slices', free_ports(2)
    with Service(program, one_channel(port, [('LAB', lab, [])]), folder, '--keep', '0', '--events', '200000') as service:
        exchange(port, [message(b'A%d' % number) for number in range(5_000)])
        found = asked(name, service, [
            ('cancel waiting LAB', ['waiting 5000 from message 0 control_id A0 to message 4999 control_id A4999',
                                    'to cancel them: cancel waiting LAB through 4999']),
            ('cancel waiting LAB through 4499', ['cancelled 4500 from message 0 control_id A0 to message 4499 control_id A4499'])])
        failed, waiting = without_notes(service.ask('failed LAB')), service.ask('waiting LAB')
        service.ask('prune')
        found += asked(name, service, [('failed LAB', ['failed 4500, of which 0 are remembered'])])
    wanted = [f'message {number} control_id A{number} failed cancelled' for number in range(4_499, 4_399, -1)] + ['failed 4500']
    if failed != wanted or len(waiting) != 101 or not waiting[0].startswith('message 4500 ') or waiting[-1] != 'waiting 500':
        found.append(f'{name}: {failed[:2]} .. {failed[-2:]}, {waiting[:1]} .. {waiting[-1:]}')
    return found


def why_they_failed(program, folder):
    """The messages that failed at a destination are listed with why, newest first; those delivered, waiting and in flight aren't."""
    name, codes = 'why they failed', {b'A0': b'AR', b'A1': b'AE', b'A2': b'AA'}
    lab, port = Destination(lambda text, before: codes.get(text.split(b'|')[9], SILENCE)), free_ports(1)[0]
    text = one_channel(port, [('LAB', lab.port, ['attempts = 1', 'timeout = 60'])])
    with Service(program, text, folder, '--grace', '1') as service:
        found = asked(name, service, [('failed LAB', ['failed 0'])])
        exchange(port, [message(b'A%d' % number) for number in range(6)])
        wait_received(lab, 4)
        found += asked(name, service, [
            ('cancel 4', ['cancelled LAB']),
            ('failed LAB', ['message 4 control_id A4 failed cancelled', 'message 1 control_id A1 failed no attempt left',
                            'message 0 control_id A0 failed rejected', 'failed 3']),
            ('failed WARD', ['refused: the plan has no destination of that name'])])
        service.ask('stop now')
        service.ended()
    lab.close()
    return found


CANCELS = [('cancelled at one of three', one_of_three), ('cancelled up to a number', up_to_a_number),
           ('cancelled in slices', in_slices), ('why messages failed', why_they_failed)]
