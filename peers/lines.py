"""The log lines: each refusal and each failure of a run, provoked once, has a line on standard error with its control id."""
import socket
import time

from engine import Engine, one_channel, plan
from mllp import SILENCE, Destination, HANG_UP, Sender, answer, block, free_ports, message

# A patient's name that each message contains and no log line may contain.
PATIENT = b'SECRETNAME^PAT'
TOO_LONG = 1_048_577


def admission(control_id, **more):
    return message(control_id, **more).replace(b'\rPV1', b'\rPV1', 1).replace(b'||77^^^H', b'||77^^^H||' + PATIENT, 1)


def refusals():
    """The texts to send, each with the control id, the words that its log line has to contain, and the fields."""
    first = admission(b'L-FIRST')
    return [
        (first, b'', ''),
        (first, b'L-FIRST', 'message repeated'),
        (admission(b'L-FIRST', ward=b'E'), b'L-FIRST', 'message refused: IdReused'),
        (admission(b'L-TYPE', kind=b'ORU^R01^ORU_R01'), b'L-TYPE', 'message refused: UnsupportedType'),
        (admission(b'L-PROC').replace(b'|P|2.5.1', b'|D|2.5.1'), b'L-PROC', 'message refused: UnsupportedProcessing'),
        (admission(b'L-VERS', version=b'2.3'), b'L-VERS', 'message refused: UnsupportedVersion'),
        (admission(b''), b'', 'message refused: MissingControlId'),
        (admission(b'L-LONG' + b'x' * 200), b'L-LONG' + b'x' * 58 + b'..', 'message refused: BadControlId'),
        (admission(b'L-STEP').replace(b'\rPV1|1|I', b'', 1), b'L-STEP',
         'message refused: SourceTransform, the message has no such segment', 'step=1'),
        (admission(b'L-ROUTE', ward=b'X'), b'L-ROUTE',
         'message refused: RouteTransform, the value is not in the table, and there is no default', 'route=LAB', 'step=2'),
        (b'PID|1||' + PATIENT + b'\r', None, 'text unreadable: the text has no header segment'),
        (admission(b'L-SEG') + b'pid|2\r', None, 'text unreadable: a segment has a bad name', 'segment=4'),
        (answer(first, b'AA'), b'L-FIRST', 'acknowledgment received and dropped'),
        (admission(b'L-FEED').replace(b'\r', b'\n'), b'L-FEED', 'MSH holds a line feed'),
    ]


def broken():
    """Bytes that form no valid block, each with the words of its log line."""
    return [(b'\x0bMSH|\x0b', 'block broken: a start block character in its data'),
            (b'\x1cx', 'block broken: an end block character that no carriage return follows'),
            (block(b'x' * TOO_LONG), 'block broken: more than 1048576 bytes of data')]


def is_logged(lines, control_id, words, *fields):
    """Whether one of the lines contains these words, these fields, and the control id, if one is given."""
    keys = list(fields) if control_id is None else [f'control_id={control_id.decode()}', *fields]
    return any(words in line and all(key in line.split(' ') for key in keys) for line in lines)


def refused_messages(program, folder):
    """Each refusal, repeat, unreadable text and broken block received on a connection has its log line."""
    ports = free_ports(2)
    lab = Destination(lambda text, before: b'AA')
    steps = '{ set = ["PV1-3", "W"] }'
    route = '{ set = ["PV1-4", "R"] }, { lookup = "PV1-2", table = [["I", "IN"], ["E", "EM"]] }'
    text = plan([('ADT', ports[0], [('LAB', None, route)])], [('LAB', lab.port, [])])
    text = text.replace('[[channel.route]]', f'steps = [{steps}]\n[[channel.route]]')
    cases = refusals()
    with Engine(program, text, 1, folder) as engine:
        with socket.create_connection(('127.0.0.1', ports[0]), timeout=30) as connection:
            for data, *_ in cases:
                connection.sendall(block(data))
            for data, _ in broken():
                connection.sendall(data)
            connection.shutdown(socket.SHUT_WR)
            while connection.recv(65_536):
                pass
        status, _ = engine.ended(30)
    lab.close()
    lines = [f'no line says {words!r} of {control_id}' for _, control_id, words, *fields in cases
             if words and not is_logged(engine.log, control_id, words, *fields)]
    lines += [f'no line says {words!r}' for _, words in broken() if not is_logged(engine.log, None, words)]
    if status != 0:
        lines.append(f'refused messages: status {status}')
    return lines + leaks(engine.log)


def leaks(log):
    """The log lines that contain a patient's data, and those that have no time and level."""
    lines = [f'a line contains a patient\'s data: {line}' for line in log if 'SECRET' in line]
    for line in log:
        words = line.split(' ')
        plain = line.startswith(('listening on ', 'warning: ', 'note: ', 'channel ', 'destination ', 'device: '))
        if not plain and not (len(words) > 2 and words[0].endswith('Z') and words[1] in ('INFO', 'WARN')):
            lines.append(f'a line has no time and level: {line}')
    return lines


def full_book(program, folder):
    """A message for which the book has no room is logged."""
    ports = free_ports(2)
    text = plan([('ADT', ports[0], [('LAB', None, None)])], [('LAB', ports[1], ['attempts = 1', 'interval = 0', 'timeout = 1'])])
    with Engine(program, text, 1, folder, events=6) as engine:
        sender = Sender(ports[0], [admission(b'F%d' % n) for n in range(4)])
        sender.run()
        status, _ = engine.ended(60)
    lines = []
    if not is_logged(engine.log, b'F3', 'message not booked: Full') and not any('not booked: Full' in line for line in engine.log):
        lines.append(f'no line says that the book is full: {engine.log}')
    if status != 0:
        lines.append(f'a full book: status {status}')
    return lines + leaks(engine.log)


def filling_book(program, folder):
    """A book that is more than 80 or 90 percent full is logged as that. The destination doesn't answer, so the first message
    stays in flight and owes a settlement; each of the others owes a take, a settlement and a cancellation. With the 17th entry,
    the arrival of the 16th message, 17 are held and 46 are owed."""
    found = []
    for events, line in ((76, 'book above 80 % of its entries'), (69, 'book above 90 % of its entries')):
        lab, port = Destination(lambda text, before: SILENCE), free_ports(1)[0]
        text = one_channel(port, [('LAB', lab.port, ['attempts = 1', 'timeout = 60'])])
        with Engine(program, text, 2, folder, events=events) as engine:
            Sender(port, [admission(b'F0')]).run()
            deadline = time.monotonic() + 20
            while not lab.received and time.monotonic() < deadline:
                time.sleep(0.01)
            Sender(port, [admission(b'F%d' % n) for n in range(1, 16)]).run()
            if not engine.wait_logged('WARN', line, f'events_max={events}'):
                found.append(f'a filling book: no line "{line}": {engine.log}')
            found += leaks(engine.log)
        lab.close()
    return found
