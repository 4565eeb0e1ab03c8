"""What is sent to a destination twice, late, or over a connection that is not its own, and what a sender sent over a connection that
it closed, around the built service."""
import socket
import threading
import time

from channels import beside
from engine import one_channel
from mllp import SILENCE, Destination, Sender, answer, block, blocks, field, free_ports, message
from outages import Proxy
from receivers import Receiver, accept, closes_unanswered, reset
from served import Service, exchange, wait_received

NINE = block(b'MSH|^~\\&|LAB') * 9


def lines_of(service, *words):
    """The lines that it logged with all these words."""
    return [line for line in service.log if all(word in line for word in words)]


def until(holds, limit=20):
    """Waits until a condition holds, and returns whether it did in time."""
    deadline = time.monotonic() + limit
    while not holds() and time.monotonic() < deadline:
        time.sleep(0.05)
    return holds()


def sent_again(program, folder):
    """A destination that reads a message over a kept connection and closes it gets the message again within the attempt, also where
    one attempt is allowed: that has a line, and is counted."""
    lab, port = Receiver(closes_unanswered), free_ports(1)[0]
    with Service(program, one_channel(port, [('LAB', lab.port, ['attempts = 1', 'timeout = 5'])]), folder) as service:
        exchange(port, [message(b'A0'), message(b'A1')])
        whole = wait_received(lab, 3)
        words = ('WARN', 'sent once more within the attempt', 'destination=LAB', 'control_id=A1', 'attempt=1')
        until(lambda: lines_of(service, *words))
        status, metrics = service.ask('status'), service.ask('metrics')
        service.ask('stop')
        end, lines = service.ended()
    lab.close()
    is_counted = 'sent again LAB 1' in status and 'hl7_destination_sent_again_total{destination="LAB"} 1' in metrics
    named = lines_of(service, 'sent once more within the attempt')
    if (whole, is_counted, end, len(named)) != (True, True, 0, 1) or not lines_of(service, *words):
        return [f'sent again: status {end}, {len(lab.received)} of 3 received, counted {is_counted}, {lines}, {service.log[-5:]}']
    return []


class Twice(Destination):
    """A destination that answers the messages of APPA twice, with CA and a little later with AA, and each of APPB when that comes
    for the second time. It counts its connections."""

    talks = 0

    def _talk(self, connection):
        self.talks += 1
        super()._talk(connection)

    def _answer(self, connection, text, response):
        if b'|APPA|' in text:
            connection.sendall(block(answer(text, b'CA')))
            threading.Timer(0.5, self._late, [connection, block(answer(text, b'AA'))]).start()
            return True
        return super()._answer(connection, text, response)

    @staticmethod
    def _late(connection, reply):
        try:
            connection.sendall(reply)
        except OSError:
            return


def second_answers(program, folder):
    """A destination's second answer to a message decides nothing of another sender's message with the same control id, which is not
    answered: that goes over a new connection, while another control id goes over the open one."""
    lab, port = Twice(lambda text, before: b'AA' if before else SILENCE), free_ports(1)[0]
    texts = [message(b'1001', sender=b'APPA'), message(b'1002', sender=b'APPA'), message(b'1001', sender=b'APPB')]
    with Service(program, one_channel(port, [('LAB', lab.port, ['timeout = 2', 'interval = 0'])]), folder) as service:
        exchange(port, texts)
        whole = wait_received(lab, 4, 10)
        service.ask('stop')
        status, lines = service.ended()
    lab.close()
    named = lines_of(service, 'no answer within 2 s', 'control_id=1001')
    if (whole, status, lab.received) != (True, 0, [*texts, texts[2]]) or len(named) != 1 or lab.talks != 3:
        return [f'second answers: status {status}, {len(lab.received)} of 4 received over {lab.talks} connections, {lines}, '
                f'{service.log[-5:]}']
    return []


def talks_first(receiver, connection):
    """Reads a message over the first connection, and closes that; over each other one, sends nine blocks before it reads."""
    if receiver.connections == 1:
        next(receiver.texts(connection))
        return
    connection.sendall(NINE)
    for text in receiver.texts(connection):
        accept(connection, text)


def blocks_at_first(program, folder):
    """Nine blocks that have arrived on a new connection before anything is sent over it are no answers to what is sent."""
    lab, port = Receiver(talks_first), free_ports(1)[0]
    more = ['attempts = 2', 'interval = 0', 'timeout = 2']
    with Service(program, one_channel(port, [('LAB', lab.port, more)]), folder) as service:
        exchange(port, [message(b'A0'), message(b'A1')])
        whole = wait_received(lab, 3, 10)
        service.ask('stop')
        status, lines = service.ended()
    lab.close()
    if (whole, status) != (True, 0) or 'failed 0' not in ' '.join(lines) or lines_of(service, 'message failed'):
        return [f'blocks at first: status {status}, {len(lab.received)} of 3 received, {lines}, {service.log[-5:]}']
    return []


def reads_to_the_end(ends):
    """Reads messages, answers those of ward E with AE and no other, and notes how the connection ends."""
    def talk(receiver, connection):
        try:
            for text in receiver.texts(connection):
                if b'PV1|1|E' in text:
                    connection.sendall(block(answer(text, b'AE')))
            ends.append('in order')
        except ConnectionResetError:
            ends.append('reset')
    return talk


def given_up(program, folder):
    """A connection that is given up since no answer was received in time is reset, and the line of the message says that it may
    have been received; that of one that was answered AE doesn't."""
    ends, port = [], free_ports(1)[0]
    lab = Receiver(reads_to_the_end(ends))
    with Service(program, one_channel(port, [('LAB', lab.port, ['attempts = 1', 'timeout = 1'])]), folder) as service:
        exchange(port, [message(b'LATE'), message(b'WRONG', ward=b'E')])
        until(lambda: len(ends) == 1 and lines_of(service, 'message failed', 'control_id=WRONG'))
        service.ask('stop')
        status, lines = service.ended()
    lab.close()
    late = lines_of(service, 'no attempt is left (no answer within 1 s); it may have been received, or be received late', 'control_id=LATE')
    wrong = [line for line in lines_of(service, 'no attempt is left (answered AE)', 'control_id=WRONG') if 'may have' not in line]
    if (ends[:1], status, len(late), len(wrong)) != (['reset'], 0, 1, 1):
        return [f'given up: status {status}, ended {ends}, {lines}, {service.log[-5:]}']
    return []


class Holding(Proxy):
    """A proxy whose server answers no connect: it accepts connections, and closes each once its own wait is over. The first one it
    closes as soon as it has read something."""

    WAIT = 10.3

    def _join(self, connection):
        with connection:
            connection.settimeout(self.WAIT)
            began, is_first = time.monotonic(), self.accepted == 1
            try:
                while connection.recv(65_536) and not is_first:
                    connection.settimeout(max(0.01, began + self.WAIT - time.monotonic()))
            except socket.timeout:
                return


def held_by_a_proxy(program, folder):
    """While a destination doesn't answer, and a proxy before it holds each connection for longer than ten seconds, two of three
    attempts are spent and no third: each new connection is watched for longer than the one before."""
    proxy, port = Holding(0), free_ports(1)[0]
    more = ['attempts = 3', 'interval = 0', 'timeout = 11']
    with Service(program, one_channel(port, [('LAB', proxy.port, more)]), folder) as service:
        exchange(port, [message(b'A0')])
        named = until(lambda: lines_of(service, 'right after it was connected'), 30)
        time.sleep(1)
        status = service.ask('status')
        service.ask('stop now')
        service.ended()
    proxy.close()
    fronts = [line for line in status or [] if line.startswith('front LAB')]
    if not named or not fronts or 'attempts 2' not in fronts[0] or proxy.accepted != 4:
        return [f'held by a proxy: {fronts}, {proxy.accepted} connections, {service.log[-6:]}']
    return []


def closed_in_a_pause(program, folder):
    """While a channel isn't read, one sender resets its connection, and one shuts its sending side and waits. Once it is read again,
    nothing of the first connection is booked, so that what its sender sends over another one comes behind nothing of it; the other
    sender gets its CA."""
    lab, port = Destination(lambda text, before: b'AA', up=False), free_ports(1)[0]
    held, old, new = ([message(b'%s%d' % (letter, n)) for n in range(count)] for letter, count in ((b'H', 90), (b'O', 50), (b'N', 5)))
    more = ['attempts = 1', 'interval = 1']
    with Service(program, one_channel(port, [('LAB', lab.port, more)]), folder, '--events', '400', '--keep', '10') as service, \
            socket.create_connection(('127.0.0.1', port), timeout=30) as half:
        filling = Sender(port, held)
        filling.start()
        paused = until(lambda: lines_of(service, 'reading paused'))
        half.sendall(block(message(b'HALF')))
        half.shutdown(socket.SHUT_WR)
        with socket.create_connection(('127.0.0.1', port), timeout=30) as first:
            first.sendall(b''.join(map(block, old)))
            time.sleep(0.3)
            reset(first)
        named = until(lambda: lines_of(service, 'reading from the sender failed'), 5)
        second = Sender(port, new)
        second.start()
        lab.open()
        for sender in (second, filling):
            sender.join(30)
        reply = next(blocks(half), b'')
        wait_received(lab, 96)
        service.ask('stop')
        status, _ = service.ended()
    lab.close()
    got = [text for text in lab.received if text in old]
    if (bool(paused and named), status, field(reply, b'MSA', 1), len(second.replies), got) != (True, 0, b'CA', 5, []):
        return [f'closed in a pause: {paused} {named}, status {status}, {reply}, {len(second.replies)} of 5 answered, {len(got)} received '
                f'of a connection that was reset, {service.log[-6:]}']
    return []


def sendings(program, folder):
    """All of them at the same time."""
    return beside([sent_again, second_answers, blocks_at_first, given_up, held_by_a_proxy, closed_in_a_pause], program, folder)


SENDINGS = [('sendings', sendings)]
