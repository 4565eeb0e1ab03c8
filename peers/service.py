#!/usr/bin/env python3
"""Plays senders, destinations and an operator around the built service, over loopback, and compares its output with its
input.

Usage: peers/service.py [PROGRAM] [--only WORD]

PROGRAM is the built service, by default crates/hl7_service/out/hl7_service ('rt run' in crates/hl7_service builds it).
Plain Python 3, no packages. The exit status is 0 if every check passes, else 1. Each failure is printed on a line of its own.
"""
import argparse
import os
import resource
import select
import shutil
import socket
import subprocess
import sys
import tempfile
import threading
import time

from cancels import CANCELS
from engine import checks_accesses, one_channel, plan
from holds import HOLDS
from notes import NOTES
from mllp import SILENCE, Destination, Sender, block, field, free_ports, message
from operators import OPERATORS
from outages import OUTAGES
from room import ROOM
from sendings import SENDINGS
from supervised import SUPERVISED
from served import LIMIT, Service, exchange, wait_received
from web import WEB

PROGRAM = os.path.join(os.path.dirname(os.path.abspath(__file__)), '..', 'crates', 'hl7_service', 'out', 'hl7_service')


class Closing(Destination):
    """A destination that closes its connection after each answer."""

    def _answer(self, connection, text, response):
        super()._answer(connection, text, response)
        return False


class Chatting(Destination):
    """A destination that sends blocks all the time, without being sent anything. It counts its connections."""

    talks = 0

    def _talk(self, connection):
        self.talks += 1
        threading.Thread(target=self._chat, args=(connection,), daemon=True).start()
        super()._talk(connection)

    def _chat(self, connection):
        try:
            while not self.closed:
                connection.sendall(block(b'MSH|^~\\&|LAB') * 50)
                time.sleep(0.0002)
        except OSError:
            return


def taken_again(program, folder):
    """With one connection allowed, connections are served one after another; each acknowledgment has its own MSH-10, and `stop`
    delivers every message."""
    lab, port = Destination(lambda text, before: b'AA'), free_ports(1)[0]
    texts = [message(b'A%d' % n) for n in range(100)]
    with Service(program, one_channel(port, [('LAB', lab.port, [])]), folder, '--connections', '1') as service:
        replies = [reply for text in texts for reply in exchange(port, [text])]
        answer = service.ask('stop')
        status, lines = service.ended()
    lab.close()
    codes = {field(reply, b'MSA', 1) for reply in replies}
    ids = {field(reply, b'MSH', 10) for reply in replies}
    if (status, codes, len(ids), lab.received) != (0, {b'CA'}, 100, texts):
        return [f'taken again: status {status}, {answer}, {lines}, codes {codes}, {len(ids)} ids, {len(lab.received)} received']
    return []


def commands(program, folder):
    """Each command is answered, even an unknown one and one that is too long, and the service survives the end of its input."""
    lab, port = Destination(lambda text, before: b'AA'), free_ports(1)[0]
    os.mkfifo(os.path.join(folder, 'fifo'))
    with Service(program, one_channel(port, [('LAB', lab.port, [])]), folder) as service:
        exchange(port, [message(b'A0')])
        wait_received(lab, 1)
        found = []
        for command, begins in [('status', 'channel ADT '), ('status \r', 'channel ADT '), ('help', 'status '),
                                ('x', 'unknown: '), ('stop ' * 2_000, 'unknown: '),
                                ('deploy /nowhere', 'refused: file /nowhere: '),
                                (f'deploy {folder}/fifo', f'refused: file {folder}/fifo: '),
                                ('deploy /dev/zero', 'refused: file /dev/zero: '), ('cancel 7', 'refused: '),
                                (f'deploy {service.path}', 'deployed')]:
            answer = service.ask(command)
            if not answer or not answer[0].startswith(begins):
                found.append(f'commands: {command[:20]!r}: {answer}')
        service.process.stdin.close()
        time.sleep(0.5)
        if exchange(port, [message(b'A1')]) and service.process.poll() is not None:
            found.append('commands: the end of input ended the service')
    lab.close()
    return found


def moved(program, folder):
    """A destination whose address is changed by a deployment while messages wait gets all of them, in order."""
    ports = free_ports(2)
    lab = Destination(lambda text, before: b'AA')
    more = ['attempts = 100', 'interval = 1', 'timeout = 5']
    texts = [message(b'A%d' % n) for n in range(50)]
    with Service(program, one_channel(ports[0], [('LAB', ports[1], more)]), folder) as service:
        exchange(ports[0], texts)
        with open(service.path, 'w', encoding='utf-8') as file:
            file.write(one_channel(ports[0], [('LAB', lab.port, more)]))
        answer = service.ask(f'deploy {service.path}')
        whole = wait_received(lab, 50)
        is_logged = until(lambda: any('plan deployed' in line for line in service.log))
        service.ask('stop')
        status, _ = service.ended()
    lab.close()
    if (answer, whole, is_logged, status, lab.received) != (['deployed'], True, True, 0, texts):
        return [f'moved: {answer}, logged {is_logged}, status {status}, {len(lab.received)} of 50 received']
    return []


def deployed_under_load(program, folder):
    """Plans that are deployed while messages arrive on four connections cost hardly a sender an error: each message is acknowledged
    CA and delivered once, but for a few at most for which two plans were deployed while one was judged, as on a busy machine:
    these are answered PlanChanged, and not delivered."""
    port, lab = free_ports(1)[0], Destination(lambda text, before: b'AA')
    plans = [one_channel(port, [('LAB', lab.port, [f'interval = {interval}'])]) for interval in (1, 2)]
    senders = [Sender(port, [message(b'%c%d' % (letter, n)) for n in range(500)]) for letter in b'ABCD']
    answers = []
    with Service(program, plans[0], folder) as service:
        for sender in senders:
            sender.start()
        while any(sender.is_alive() for sender in senders) and len(answers) < 300:
            with open(service.path, 'w', encoding='utf-8') as file:
                file.write(plans[len(answers) % 2])
            answers.append(service.ask(f'deploy {service.path}'))
        for sender in senders:
            sender.join(LIMIT)
        pairs = [pair for sender in senders for pair in zip(sender.texts, sender.replies)]
        taken = [text for text, reply in pairs if field(reply, b'MSA', 1) == b'CA']
        whole = wait_received(lab, len(taken))
        service.ask('stop')
        status, _ = service.ended()
    lab.close()
    codes = {(field(reply, b'MSA', 1), field(reply, b'MSA', 3)) for _, reply in pairs}
    if not (codes <= {(b'CA', b''), (b'CE', b'PlanChanged')} and len(pairs) == 2_000 and len(taken) >= 1_990 and whole
            and status == 0 and sorted(lab.received) == sorted(taken) and ['deployed'] in answers):
        return [f'deployed under load: codes {codes}, {len(answers)} deployed, status {status}, {len(taken)} acknowledged CA, '
                f'{len(lab.received)} received']
    return []


def renamed(program, folder):
    """A deployment that reorders, renames or removes destinations says whose counts are shown under which name."""
    port = free_ports(1)[0]
    labs = [Destination(lambda text, before: b'AA') for _ in range(2)]
    one, two = labs[0].port, labs[1].port
    with Service(program, one_channel(port, [('LAB', one, []), ('WARD', two, [])]), folder) as service:
        exchange(port, [message(b'A0')])
        wait_received(labs[0], 1)
        until(lambda: number(service, 'destination WARD ', 'delivered') == 1 and number(service, 'destination LAB ', 'delivered') == 1)
        found = []
        for places, wanted in [
                ([('LAB', one, []), ('WARD', two, []), ('RAD', one, [])], []),
                ([('WARD', two, []), ('LAB', one, [])],
                 ["destination[0] was LAB and is WARD: the counts and states of its messages are shown as WARD's",
                  "destination[1] was WARD and is LAB: the counts and states of its messages are shown as LAB's"]),
                ([('WARD', two, [])],
                 ['destination[1] was LAB and is gone: the counts and states of its messages are no longer shown']),
                ([('WARD', two, []), ('RAD', one, [])],
                 ["destination[1] is RAD: the counts and states of a former destination's messages are shown as RAD's"])]:
            with open(service.path, 'w', encoding='utf-8') as file:
                file.write(one_channel(port, places))
            answer = service.ask(f'deploy {service.path}')
            if answer != ['deployed', *wanted]:
                found.append(f'renamed: {answer} and not {wanted}')
        for wanted in ['index=0 before=LAB now=WARD', 'index=1 before=LAB', 'index=1 now=RAD']:
            if not until(lambda: any('WARN' in line and wanted in line for line in service.log), 5):
                found.append(f'renamed: not logged: {wanted}: {service.log[-8:]}')
        service.ask('stop')
        status, _ = service.ended()
    for lab in labs:
        lab.close()
    return found if status == 0 else [*found, f'renamed: status {status}']


def warned(program, folder):
    """The answer to a deployment has the warnings that `check` prints of the plan, and where a plan is refused its notes of the fault."""
    port, found = free_ports(1)[0], []
    with Service(program, one_channel(port, [('LAB', port + 1, [])]), folder) as service:
        for text in [one_channel(port, [('LAB', 70_000, [])]), one_channel(port, [('LAB', port, [])]),
                     one_channel(port, [('LAB', port + 1, [])]).replace('types = ["ADT"]', 'types = []')]:
            with open(service.path, 'w', encoding='utf-8') as file:
                file.write(text)
            checked = subprocess.run([program, 'check', service.path], capture_output=True, timeout=LIMIT, check=False)
            wanted = [line for line in checked.stderr.decode().splitlines() if line.startswith('warning: ')]
            answer = service.ask(f'deploy {service.path}')
            if not wanted or answer != ['deployed', *wanted]:
                found.append(f'warned: {answer} and not {wanted}')
        for text in ['[[channel]\n', one_channel(port, [('LAB', port + 1, [])]).replace('types = ["ADT"]', 'types = [7]')]:
            with open(service.path, 'w', encoding='utf-8') as file:
                file.write(text)
            checked = subprocess.run([program, 'check', service.path], capture_output=True, timeout=LIMIT, check=False)
            wanted = [line for line in checked.stderr.decode().splitlines() if 'line ' in line or not line.startswith('plan: ')]
            first, *notes = service.ask(f'deploy {service.path}')
            if not wanted or not first.startswith('refused: ') or notes != wanted:
                found.append(f'refused: {first}, {notes} and not {wanted}')
        service.ask('stop')
        status, _ = service.ended()
    return found if status == 0 else [*found, f'warned: status {status}']


def closing(program, folder):
    """A destination that closes its connection after each answer gets every message, in order."""
    lab, port = Closing(lambda text, before: b'AA'), free_ports(1)[0]
    more = ['attempts = 100', 'interval = 0', 'timeout = 5']
    texts = [message(b'A%d' % n) for n in range(50)]
    with Service(program, one_channel(port, [('LAB', lab.port, more)]), folder) as service:
        exchange(port, texts)
        whole = wait_received(lab, 50)
        service.ask('stop')
        status, _ = service.ended()
    lab.close()
    return [] if (whole, status) == (True, 0) else [f'closing: status {status}, {len(lab.received)} of 50 received']


def stopped_now(program, folder):
    """A silent destination doesn't delay `stop now`, and the exit status shows that messages are left undelivered."""
    lab, port = Destination(lambda text, before: SILENCE), free_ports(1)[0]
    more = ['attempts = 5', 'interval = 1', 'timeout = 60']
    with Service(program, one_channel(port, [('LAB', lab.port, more)]), folder, '--grace', '1') as service:
        exchange(port, [message(b'A%d' % n) for n in range(5)])
        wait_received(lab, 1)
        cancelled = service.ask('cancel 0')
        began = time.monotonic()
        service.ask('stop now')
        status, lines = service.ended()
        passed = time.monotonic() - began
    lab.close()
    if status != 5 or passed > 10:
        return [f'stopped now: status {status} after {passed:.1f} seconds, {lines}, {service.log[-5:]}']
    if not cancelled or not cancelled[0].startswith('refused: message 0 is in flight at LAB'):
        return [f'stopped now: a message in flight: {cancelled}']
    return []


def few_descriptors(program, folder):
    """A channel continues after the system has refused it descriptors for a while."""
    lab, port = Destination(lambda text, before: b'AA'), free_ports(1)[0]
    with Service(program, one_channel(port, [('LAB', lab.port, [])]), folder, '--connections', '4') as service:
        exchange(port, [message(b'A0')])
        wait_received(lab, 1)
        _, allowed = resource.prlimit(service.process.pid, resource.RLIMIT_NOFILE)
        resource.prlimit(service.process.pid, resource.RLIMIT_NOFILE, (3, allowed))
        with socket.create_connection(('127.0.0.1', port), timeout=5):
            time.sleep(0.5)
        resource.prlimit(service.process.pid, resource.RLIMIT_NOFILE, (1_024, allowed))
        replies = exchange(port, [message(b'A1')])
        whole = wait_received(lab, 2)
        service.ask('stop')
        status, _ = service.ended()
    lab.close()
    codes = [field(reply, b'MSA', 1) for reply in replies]
    return [] if (codes, whole, status) == ([b'CA'], True, 0) else [f'few descriptors: {codes}, {whole}, status {status}']


def counts(service):
    """The answer to `status`: the further words of each line, by its first two words."""
    return {' '.join(line.split()[:2]): line.split()[2:] for line in service.ask('status') or []}


def number(service, line, word):
    """The number after `word` in the line of `status` that starts with `line`, or -1 if there is none."""
    for text in service.ask('status') or []:
        words = text.split()
        if text.startswith(line) and word in words:
            return int(words[words.index(word) + 1])
    return -1


def until(holds, limit=LIMIT):
    """Waits until `holds()` is true, for `limit` seconds at most, and returns whether it is."""
    deadline = time.monotonic() + limit
    while time.monotonic() < deadline:
        if holds():
            return True
        time.sleep(0.05)
    return False


def questions(program, folder):
    """Messages are found by number, control id and queue, and the metrics are there for Prometheus."""
    ports = free_ports(2)
    with Service(program, one_channel(ports[0], [('LAB', ports[1], ['interval = 1'])]), folder, '--events', '400') as service:
        exchange(ports[0], [message(b'A%d' % n) for n in range(3)] + [message(b'A1', ward=b'O')])
        found = []
        for command, wanted in [
                ('find A1', ['message 1', 'found 1']), ('find \\x411', ['message 1', 'found 1']),
                ('find B', ['found 0']), ('message 3', ['no such message']),
                ('cancel 2', ['cancelled LAB']),
                ('cancel 2', ['refused: message 2 waits nowhere: it is delivered or failed at each of its destinations']),
                ('waiting NOWHERE', ['refused: the plan has no destination of that name'])]:
            answer = service.ask(command)
            if answer != wanted:
                found.append(f'questions: {command}: {answer}')
        wanted = 'message=2 control_id=A2 destinations=LAB'
        if not until(lambda: any('message cancelled' in line and wanted in line for line in service.log)):
            found.append(f'questions: a cancellation that is not logged: {service.log[-5:]}')
        waiting = service.ask('waiting LAB')
        if len(waiting) != 3 or not waiting[0].startswith('message 0 control_id A0 waiting attempts 0 due ') or waiting[-1] != 'waiting 2':
            found.append(f'questions: waiting: {waiting}')
        details = service.ask('message 1')
        if details[1:8] != ['channel ADT', 'connection 0', 'sending_application REG', 'sending_facility HOSP',
                            'message_type ADT^A01', 'control_id A1', f'length {len(message(b"A1"))}']:
            found.append(f'questions: message: {details}')
        if not details[-1].startswith('destination LAB waiting attempts 0 due '):
            found.append(f'questions: state: {details[-1]}')
        metrics = service.ask('metrics')
        for line in ['hl7_channel_accepted_total{channel="ADT"} 3', 'hl7_destination_waiting_messages{destination="LAB"} 2',
                     'hl7_destination_failed_total{destination="LAB"} 1', '# TYPE hl7_book_held_entries gauge']:
            if line not in metrics:
                found.append(f'questions: metrics without {line}')
        names = [line.split()[2] for line in metrics if line.startswith('# TYPE ')]
        if len(set(names)) != len(names):
            found.append('questions: a metric has two types')
        pruned = service.ask('prune')
        if pruned[-1] != 'message 0 is not delivered yet: it is kept, and so are those after it':
            found.append(f'questions: prune: {pruned}')
        again, left = service.ask('prune'), number(service, 'prunings', 'left')
        if again != ['nothing to forget', *pruned[1:]] or left != 999:
            found.append(f'questions: prune again: {again}, {left} left')
        service.ask('stop now')
        status, lines = service.ended()
        left = [line for line in service.log if line.startswith('undelivered ')]
        if status != 5 or len(left) != 2 or not left[0].startswith('undelivered destination LAB message 0 control_id A0 waiting'):
            found.append(f'questions: end: status {status}, {left}')
    return found


def comes_back(program, folder):
    """No attempt is counted while a destination is down: each message is sent once it is up again, in the one attempt that it has."""
    port, texts = free_ports(1)[0], [message(b'A%d' % n) for n in range(20)]
    lab = Destination(lambda text, before: b'AA', up=False)
    with Service(program, one_channel(port, [('LAB', lab.port, ['attempts = 1', 'interval = 1'])]), folder) as service:
        exchange(port, texts)
        time.sleep(2.5)
        down = counts(service)['destination LAB']
        lab.open()
        whole = wait_received(lab, 20)
        service.ask('stop')
        status, lines = service.ended()
    lab.close()
    if (whole, status, lab.received) != (True, 0, texts) or down[1] != '20' or lines[1].split()[-1] != '20':
        return [f'comes back: status {status}, {len(lab.received)} received, down {down}, {lines}']
    return []


def unasked(program, folder):
    """A destination whose answers are not awaited answers all the same: it receives every message, and the service ends normally."""
    lab, port = Destination(lambda text, before: b'AA'), free_ports(1)[0]
    texts = [message(b'A%d' % n) for n in range(300)]
    with Service(program, one_channel(port, [('LAB', lab.port, ['await = "none"'])]), folder) as service:
        exchange(port, texts)
        service.ask('stop')
        status, _ = service.ended()
    whole = wait_received(lab, 300, 5)
    lab.close()
    return [] if (whole, status, lab.received) == (True, 0, texts) else [f'unasked: status {status}, {len(lab.received)} of 300 received']


def chatting(program, folder):
    """A destination whose answers are not awaited sends all the time: its one connection is kept, and it receives every message."""
    lab, port = Chatting(lambda text, before: SILENCE), free_ports(1)[0]
    texts = [message(b'A%d' % n) for n in range(300)]
    with Service(program, one_channel(port, [('LAB', lab.port, ['await = "none"'])]), folder) as service:
        exchange(port, texts)
        service.ask('stop')
        status, _ = service.ended()
    whole = wait_received(lab, 300, 5)
    lab.close()
    if (whole, status, lab.received, lab.talks) != (True, 0, texts, 1):
        return [f'chatting: status {status}, {len(lab.received)} of 300 received, {lab.talks} connections']
    return []


def forgets(program, folder):
    """A book with few entries is pruned a hundred times. While it is full a message is refused (CE) and not delivered; the sender
    sends it again later, after those that were accepted meanwhile. Each message is delivered once, in the order of the accept
    acknowledgments."""
    lab, port = Destination(lambda text, before: b'AA'), free_ports(1)[0]
    left, accepted, deadline = [message(b'A%d' % n) for n in range(2_500)], [], time.monotonic() + 2 * LIMIT
    words = ('--events', '64', '--keep', '4')
    with Service(program, one_channel(port, [('LAB', lab.port, ['attempts = 1'])]), folder, *words) as service:
        # With a slow program, the book would be full before the first message of a large piece is delivered.
        size = 5 if checks_accesses(program) else 50
        while left and time.monotonic() < deadline:
            piece = left[:size]
            codes = [field(reply, b'MSA', 1) for reply in exchange(port, piece)]
            if len(codes) != len(piece) or not {b'CA', b'CE'}.issuperset(codes):
                break
            accepted += [text for text, code in zip(piece, codes) if code == b'CA']
            left[:size] = [text for text, code in zip(piece, codes) if code == b'CE']
        whole = wait_received(lab, len(accepted))
        prunings = number(service, 'prunings ', 'prunings')
        remembered = number(service, 'book ', 'remembered')
        service.ask('stop')
        status, _ = service.ended()
    lab.close()
    if left or not whole or status != 0 or lab.received != accepted or prunings < 100 or not 0 <= remembered <= 68:
        return [f'forgets: status {status}, {len(left)} left, {len(accepted)} accepted, {len(lab.received)} received, '
                f'{prunings} prunings, {remembered} remembered']
    return []


def pauses(program, folder):
    """One of two destinations is down: its channel stops reading before the book is full, and reads again once the destination is
    up. The other channel continues. The book is checked every 50 milliseconds, and has room for what is received in between."""
    ports, size = free_ports(2), 2_000 if checks_accesses(program) else 8_000
    up, down = Destination(lambda text, before: b'AA'), Destination(lambda text, before: b'AA', up=False)
    more = ['attempts = 1', 'interval = 1']
    text = plan([('ADT', ports[0], [('UP', None, None)]), ('ORU', ports[1], [('DOWN', None, None)])],
                [('UP', up.port, more), ('DOWN', down.port, more)])
    held = [message(b'D%d' % n) for n in range(size)]
    with Service(program, text, folder, '--events', str(3 * size), '--keep', '50') as service:
        sender = Sender(ports[1], held)
        sender.start()
        paused = until(lambda: any('reading paused' in line and 'ORU' in line for line in service.log))
        time.sleep(0.5)
        before = len(sender.replies)
        through = exchange(ports[0], [message(b'U%d' % n) for n in range(20)])
        down.open()
        sender.join(LIMIT)
        again = until(lambda: any('reading again' in line for line in service.log))
        whole = wait_received(down, size) and wait_received(up, 20)
        service.ask('stop')
        status, _ = service.ended()
    up.close()
    down.close()
    codes = {field(reply, b'MSA', 1) for reply in sender.replies + through}
    if not (paused and again and whole) or status != 0 or codes != {b'CA'} or before >= size:
        return [f'pauses: {paused} {again} {whole}, status {status}, {codes}, {before} before, {len(down.received)} received']
    return []


def crowd(program, folder):
    """Senders that repeat messages, send slowly and hang up, with few connections allowed: each message acknowledged with CA is
    delivered to each destination, byte for byte and in its sender's order, and each acknowledgment has its own MSH-10."""
    ports = free_ports(1)
    labs = [Destination(lambda text, before: b'AA'), Closing(lambda text, before: b'AA')]
    names = [(name, lab.port, ['attempts = 100', 'interval = 0']) for name, lab in zip(('LAB', 'ARCHIVE'), labs)]
    senders = []
    with Service(program, one_channel(ports[0], names), folder, '--connections', '4') as service:
        for turn in range(3):
            for who in range(8):
                texts = [message(b'S%d-%d-%d' % (who, turn, n)) for n in range(40)]
                texts.insert(5, texts[2])
                senders.append(Sender(ports[0], texts, in_flight=1 + who % 3, slice_size=(0, 7, 64)[who % 3],
                                      after=b'junk', resets=who % 4 == 3))
        for sender in senders:
            sender.start()
        for sender in senders:
            sender.join(2 * LIMIT)
        whole = all(wait_received(lab, 24 * 40, LIMIT) for lab in labs)
        service.ask('stop')
        status, lines = service.ended()
    found = []
    ids = [field(reply, b'MSH', 10) for sender in senders for reply in sender.replies]
    codes = {field(reply, b'MSA', 1) for sender in senders for reply in sender.replies}
    if (status, whole, codes, len(set(ids))) != (0, True, {b'CA'}, len(ids)):
        found.append(f'crowd: status {status}, {whole}, {codes}, {len(ids)} acknowledgments, {len(set(ids))} ids')
    for lab in labs:
        lab.close()
        for sender in senders:
            sent = list(dict.fromkeys(sender.texts))
            got = [text for text in lab.received if text in set(sent)]
            if list(dict.fromkeys(got)) != sent:
                found.append(f'crowd: {len(got)} of {len(sent)} of a sender received, or not in order')
    return found


def killed(program, folder):
    """Receivers that are killed while they receive, and started again: each message acknowledged with CA is delivered."""
    port, to = free_ports(2)
    texts, keep = [message(b'A%d' % n) for n in range(400)], os.path.join(folder, 'received')
    receiver = [sys.executable, os.path.join(os.path.dirname(os.path.abspath(__file__)), 'receive.py'), str(to), '--keep', keep]
    process = subprocess.Popen(receiver, stdout=subprocess.DEVNULL, stderr=subprocess.DEVNULL)
    try:
        with Service(program, one_channel(port, [('LAB', to, ['attempts = 100', 'interval = 0', 'timeout = 5'])]), folder) as service:
            sender = Sender(port, texts)
            sender.start()
            for _ in range(3):
                time.sleep(0.3)
                process.kill()
                process.wait()
                process = subprocess.Popen(receiver, stdout=subprocess.DEVNULL, stderr=subprocess.DEVNULL)
            sender.join(LIMIT)
            service.ask('stop')
            status, lines = service.ended(2 * LIMIT)
    finally:
        process.kill()
        process.wait()
    with open(keep, 'rb') as file:
        got = [text for text in file.read().split(b'\n') if text]
    missing = [text for text in texts if text.hex().encode() not in got]
    if status != 0 or missing or lines[1].split()[6:8] != ['delivered', '400']:
        return [f'killed: status {status}, {len(missing)} missing, {lines}']
    return []


def unread(program, folder):
    """Nobody reads standard error or the answers: the service continues all the same."""
    lab, port = Destination(lambda text, before: b'AA'), free_ports(1)[0]
    path = os.path.join(folder, 'plan.toml')
    with open(path, 'w', encoding='utf-8') as file:
        file.write(one_channel(port, [('LAB', lab.port, [])]))
    process = subprocess.Popen([program, 'run', path, '--memory'], stdin=subprocess.PIPE, stdout=subprocess.PIPE, stderr=subprocess.PIPE)
    try:
        until(lambda: not socket.socket().connect_ex(('127.0.0.1', port)))
        for n in range(60):
            exchange(port, [message(b'B%d' % n, version=b'9.%d' % k) for k in range(50)])
        process.stdin.write(b'status\n' * 200)
        process.stdin.flush()
        replies = exchange(port, [message(b'A0')])
        whole = wait_received(lab, 1)
    finally:
        process.kill()
        process.wait()
    lab.close()
    codes = [field(reply, b'MSA', 1) for reply in replies]
    return [] if (codes, whole) == ([b'CA'], True) else [f'unread: {codes}, {whole}']


def unwritten(program, folder):
    """Where standard output is full or its reader is gone, the counts are on standard error, and the exit status tells whether
    messages are left undelivered."""
    found = []
    for is_full, texts, wanted in [(True, [message(b'A0')], 5), (False, [message(b'A0')], 5), (True, [], 3), (False, [], 3)]:
        ports = free_ports(2)
        path = os.path.join(folder, 'plan.toml')
        with open(path, 'w', encoding='utf-8') as file:
            file.write(one_channel(ports[0], [('LAB', ports[1], [])]))
        reader, writer = (None, os.open('/dev/full', os.O_WRONLY)) if is_full else os.pipe()
        process = subprocess.Popen([program, 'run', path, '--memory'], stdin=subprocess.PIPE, stdout=writer, stderr=subprocess.PIPE)
        for one in (writer, reader):
            if one is not None:
                os.close(one)
        try:
            until(lambda: not socket.socket().connect_ex(('127.0.0.1', ports[0])))
            exchange(ports[0], texts)
            _, told = process.communicate(b'stop now\n', LIMIT)
        finally:
            process.kill()
            process.wait()
        lines = told.decode(errors='replace').splitlines()
        counts_told = [line for line in lines if line.startswith('destination LAB waiting ')]
        expected = f'destination LAB waiting {len(texts)} inflight 0 delivered 0 failed 0 attempts 0'
        if (process.returncode, counts_told, 'device: write' in lines) != (wanted, [expected], True):
            found.append(f'unwritten: full {is_full}, status {process.returncode} and not {wanted}, {lines[-5:]}')
    return found


def tools(program, folder):
    """Prometheus' own tool accepts the metrics and the alert rules, and the rules say of made-up series what tests/alerts.yml has; systemd accepts the unit, and hl7ctl sends commands through the
    FIFOs. Each is tried only if it is installed."""
    here, found = os.path.dirname(os.path.abspath(__file__)), []
    examples = os.path.join(here, '..', 'examples', 'service')
    control = os.path.join(examples, 'hl7ctl')
    if shutil.which('promtool'):
        with Service(program, one_channel(free_ports(1)[0], [('LAB', free_ports(1)[0], [])]), folder) as service:
            text = '\n'.join(service.ask('metrics')) + '\n'
        done = subprocess.run(['promtool', 'check', 'metrics'], input=text.encode(), capture_output=True, timeout=LIMIT, check=False)
        if done.returncode or done.stdout or done.stderr:
            found.append(f'tools: promtool: {done}')
        for words in (['check', 'rules', os.path.join(examples, 'alerts.yml')],
                      ['test', 'rules', os.path.join(here, '..', 'tests', 'alerts.yml')]):
            done = subprocess.run(['promtool', *words], capture_output=True, timeout=LIMIT, check=False)
            if done.returncode:
                found.append(f'tools: promtool: {done}')
    else:
        print('tools: promtool is not installed: metrics and alert rules are not checked or tested by it')
    if shutil.which('systemd-analyze'):
        with open(os.path.join(examples, 'hl7-service.service'), encoding='utf-8') as file:
            text = file.read().replace('/usr/local/bin/hl7_service', program).replace('/usr/local/bin/hl7ctl', control)
        unit = os.path.join(folder, 'hl7-service.service')
        with open(unit, 'w', encoding='utf-8') as file:
            file.write(text)
        done = subprocess.run(['systemd-analyze', 'verify', unit], capture_output=True, timeout=LIMIT, check=False)
        if done.returncode or b'hl7-service' in done.stderr:
            found.append(f'tools: systemd-analyze: {done}')
    else:
        print('tools: systemd-analyze is not installed: the unit is not checked by it')
    if not shutil.which('flock') or not shutil.which('bash'):
        print('tools: bash or flock is not installed: hl7ctl is not tried')
        return found
    return found + controlled(program, folder, control)


def controlled(program, folder, control):
    """The service as the unit starts it, with a FIFO for commands and one for answers: hl7ctl queries it and ends it."""
    fifos = {name: os.path.join(folder, name) for name in ('commands', 'answers')}
    for path in fifos.values():
        os.mkfifo(path)
    plan_path = os.path.join(folder, 'plan.toml')
    with open(plan_path, 'w', encoding='utf-8') as file:
        file.write(one_channel(free_ports(1)[0], [('LAB', free_ports(1)[0], [])]))
    opened = [os.open(fifos[name], os.O_RDWR) for name in ('commands', 'answers')]
    process = subprocess.Popen([program, 'run', plan_path, '--memory'], stdin=opened[0], stdout=opened[1], stderr=subprocess.DEVNULL)
    around, answers = dict(os.environ, HL7_SERVICE_DIR=folder), []
    try:
        for words in (['status'], ['nothing'], ['--wait', str(process.pid), 'stop']):
            threading.Thread(target=process.wait, daemon=True).start()
            done = subprocess.run([control, *words], env=around, capture_output=True, timeout=LIMIT, check=False)
            answers.append((done.returncode, done.stdout.split(b'\n')[0][:11]))
    finally:
        process.kill()
        process.wait()
        for one in opened:
            os.close(one)
    wanted = [(0, b'channel ADT'), (1, b'unknown: st'), (0, b'stopping')]
    return [] if answers == wanted and process.returncode == 0 else [f'controlled: {answers}, status {process.returncode}']


def words(program, folder):
    """The messages and exit statuses for command lines that the program can't carry out."""
    port, found = free_ports(1)[0], []
    many = plan([(f'C{n}', free_ports(1)[0], [('LAB', None, None)]) for n in range(10)], [('LAB', port, [])])
    with socket.create_server(('127.0.0.1', port)):
        for text, given, status, expected in [
                ('', ['--version'], 0, 'hl7_service 0.2.0 (toolchain logic dac8208d650f15bf)'),
                ('', ['run', 'no/such.toml', '--memory'], 3, 'file: no/such.toml'),
                ('x', ['run', 'plan.toml', '--memory'], 1, 'plan: NotToml'),
                (many, ['run', 'plan.toml', '--memory', '--connections', '1000'], 2, 'limit: connections'),
                (one_channel(port, [('LAB', port, [])]), ['run', 'plan.toml', '--memory'], 3, 'device: listen ADT'),
                ('', ['run', 'plan.toml', '--memory', '--connections', '0'], 2, "For more information, try '--help'."),
                ('', ['run', 'plan.toml', '--memory', '--keep', '1000001'], 2, "For more information, try '--help'."),
                ('', ['run'], 2, "For more information, try '--help'.")]:
            with open(os.path.join(folder, 'plan.toml'), 'w', encoding='utf-8') as file:
                file.write(text)
            done = subprocess.run([program, *given], cwd=folder, stdin=subprocess.DEVNULL, capture_output=True, timeout=LIMIT, check=False)
            lines = (done.stdout + done.stderr).decode().strip().splitlines()
            if done.returncode != status or not lines or lines[-1] != expected:
                found.append(f'words: {given}: status {done.returncode}, {lines}')
    return found


SCENES = [('connections are accepted again', taken_again), ('commands', commands), ('questions', questions),
          ('a destination moves', moved), ('a plan is deployed under load', deployed_under_load),
          ('a destination is renamed', renamed), ('warnings of a plan', warned),
          ('a destination closes', closing), ('a destination comes back', comes_back), ('unasked answers', unasked),
          ('a destination that sends all the time', chatting), ('the book forgets', forgets), ('reading pauses', pauses),
          ('a crowd', crowd), ('killed receivers', killed), ('nobody reads', unread), ('output that fails', unwritten),
          ('stop now', stopped_now), ('few descriptors', few_descriptors), *OUTAGES, *SENDINGS, *OPERATORS, *ROOM, *CANCELS, *HOLDS, *NOTES, *WEB,
          *SUPERVISED,
          ('tools', tools), ('words', words)]


def main():
    """Plays each scene."""
    parser = argparse.ArgumentParser()
    parser.add_argument('program', nargs='?', default=PROGRAM)
    parser.add_argument('--only', default='')
    args = parser.parse_args()
    program, lines = os.path.abspath(args.program), []
    for name, scene in SCENES:
        if args.only not in name:
            continue
        began = time.monotonic()
        with tempfile.TemporaryDirectory() as folder:
            try:
                found = scene(program, folder)
            except (OSError, RuntimeError, subprocess.SubprocessError) as error:
                found = [f'{name}: {error!r}']
        print(f'{name}: {"as it should be" if not found else "WRONG"}, {time.monotonic() - began:.1f} seconds', flush=True)
        lines += found
    for line in lines:
        print(line)
    return 1 if lines else 0


if __name__ == '__main__':
    sys.exit(main())
