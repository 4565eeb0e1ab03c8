"""Questions to the store of a service that isn't running: `hl7_service store FOLDER` answers as the service did, and changes nothing."""
import hashlib
import os
import subprocess

from engine import one_channel
from mllp import Destination, free_ports, message
from served import LIMIT, Service, exchange, wait_received
from stores import last_line, stopped

QUESTIONS = ('message 2', 'message 9', 'find A2', 'waiting LAB', 'failed LAB', 'waiting NOBODY', 'show 1', 'show 1 LAB', 'plan text')


def asked(program, store, lines):
    """The answers to lines, each a list of lines behind the one that repeats the question; the status and standard error."""
    text = ''.join(f'{line}\n' for line in lines)
    done = subprocess.run([program, 'store', store], input=text.encode(), capture_output=True, timeout=2 * LIMIT, check=False)
    answers = [part.split('\n')[1:] for part in done.stdout.decode(errors='replace').split('\n\n')[:-1]]
    return answers, done.returncode, done.stderr.decode(errors='replace')


def looked_at(store):
    """Each file of a folder with its bytes, its owner, its mode and when it was changed, and the same of the folder but the bytes."""
    found = {}
    for name in ['.', *sorted(os.listdir(store))]:
        path = os.path.join(store, name)
        state = os.stat(path)
        digest = ''
        if os.path.isfile(path):
            with open(path, 'rb') as file:
                digest = hashlib.sha256(file.read()).hexdigest()
        found[name] = (digest, state.st_uid, state.st_gid, state.st_mode, state.st_mtime_ns)
    return found


def bare(answer):
    """An answer without what a service notes beside its book, which its store doesn't have."""
    return [line.split('; ')[0] for line in answer or [] if not line.startswith('received ')]


def differences(questions, before, after):
    """Each question with another answer, but for what is noted beside the book."""
    pairs = zip(questions, map(bare, before), map(bare, after))
    return [f'{question}: {one} and then {other}' for question, one, other in pairs if one != other]


def stopped_store(program, folder):
    """After a kill the answers are those of the running service; no file is changed, whatever is asked; and what waited is delivered."""
    port, lab, store = free_ports(1)[0], Destination(lambda text, before: b'AA', up=False), os.path.join(folder, 'store')
    text, texts = one_channel(port, [('LAB', lab.port, ['interval = 60', 'attempts = 3'])]), [message(b'A%d' % number) for number in range(5)]
    with Service(program, text, folder, store=store) as service:
        exchange(port, texts)
        service.ask('hold LAB')
        service.ask('cancel 3')
        before = [service.ask(question) for question in QUESTIONS]
        used, busy, printed = asked(program, store, ['status'])
        service.process.kill()
        service.process.wait()
    files = looked_at(store)
    after, status, _ = asked(program, store, QUESTIONS)
    orders, second, _ = asked(program, store, ['status', 'plan', 'cancel 1', 'deploy x', 'stop now', 'help', 'status'])
    changed = looked_at(store) != files
    lab.open()
    with Service(program, text, folder, store=store) as service:
        service.ask('release LAB')
        whole, last = wait_received(lab, 4), stopped(service)
    lab.close()
    found = [f'a stopped store: {line}' for line in differences(QUESTIONS, before, after)]
    if (used, busy) != ([], 8) or 'in use' not in last_line(printed):
        found.append(f'a store in use: {used}, status {busy}, {printed}')
    if (len(after), status, second, changed) != (len(QUESTIONS), 0, 0, False):
        found.append(f'a stopped store: {len(after)} answers, status {status}, {second}, changed {changed}')
    if len(orders) != 7 or not all(answer[0].startswith('refused: the service isn') for answer in orders[2:5]):
        found.append(f'a stopped store: {orders}')
    if not orders or 'held LAB' not in orders[0] or orders[0] != orders[-1]:
        found.append(f'a stopped store: status {orders[:1]}')
    if (whole, last, lab.received) != (True, 0, texts[:3] + texts[4:]):
        found.append(f'a stopped store: then {len(lab.received)} of 4 received, status {last}')
    return found


def no_store(program, folder):
    """A folder that isn't there is not made, and one without a store is no store."""
    store, found = os.path.join(folder, 'nothing'), []
    answers, status, printed = asked(program, store, ['status'])
    if (answers, status, os.path.exists(store)) != ([], 3, False) or store not in last_line(printed):
        found.append(f'no store: {answers}, status {status}, {printed}')
    os.mkdir(store)
    answers, status, printed = asked(program, store, ['status'])
    if (answers, status, os.listdir(store)) != ([], 3, []) or store not in last_line(printed):
        found.append(f'an empty folder: {answers}, status {status}, {printed}, {os.listdir(store)}')
    return found


STOPPED = [('questions to a stopped store', stopped_store), ('no store to ask', no_store)]
