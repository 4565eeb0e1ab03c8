"""A store goes on in a new file: one that is long, one that is started with another --events, and one that was killed with a message in
flight. Nothing is lost, nothing is doubled but what was in flight, and what a kill or a power cut leaves half done is finished by the
next start. The scenes are played by crash.py."""
import os
import random
import shutil
import signal
import stat
import subprocess
import time

import power
from engine import checks_accesses, one_channel
from mllp import HANG_UP, SILENCE, Destination, Sender, field, free_ports, message
from served import LIMIT, Service, exchange, wait_received, wait_status
from stores import codes, last_line, refused, stopped, tail

# A store of so many records goes on in a new file. A message that is delivered has three: its arrival, its take and its settlement.
LONG, RECORDS = 100_000, 3
# How long the messages of a long store may take.
FILLING = 240
# In which calls on a file a start kills itself that goes on in a new one: there are fewer on most.
CALLS, CALLS_SLOWLY = 40, 4
# The names of the files and of the folder that such a start touches.
TOUCHED = ('next.db', 'next.db-wal', 'events.db', 'events.db-wal', 'records', 'archive')
# How many messages wait in the store that is killed.
WAITING = 5
# How often a service is killed with a message in flight, and for how long it is let be before, so that the take is on disk: what nobody
# waits for is written within 20 ms.
CRASHES, NOTED = 5, 1.0
# What a start logs of messages that were in flight, and of one that has failed.
GIVEN_BACK, FAILED = 'messages were in flight at the end of the last process', 'message failed'


def archived(store):
    """The names of the files that were moved into the archive of a store, and what is wrong with their modes."""
    archive = os.path.join(store, 'archive')
    if not os.path.isdir(archive):
        return [], []
    modes = {name: stat.S_IMODE(os.stat(os.path.join(archive, name)).st_mode) for name in os.listdir(archive)}
    wrong = [f'{name} has the mode {oct(mode)}' for name, mode in modes.items() if mode != 0o600]
    if stat.S_IMODE(os.stat(archive).st_mode) != 0o700:
        wrong.append('the archive is not for its owner alone')
    return sorted(modes), wrong


def sent(port, texts):
    """Sends texts with many unacknowledged. The sender, once all are answered or the time is up."""
    sender = Sender(port, texts, in_flight=1_000)
    sender.start()
    sender.join(FILLING)
    return sender


def filled(program, folder, text, port, store):
    """Fills a store with as many records as make it long, and then with messages that wait. The messages, the acknowledgments, and what
    is wrong."""
    texts = [message(b'A%d' % number) for number in range(LONG // RECORDS + 100)]
    later, known = [message(b'B%d' % number) for number in range(20)], set(texts)
    lab = Destination(lambda text, before: b'AA' if text in known else HANG_UP, port=port)
    with Service(program, text, folder, store=store) as service:
        sender = sent(ports_of(text)[0], texts)
        whole = wait_received(lab, len(texts), FILLING)
        waiting, status = exchange(ports_of(text)[0], later), stopped(service, 'stop now')
        log = service.log
    lab.close()
    replies = [*sender.replies, *waiting]
    if not whole or lab.received[:len(texts)] != texts or status != 0 or set(codes(replies)) != {b'CA'} or len(replies) != len(texts) + len(later):
        return texts, later, replies, [f'{len(lab.received)} received, {len(replies)} acknowledged, status {status}, {tail(log)}']
    return texts, later, replies, [f'archived before: {archived(store)[0]}'] if archived(store)[0] else []


def ports_of(text):
    """The ports on which the channels of a plan listen."""
    return [int(line.rsplit(':', 1)[1].strip('"')) for line in text.splitlines() if line.startswith('listen')]


def long_file(program, folder):
    """A store of 100,000 records goes on in a new file, once: what waited is delivered in order, what was delivered is not sent again,
    its repeats are known, and no acknowledgment has the MSH-10 of an earlier one."""
    if checks_accesses(program):
        print('a long file: not tried with a slow program')
        return []
    (port, to), store = free_ports(2), os.path.join(folder, 'store')
    text, path = one_channel(port, [('LAB', to, ['attempts = 9', 'interval = 1'])]), os.path.join(store, 'events.db')
    texts, later, replies, wrong = filled(program, folder, text, to, store)
    if wrong:
        return [f'a long file: {line}' for line in wrong]
    size, lab, new = os.path.getsize(path), Destination(lambda text, before: b'AA', port=to), message(b'C0')
    with Service(program, text, folder, store=store) as service:
        first, wrong = archived(store)
        smaller = os.path.getsize(path) < size
        again = exchange(port, [texts[0], texts[-1], new])
        whole, found, status = wait_received(lab, len(later) + 1), service.ask('message 0'), stopped(service)
        log = service.log
    with Service(program, text, folder, store=store) as service:
        last = stopped(service)
    lab.close()
    ids = [field(reply, b'MSH', 10) for reply in [*replies, *again]]
    if len(first) != 1 or archived(store)[0] != first or not smaller:
        wrong.append(f'archived {first}, then {archived(store)[0]}, and the new file is {"" if smaller else "not "}smaller')
    if not whole or lab.received != [*later, new] or (status, last) != (0, 0):
        wrong.append(f'{len(lab.received)} of {len(later) + 1} received, status {status}, {last}, {tail(log)}')
    if set(codes(again)) != {b'CA'} or len(again) != 3 or len(set(ids)) != len(ids) or not found:
        wrong.append(f'answers {codes(again)}, {len(ids)} acknowledgments with {len(set(ids))} ids, message 0: {found}')
    return [f'a long file: {line}' for line in wrong]


def waited(program, folder, text, port, store, *words):
    """Begins a store in which a few messages wait. The messages, and the exit status."""
    texts = [message(b'A%d' % number) for number in range(WAITING)]
    with Service(program, text, folder, *words, store=store) as service:
        replies, status = exchange(port, texts), stopped(service, 'stop now')
    return texts, status if set(codes(replies)) == {b'CA'} else codes(replies)


def delivered(program, folder, text, to, store, *words):
    """Starts a store whose messages wait, and lets them be delivered. What was received, the exit status, and the last lines of its log."""
    lab = Destination(lambda text, before: b'AA', port=to)
    with Service(program, text, folder, *words, store=store) as service:
        wait_received(lab, WAITING)
        status = stopped(service)
        log = service.log
    lab.close()
    return lab.received, status, tail(log)


def other_bound(program, folder):
    """A store goes on with another --events, in a new file. One that is too small for what may have to be booked of the messages that
    wait is refused: status 7, and the line says with which to start."""
    (port, to), store = free_ports(2), os.path.join(folder, 'store')
    text = one_channel(port, [('LAB', to, ['interval = 1'])])
    texts, first = waited(program, folder, text, port, store, '--events', '3000')
    small, printed = refused(program, folder, text, '--events', '4', '--store', store)
    none, line = archived(store)[0], last_line(printed)
    received, status, log = delivered(program, folder, text, to, store, '--events', '2000')
    one, wrong = archived(store)
    with Service(program, text, folder, '--events', '2000', store=store) as service:
        same = stopped(service)
    kept = archived(store)[0]
    with Service(program, text, folder, '--events', '4000', store=store) as service:
        more = stopped(service)
    two = archived(store)[0]
    if (first, small, status, same, more) != (0, 7, 0, 0, 0) or not line.startswith('store: ') or '3000' not in line or none:
        wrong.append(f'status {first}, {small}, {status}, {same}, {more}, {line}, {none}, {log}')
    if received != texts or len(one) != 1 or kept != one or len(two) != 2:
        wrong.append(f'{len(received)} of {len(texts)} received, archived {one}, {kept}, {two}')
    return [f'another --events: {line}' for line in wrong]


def flown(program, folder, text, store, port, texts, silent, number):
    """Runs a service until a destination that doesn't answer has received a message once more, and kills it. Whether it has, the
    acknowledgments of what was sent to the service, and its log."""
    with Service(program, text, folder, store=store) as service:
        replies = exchange(port, texts) if texts else []
        whole = wait_received(silent, number)
        time.sleep(NOTED)
        service.process.kill()
        service.process.wait(LIMIT)
        service.reader.join(LIMIT)
    return whole, replies, service.log


def in_flight(program, folder):
    """A destination with one attempt receives a message and doesn't answer, and the service is killed, again and again. Each start goes
    on in a new file and sends the message again, before those that wait: in the end all are delivered, in order, and none has failed.
    A start that finds nothing in flight goes on in its file."""
    (port, to), store = free_ports(2), os.path.join(folder, 'store')
    text = one_channel(port, [('LAB', to, ['attempts = 1'])])
    texts, files, logs = [message(b'A%d' % number) for number in range(WAITING)], [], []
    silent = Destination(lambda text, before: SILENCE, port=to)
    for number in range(CRASHES):
        whole, replies, log = flown(program, folder, text, store, port, [] if number else texts, silent, number + 1)
        files.append(len(archived(store)[0]))
        logs.append(sum(GIVEN_BACK in line for line in log))
        if not whole or codes(replies) != [b'CA'] * (0 if number else WAITING):
            return [f'in flight: kill {number}: {codes(replies)}, {len(silent.received)} received, {tail(log)}']
    silent.close()
    lab = Destination(lambda text, before: b'AA', port=to)
    with Service(program, text, folder, store=store) as service:
        whole = wait_received(lab, WAITING)
        counted = wait_status(service, f'destination LAB waiting 0 inflight 0 delivered {WAITING} failed 0 attempts {CRASHES + WAITING}')
        found, status, log = service.ask('failed LAB'), stopped(service), service.log
    with Service(program, text, folder, store=store) as service:
        last = stopped(service)
    lab.close()
    one, wrong = archived(store)
    if silent.received != texts[:1] * CRASHES or not whole or lab.received != texts or (status, last) != (0, 0) or not counted:
        wrong.append(f'{len(silent.received)} received without an answer, then {len(lab.received)} of {WAITING}, status {status}, {last}, '
                     f'counted: {counted}, failed: {found}, {tail(log)}')
    if files != list(range(CRASHES)) or logs != [0] + [1] * (CRASHES - 1) or len(one) != CRASHES or any(FAILED in line for line in log):
        wrong.append(f'archived {files}, then {len(one)}; logged {logs}; {tail(log)}')
    return [f'in flight: {line}' for line in wrong]


def no_archive(program, folder):
    """A message is in flight at a kill, and the old file can't be moved: the start is refused with status 6, and its last line names the
    store. Nothing has failed by that, also where it is tried again. Once the file can be moved, the message is sent again."""
    (port, to), store = free_ports(2), os.path.join(folder, 'store')
    text = one_channel(port, [('LAB', to, ['attempts = 1'])])
    texts, archive = [message(b'A%d' % number) for number in range(WAITING)], os.path.join(store, 'archive')
    silent = Destination(lambda text, before: SILENCE, port=to)
    whole, replies, log = flown(program, folder, text, store, port, texts, silent, 1)
    silent.close()
    with open(archive, 'w', encoding='ascii'):
        pass
    ends_of = [refused(program, folder, text, '--store', store) for _ in range(2)]
    os.remove(archive)
    received, status, lines = delivered(program, folder, text, to, store)
    one, wrong = archived(store)
    if not whole or codes(replies) != [b'CA'] * WAITING or received != texts or status != 0 or len(one) != 1:
        wrong.append(f'{codes(replies)}, {tail(log)}, then {len(received)} of {WAITING} received, status {status}, {one}, {lines}')
    for code, printed in ends_of:
        line = last_line(printed)
        if code != 6 or not line.startswith('store: ') or store not in line:
            wrong.append(f'status {code}, {line}')
    return [f'in flight, and no archive: {line}' for line in wrong]


def ends(program, plan_path, store, env):
    """The exit status of a start with another --events that is stopped at once, or kills itself before."""
    words = [program, 'run', plan_path, '--store', store, '--events', '2000']
    return subprocess.run(words, input=b'stop now\n', capture_output=True, timeout=4 * LIMIT, env=env, check=False).returncode


def half_done(program, folder, spoil):
    """A start that goes on in a new file kills itself in a call on one of its files, in each of its first calls on each of them, and
    `spoil` does with the folder what a cut may do. The next start goes on from what is there, with all messages, each once."""
    library = power.library(folder)
    if library is None:
        print('a new file, half done: skipped, since no C compiler is installed: it is not tried')
        return []
    (port, to), begun = free_ports(2), os.path.join(folder, 'begun')
    text, plan_path = one_channel(port, [('LAB', to, ['interval = 1'])]), os.path.join(folder, 'plan.toml')
    texts, status = waited(program, folder, text, port, begun, '--events', '3000')
    found, kills = [f'half done: status {status}'] if status else [], []
    for name in TOUCHED:
        for number in range(1, 1 + (CALLS_SLOWLY if checks_accesses(program) else CALLS)):
            store = os.path.join(folder, 'store')
            shutil.copytree(begun, store)
            files, log = power.Files(store), os.path.join(folder, 'calls.log')
            if ends(program, plan_path, store, power.noting(library, store, log, name, number)) != -signal.SIGKILL:
                shutil.rmtree(store)
                os.remove(log)
                break
            kills.append(name)
            left = spoil(files, log, store, f'{store}-')
            received, status, lines = delivered(program, folder, text, to, left, '--events', '2000')
            if received != texts or status != 0 or archived(left)[1] or not archived(left)[0]:
                found.append(f'half done: in call {number} on {name}: status {status}, {len(received)} of {len(texts)} received, '
                             f'{archived(left)}, {lines}')
            for path in {store, left}:
                shutil.rmtree(path)
            os.remove(log)
    print('half done: killed ' + ', '.join(f'{kills.count(name)} times in a call on {name}' for name in TOUCHED))
    return found if {'next.db', 'events.db'} <= set(kills) else [*found, f'half done: killed only in calls on {set(kills)}']


def killed(program, folder):
    """What a kill leaves."""
    return half_done(program, folder, lambda files, log, store, left: store)


def cut(program, folder):
    """What a power cut may leave."""
    chance = random.Random(11)

    def spoil(files, log, store, left):
        power.cut(files, power.calls_in(log), chance)
        power.put(files, left)
        return left
    return half_done(program, folder, spoil)


NEXT_FILES = [('a long file goes on in a new one', long_file), ('another --events', other_bound),
              ('a message in flight at a kill', in_flight), ('a message in flight, and no archive', no_archive),
              ('a new file that a kill leaves half done', killed), ('a new file that a power cut leaves half done', cut)]
