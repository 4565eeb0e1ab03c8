"""What a store has to do beside surviving kills, around the built service: whom it is refused to, what it keeps at each way to end,
and that a damaged or full one is noticed."""
import os
import random
import shutil
import stat
import subprocess
import time

from engine import checks_accesses, one_channel
from mllp import Destination, Sender, field, free_ports, message
from served import LIMIT, Service, exchange, wait_received

# Where the first frame of a log begins: behind a header of 32 bytes.
FIRST_FRAME = 32
# How many bits of a store are flipped, one after another; fewer with a slow program.
FLIPS, FLIPS_SLOWLY = 12, 4


def tail(lines):
    """The last lines of a log, for a failure."""
    return lines[-4:]


def within(check, limit=LIMIT):
    """Whether a check holds within the limit, looked at every tenth of a second."""
    deadline = time.monotonic() + limit
    while not check():
        if time.monotonic() > deadline:
            return False
        time.sleep(0.1)
    return True


def codes(replies):
    """MSA-1 of each reply."""
    return [field(reply, b'MSA', 1) for reply in replies]


def refused(program, folder, text, *words):
    """The exit status and standard error of a service that is to be refused. One that starts all the same is stopped."""
    path = os.path.join(folder, 'refused.toml')
    with open(path, 'w', encoding='utf-8') as file:
        file.write(text)
    done = subprocess.run([program, 'run', path, *words], input=b'stop now\n', capture_output=True, timeout=2 * LIMIT, check=False)
    return done.returncode, done.stderr.decode(errors='replace')


def last_line(text):
    """The last line of what was printed."""
    return (text.strip().splitlines() or [''])[-1]


def stopped(service, command='stop'):
    """Ends a service by a command. Its exit status."""
    service.ask(command)
    return service.ended()[0]


def in_use(program, folder):
    """A second process on the same folder ends with status 8 and a line that says so, while the first goes on."""
    lab, ports, store = Destination(lambda text, before: b'AA'), free_ports(2), os.path.join(folder, 'store')
    with Service(program, one_channel(ports[0], [('LAB', lab.port, [])]), folder, store=store) as service:
        before = exchange(ports[0], [message(b'A0')])
        second, printed = refused(program, folder, one_channel(ports[1], [('LAB', lab.port, [])]), '--store', store)
        after = exchange(ports[0], [message(b'A1')])
        whole, status = wait_received(lab, 2), stopped(service)
    lab.close()
    line = last_line(printed)
    if second != 8 or not line.startswith('store: ') or store not in line or 'in use' not in line:
        return [f'in use: the second: status {second}, {line}']
    if (codes(before + after), whole, status) != ([b'CA', b'CA'], True, 0):
        return [f'in use: the first: {codes(before + after)}, {whole}, status {status}']
    return []


def no_folder(program, folder):
    """A path that is a file is no folder of a store: status 3, and the file is as it was."""
    path = os.path.join(folder, 'file')
    with open(path, 'wb') as file:
        file.write(b'no store')
    text = one_channel(free_ports(1)[0], [('LAB', free_ports(1)[0], [])])
    status, printed = refused(program, folder, text, '--store', path)
    with open(path, 'rb') as file:
        kept = file.read()
    line = last_line(printed)
    if status != 3 or not line.startswith('store: ') or path not in line or kept != b'no store':
        return [f'no folder: status {status}, {line}, {kept}']
    return []


def no_place(program, folder):
    """Without --store and --memory, and with both, nothing is started: status 2, and both forms are named."""
    text, found = one_channel(free_ports(1)[0], [('LAB', free_ports(1)[0], [])]), []
    store = os.path.join(folder, 'store')
    for words in ([], ['--memory', '--store', store]):
        status, printed = refused(program, folder, text, *words)
        if status != 2 or '--store <FOLDER>' not in printed or '--memory' not in printed or os.path.exists(store):
            found.append(f'no place: {words}: status {status}, {printed}')
    return found


def modes(program, folder):
    """The folder and its files are for their owner alone, whatever the umask."""
    lab, port, store = Destination(lambda text, before: b'AA'), free_ports(1)[0], os.path.join(folder, 'store')
    umask = os.umask(0)
    try:
        with Service(program, one_channel(port, [('LAB', lab.port, [])]), folder, store=store) as service:
            exchange(port, [message(b'A%d' % number) for number in range(20)])
            found = {name: os.stat(os.path.join(store, name)).st_mode for name in sorted(os.listdir(store))}
            own = stat.S_IMODE(os.stat(store).st_mode)
            stopped(service)
    finally:
        os.umask(umask)
    lab.close()
    wrong = {name: oct(mode) for name, mode in found.items() if stat.S_IMODE(mode) != 0o600 or not stat.S_ISREG(mode)}
    return [] if own == 0o700 and found and not wrong else [f'modes: folder {oct(own)}, {wrong}, of {list(found)}']


def stopped_now(program, folder):
    """What waits at `stop now` is delivered after the next start, in order."""
    port, lab, store = free_ports(1)[0], Destination(lambda text, before: b'AA', up=False), os.path.join(folder, 'store')
    text, texts = one_channel(port, [('LAB', lab.port, ['interval = 1'])]), [message(b'A%d' % number) for number in range(30)]
    with Service(program, text, folder, store=store) as service:
        replies = exchange(port, texts)
        first = stopped(service, 'stop now')
        log = service.log
    lab.open()
    with Service(program, text, folder, store=store) as service:
        whole, second = wait_received(lab, 30), stopped(service)
    lab.close()
    if (set(codes(replies)), first, whole, second, lab.received) != ({b'CA'}, 0, True, 0, texts):
        return [f'stop now: {set(codes(replies))}, status {first}, {tail(log)}, then {second}, {len(lab.received)} of 30 received']
    return []


def numbers_go_on(program, folder):
    """No two acknowledgments have the same MSH-10, of whatever runs they are: one that is stopped, killed, or without a message."""
    lab, port, store, ids = Destination(lambda text, before: b'AA'), free_ports(1)[0], os.path.join(folder, 'store'), []
    text, found = one_channel(port, [('LAB', lab.port, [])]), []
    for run in range(5):
        with Service(program, text, folder, store=store) as service:
            for number in range(run % 2 * 3):
                # The same message again in each run: a repeat is acknowledged anew.
                replies = exchange(port, [message(b'A0'), message(b'A%d-%d' % (run, number))])
                ids += [field(reply, b'MSH', 10) for reply in replies]
            if run % 3 == 0 and (status := stopped(service)):
                found.append(f'numbers go on: status {status}, {tail(service.log)}')
    lab.close()
    if len(ids) != 12 or len(set(ids)) != len(ids):
        found.append(f'numbers go on: {ids}')
    return found


def repeats(program, folder):
    """A message that was acknowledged before the last start, and is sent again, gets the answer of its first arrival, is counted as a
    repeat and is not delivered again; another message with its control id is refused."""
    lab, port, store = Destination(lambda text, before: b'AA'), free_ports(1)[0], os.path.join(folder, 'store')
    text, texts = one_channel(port, [('LAB', lab.port, [])]), [message(b'A%d' % number) for number in range(10)]
    with Service(program, text, folder, store=store) as service:
        replies, whole, first = exchange(port, texts), wait_received(lab, 10), stopped(service)
    with Service(program, text, folder, store=store) as service:
        again, other = exchange(port, texts), exchange(port, [message(b'A3', ward=b'O')])
        line = (service.ask('status') or [''])[0]
        second = stopped(service)
    lab.close()
    wrong = (field(other[0], b'MSA', 1), field(other[0], b'MSA', 3)) if other else None
    if (codes(replies + again), whole, first, second) != ([b'CA'] * 20, True, 0, 0) or wrong != (b'CE', b'IdReused'):
        return [f'repeats: {codes(replies + again)}, {whole}, status {first}, {second}, another one: {wrong}']
    if lab.received != texts or not line.endswith('repeats 10'):
        return [f'repeats: {len(lab.received)} of 10 received, {line}']
    return []


def commanded(program, folder):
    """What a command answered outlives a kill: a message that was cancelled is not delivered after the next start."""
    port, lab, store = free_ports(1)[0], Destination(lambda text, before: b'AA', up=False), os.path.join(folder, 'store')
    text, texts = one_channel(port, [('LAB', lab.port, ['interval = 1'])]), [message(b'A%d' % number) for number in range(5)]
    with Service(program, text, folder, store=store) as service:
        exchange(port, texts)
        answer = service.ask('cancel 2')
    lab.open()
    with Service(program, text, folder, store=store) as service:
        whole, state, status = wait_received(lab, 4), service.ask('message 2'), stopped(service)
    lab.close()
    if (answer, whole, status, lab.received) != (['cancelled LAB'], True, 0, texts[:2] + texts[3:]):
        return [f'commanded: {answer}, status {status}, {len(lab.received)} of 4 received, {state}']
    if not state[-1].startswith('destination LAB failed'):
        return [f'commanded: {answer}, {state}, status {status}, {len(lab.received)} of 4 received']
    return []


def damaged(program, folder):
    """One flipped bit in events.db, wherever it is, keeps a service from starting: status 7, and the line names the file. With the bit
    as it was, it starts."""
    lab, port, store = Destination(lambda text, before: b'AA'), free_ports(1)[0], os.path.join(folder, 'store')
    text, chance, found = one_channel(port, [('LAB', lab.port, [])]), random.Random(7), []
    with Service(program, text, folder, store=store) as service:
        exchange(port, [message(b'A%d' % number, patient=b'X' * 600) for number in range(200)])
        wait_received(lab, 200)
        first = stopped(service)
    path = os.path.join(store, 'events.db')
    size, flips = os.path.getsize(path), FLIPS_SLOWLY if checks_accesses(program) else FLIPS
    for number in range(flips):
        at, bit = chance.randrange(number * size // flips, (number + 1) * size // flips), 1 << chance.randrange(8)
        flip(path, at, bit)
        status, printed = refused(program, folder, text, '--store', store)
        flip(path, at, bit)
        line = last_line(printed)
        if status != 7 or not line.startswith('store: ') or path not in line:
            found.append(f'damaged: byte {at} of {size}: status {status}, {line}')
    with Service(program, text, folder, store=store) as service:
        last = stopped(service)
    lab.close()
    return found if (first, last) == (0, 0) else [*found, f'damaged: status {first}, and {last} once it is as it was']


def flip(path, at, bit):
    """Flips a bit of a file."""
    with open(path, 'r+b') as file:
        file.seek(at)
        byte = file.read(1)[0]
        file.seek(at)
        file.write(bytes([byte ^ bit]))


def witnessed(store):
    """How many records the file `records` of a store says that it has had."""
    try:
        with open(os.path.join(store, 'records'), encoding='ascii') as file:
            return int(file.read() or 0)
    except FileNotFoundError:
        return 0


def lost(program, folder):
    """One flipped bit in the log of a store that was killed: what lies behind it is gone, and a service doesn't start as if it had never
    been. It ends with status 7 and a line with both numbers; without the file `records` it starts with what is left."""
    lab, port, store = Destination(lambda text, before: b'AA'), free_ports(1)[0], os.path.join(folder, 'store')
    text, texts = one_channel(port, [('LAB', lab.port, [])]), [message(b'A%d' % number, patient=b'X' * 600) for number in range(60)]
    with Service(program, text, folder, store=store) as service:
        replies = exchange(port, texts)
        wait_received(lab, len(texts))
        noted = within(lambda: witnessed(store) >= len(texts))
        service.process.kill()
        service.process.wait(LIMIT)
    path = os.path.join(store, 'events.db-wal')
    flip(path, FIRST_FRAME + 200, 4)
    status, printed = refused(program, folder, text, '--store', store)
    os.remove(os.path.join(store, 'records'))
    with Service(program, text, folder, store=store) as service:
        again = exchange(port, [message(b'B0')])
        last = stopped(service)
    lab.close()
    line = last_line(printed)
    numbers = [int(word) for word in line.replace(':', ' ').split() if word.isdigit()]
    if not noted or status != 7 or 'events.db: damaged' not in line or len(numbers) != 2 or not numbers[0] < numbers[1]:
        return [f'lost records: status {status}, {line}']
    if set(codes(replies + again)) != {b'CA'} or last != 0:
        return [f'lost records: {codes(replies + again)[-3:]}, status {last} with what is left']
    return []


def on_small_disk(program, folder, scene):
    """Plays a scene on a disk of 2 MB, where a tmpfs can be mounted."""
    disk = os.path.join(folder, 'disk')
    os.mkdir(disk)
    mounted = shutil.which('mount') and subprocess.run(['mount', '-t', 'tmpfs', '-o', 'size=2m', 'tmpfs', disk], capture_output=True,
                                                       timeout=LIMIT, check=False).returncode == 0
    if not mounted:
        print('full disk: not tried, since no tmpfs can be mounted here')
        return []
    try:
        return scene(program, folder, disk)
    finally:
        subprocess.run(['umount', '-l', disk], capture_output=True, timeout=LIMIT, check=False)


def full_disk(program, folder):
    """On a disk that fills nothing is acknowledged until it has room, and no message that was acknowledged CA is missing."""
    return on_small_disk(program, folder, filled)


def full_at_stop(program, folder):
    """A service that is stopped while its disk has no room waits for none: it ends with status 6, and goes on at the next start."""
    return on_small_disk(program, folder, stopped_without_room)


def enlarge(disk):
    """Gives the small disk room."""
    subprocess.run(['mount', '-o', 'remount,size=64m', disk], capture_output=True, timeout=LIMIT, check=True)


def filling(service, port):
    """Sends to a service until its disk has no room: the messages, their sender, and whether `status` says that there is none."""
    texts = [message(b'A%d' % number, patient=b'X' * 4_000) for number in range(700)]
    sender = Sender(port, texts, in_flight=16)
    sender.start()
    full = within(lambda: any('no room' in line for line in service.ask('status') or []))
    return texts, sender, full


def filled(program, folder, disk):
    """The scene of a disk that fills and gets room again, once it is mounted."""
    port, lab, store = free_ports(1)[0], Destination(lambda text, before: b'AA', up=False), os.path.join(disk, 'store')
    text = one_channel(port, [('LAB', lab.port, ['interval = 1'])])
    with Service(program, text, folder, store=store) as service:
        texts, sender, full = filling(service, port)
        held, gauge = len(sender.replies), [line for line in service.ask('metrics') if line.startswith('hl7_store_full ')]
        lab.open()
        sent = wait_received(lab, held)
        waiting = held, len(sender.replies)
        enlarge(disk)
        sender.join(4 * LIMIT)
        whole, status = wait_received(lab, len(texts)), stopped(service)
        log = service.log
    lab.close()
    if not full or gauge != ['hl7_store_full 1'] or not sent or waiting[0] != waiting[1] or not 0 < held < len(texts):
        return [f'full disk: {full}, {gauge}, acknowledged {waiting} of {len(texts)}, delivered {sent}']
    if set(codes(sender.replies)) != {b'CA'} or not whole or lab.received != texts or status != 0:
        return [f'full disk: with room again {len(sender.replies)} replies, {len(lab.received)} received, status {status}']
    if sum('has no room' in line for line in log) != 1 or sum('has room again' in line for line in log) != 1:
        return [f'full disk: the log says {[line for line in log if "room" in line]}']
    return []


def stopped_without_room(program, folder, disk):
    """The scene of a stop on a full disk, once it is mounted."""
    port, lab, store = free_ports(1)[0], Destination(lambda text, before: b'AA', up=False), os.path.join(disk, 'store')
    text = one_channel(port, [('LAB', lab.port, ['interval = 1'])])
    with Service(program, text, folder, store=store) as service:
        texts, sender, full = filling(service, port)
        service.ask('stop now')
        status, lines = service.ended()
        sender.join(LIMIT)
        log = service.log
    taken = [sent for sent, reply in zip(texts, sender.replies) if field(reply, b'MSA', 1) == b'CA']
    enlarge(disk)
    lab.open()
    with Service(program, text, folder, store=store) as service:
        whole, last = wait_received(lab, len(taken)), stopped(service)
    lab.close()
    lines, missing = log[-2:], [sent for sent in taken if sent not in set(lab.received)]
    if not full or status != 6 or not any(line.startswith('store: ') for line in lines):
        return [f'full disk at a stop: {full}, status {status}, {lines}']
    if not taken or len(taken) == len(texts) or not whole or missing or last != 0 or lab.received != texts[:len(lab.received)]:
        return [f'full disk at a stop: {len(taken)} acknowledged CA, {len(lab.received)} received, {len(missing)} missing, status {last}']
    return []


def plan_stays(program, folder):
    """A plan that the book of a store can't take is not taken at a start: the store's own stays in force, which the log and the metric
    say, until one is deployed."""
    port, lab = free_ports(1)[0], Destination(lambda text, before: b'AA', up=False)
    store, found = os.path.join(folder, 'plan-stays'), []
    text = one_channel(port, [('LAB', lab.port, ['interval = 1'])])

    def differs():
        return [line for line in service.ask('metrics') if line.startswith('hl7_plan_differs ')]

    with Service(program, text, folder, store=store) as service:
        taken = codes(exchange(port, [message(b'P0')]))
        found += [] if taken == [b'CA'] and differs() == ['hl7_plan_differs 0'] else [f'at first: {taken}, {differs()}']
        stopped(service, 'stop now')
    with Service(program, text.replace('name = "ADT"', 'name = "OTHER"'), folder, store=store) as service:
        said = any('the plan of the command line is not taken' in line for line in service.log)
        found += [] if said and differs() == ['hl7_plan_differs 1'] else [f'with another plan: {tail(service.log)}, {differs()}']
        taken = codes(exchange(port, [message(b'P1')]))
        with open(service.path, 'w', encoding='utf-8') as file:
            file.write(text)
        answer = service.ask(f'deploy {service.path}')
        found += [] if answer == ['deployed'] and differs() == ['hl7_plan_differs 0'] else [f'deployed: {answer}, {differs()}']
        lab.open()
        whole, status = wait_received(lab, 2), stopped(service)
    lab.close()
    if taken != [b'CA'] or not whole or status != 0 or lab.received != [message(b'P0'), message(b'P1')]:
        found.append(f'{taken}, {lab.received}, status {status}')
    return [f'the plan stays: {line}' for line in found]


STORES = [('the plan stays', plan_stays), ('in use by another process', in_use), ('no folder', no_folder), ('no place', no_place),
          ('modes', modes), ('stop now, and on', stopped_now), ('numbers go on', numbers_go_on), ('repeats', repeats),
          ('what a command answered', commanded), ('damaged', damaged), ('lost records', lost), ('a full disk', full_disk),
          ('a stop on a full disk', full_at_stop)]
