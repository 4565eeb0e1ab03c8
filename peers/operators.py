"""Scenes of the built service at the edges of what an operator meets: a slow reader of the log, taken connections, commands at the
end of standard input, files that are too large, prunings by hand, interrupted commands."""
import calendar
import hashlib
import os
import socket
import stat
import subprocess
import time

from engine import one_channel, plan
from mllp import SILENCE, Destination, Sender, block, field, free_ports, message
from served import LIMIT, Service, exchange, wait_received

HERE = os.path.dirname(os.path.abspath(__file__))


def logged(service, *words, limit=10):
    """Whether a line of the log has all of these words, within a time."""
    until = time.monotonic() + limit
    while time.monotonic() < until:
        if any(all(word in line for word in words) for line in service.log):
            return True
        time.sleep(0.05)
    return False


def last_line(program, folder):
    """`stop` without a line break at the end of standard input is obeyed."""
    port = free_ports(1)[0]
    path = os.path.join(folder, 'plan.toml')
    with open(path, 'w', encoding='utf-8') as file:
        file.write(one_channel(port, [('LAB', free_ports(1)[0], [])]))
    done = subprocess.run([program, 'run', path, '--memory'], input=b'status\nstop', capture_output=True, timeout=LIMIT, check=False)
    return [] if done.returncode == 0 and b'> stop\nstopping\n' in done.stdout else [f'last line: {done}']


def large_file(program, folder):
    """A plan of more than 4 MiB is refused by `deploy`, by `run`, by `check` and by `try`, and commands are obeyed behind it."""
    port, found = free_ports(1)[0], []
    text = one_channel(port, [('LAB', free_ports(1)[0], [])])
    large = os.path.join(folder, 'large.toml')
    with open(large, 'w', encoding='utf-8') as file:
        file.write(text + '# ' + 'x' * 4_194_304 + '\n')
    with Service(program, text, folder) as service:
        answer = service.ask(f'deploy {large}')
        if answer != [f'refused: file {large}: it has more than 4194304 bytes'] or not service.ask('status'):
            found.append(f'large file: {answer}')
    for words in (['run', large, '--memory'], ['check', large], ['try', large]):
        done = subprocess.run([program, *words], stdin=subprocess.DEVNULL, capture_output=True, timeout=LIMIT, check=False)
        if done.returncode != 3 or b'has more than 4194304 bytes' not in done.stderr:
            found.append(f'large file: {words}: {done}')
    return found


def connections_taken(program, folder):
    """Where all connections of a channel are taken, a line says so, and the numbers of the channel do."""
    port, lab = free_ports(1)[0], Destination(lambda text, before: b'AA')
    with Service(program, one_channel(port, [('LAB', lab.port, [])]), folder, '--connections', '2') as service:
        held = [socket.create_connection(('127.0.0.1', port), timeout=LIMIT) for _ in range(2)]
        for one in held:
            one.sendall(block(message(b'A%d' % one.fileno())))
            one.recv(4_096)
        is_logged = logged(service, 'WARN all connections of the channel are taken', 'channel=ADT', 'connections=2')
        status, metrics = service.ask('status'), service.ask('metrics')
        for one in held:
            one.close()
    lab.close()
    wanted = ['hl7_channel_open_connections{channel="ADT"} 2', 'hl7_channel_max_connections{channel="ADT"} 2']
    if not is_logged or 'connections ADT open 2 of 2' not in status or any(line not in metrics for line in wanted):
        return [f'connections taken: logged {is_logged}, {status}']
    return []


def no_id(program, folder):
    """Of a control id that can't be one, as a name where a header lost its carriage return, the log has no more than its beginning."""
    port, lab = free_ports(1)[0], Destination(lambda text, before: b'AA')
    text = message(b'A0').replace(b'|A0|', b'|A0PID^1^77^DOE^JANE|').replace(b'|P|2.5.1', b'|X|2.5.1')
    with Service(program, one_channel(port, [('LAB', lab.port, [])]), folder) as service:
        exchange(port, [text])
        is_logged = logged(service, 'message refused', f'control_id=A0PID..({len(b"A0PID^1^77^DOE^JANE")})')
        lines = [line for line in service.log if 'JANE' in line or 'DOE' in line]
    lab.close()
    return [] if is_logged and not lines else [f'no id: logged {is_logged}, {lines}, {service.log[-3:]}']


def kinds(program, folder):
    """A sender that varies the number of a bad segment doesn't make a line of each: they are of one kind."""
    port, lab = free_ports(1)[0], Destination(lambda text, before: b'AA')
    texts = [message(b'A%d' % n) + b'NTE|1\r' * n + b'bad|2\r' for n in range(200)]
    with Service(program, one_channel(port, [('LAB', lab.port, [])]), folder) as service:
        with socket.create_connection(('127.0.0.1', port), timeout=LIMIT) as connection:
            for text in texts:
                connection.sendall(block(text))
            connection.shutdown(socket.SHUT_WR)
            while connection.recv(65_536):
                pass
        is_logged = logged(service, 'WARN text unreadable: a segment has a bad name', 'segment=')
        time.sleep(0.5)
        lines = [line for line in service.log if 'text unreadable' in line]
    lab.close()
    return [] if is_logged and len(lines) == 1 else [f'kinds: {len(lines)} lines, {lines[:3]}']


def slow_log(program, folder):
    """While nobody reads the log, lines at level info are dropped and each refused message keeps its line: 600 connections are opened
    and closed (1,200 lines at level info) around messages that fail."""
    port, lab = free_ports(1)[0], Destination(lambda text, before: b'AR')
    path = os.path.join(folder, 'plan.toml')
    with open(path, 'w', encoding='utf-8') as file:
        file.write(one_channel(port, [('LAB', lab.port, [])]))
    process = subprocess.Popen([program, 'run', path, '--memory'], stdin=subprocess.PIPE, stdout=subprocess.PIPE, stderr=subprocess.PIPE)
    try:
        while b'the service is ready' not in process.stderr.readline():
            pass
        for number in range(30):
            exchange(port, [message(b'S%d' % number)])
            for _ in range(40):
                socket.create_connection(('127.0.0.1', port), timeout=LIMIT).close()
        wait_received(lab, 30)
        time.sleep(1)
        process.stdin.write(b'stop\n')
        process.stdin.close()
        lines = process.stderr.read().decode(errors='replace').splitlines()
        process.wait(LIMIT)
    finally:
        process.kill()
        lab.close()
    failed = {line.split('control_id=')[1].split(' ')[0] for line in lines if 'message failed: rejected' in line}
    missing = [f'S{number}' for number in range(30) if f'S{number}' not in failed]
    is_full = any('lines of the log were dropped' in line for line in lines)
    return [] if is_full and not missing else [f'slow log: dropped {is_full}, {len(missing)} of 30 not named']


def prunings(program, folder):
    """`prune` makes no pruning that frees little, and `status` says how long those left will last."""
    port, lab, found = free_ports(1)[0], Destination(lambda text, before: b'AA'), []
    with Service(program, one_channel(port, [('LAB', lab.port, [])]), folder, '--events', '10000', '--keep', '0') as service:
        exchange(port, [message(b'P%d' % n) for n in range(10)])
        wait_received(lab, 10)
        little = service.ask('prune')
        exchange(port, [message(b'Q%d' % n) for n in range(40)])
        wait_received(lab, 50)
        time.sleep(0.3)
        done = service.ask('prune')
        status = [line for line in service.ask('status') if line.startswith('prunings ')]
    lab.close()
    if not little or not little[0].startswith('refused: it would free fewer than 100 entries'):
        found.append(f'prunings: {little}')
    if not done or done[0] != 'messages below 50 are forgotten' or not status[0].startswith('prunings 1 left 999 for '):
        found.append(f'prunings: {done}, {status}')
    return found


def interrupted(program, folder):
    """hl7ctl doesn't take the answer to an interrupted command for its own: here one command was sent whose answer nobody has read,
    and its answer comes while hl7ctl waits for another one."""
    fifos = {name: os.path.join(folder, name) for name in ('commands', 'answers')}
    for path in fifos.values():
        os.mkfifo(path)
    plan_path = os.path.join(folder, 'plan.toml')
    with open(plan_path, 'w', encoding='utf-8') as file:
        file.write(one_channel(free_ports(1)[0], [('LAB', free_ports(1)[0], [])]))
    opened = [os.open(fifos[name], os.O_RDWR) for name in ('commands', 'answers')]
    process = subprocess.Popen(['bash', '-c', 'sleep 1; exec "$0" run "$1" --memory', program, plan_path], stdin=opened[0], stdout=opened[1],
                               stderr=subprocess.DEVNULL)
    control = os.path.join(HERE, '..', 'examples', 'service', 'hl7ctl')
    try:
        os.write(opened[0], b'help\n')  # its hl7ctl was interrupted before the service answered
        done = subprocess.run([control, 'cancel 7'], env=dict(os.environ, HL7_SERVICE_DIR=folder), capture_output=True, timeout=LIMIT,
                              check=False)
    finally:
        process.kill()
        process.wait()
        for one in opened:
            os.close(one)
    return [] if done.returncode == 1 and done.stdout.startswith(b'refused: ') else [f'interrupted: {done}']


def held_up(program, folder):
    """A message at a dead destination keeps all behind it from being forgotten. A line names it when half as many are remembered as
    may be, and from four fifths on the channel that leads to its destination pauses, while another channel goes on."""
    ports, lab = free_ports(3), Destination(lambda text, before: b'AA')
    text = plan([('DEAD', ports[0], [('GONE', None, None)]), ('ADT', ports[1], [('LAB', None, None)])],
                [('GONE', ports[2], []), ('LAB', lab.port, [])])
    with Service(program, text, folder, '--events', '400', '--keep', '0') as service:
        exchange(ports[0], [message(b'G0')])
        exchange(ports[1], [message(b'L%d' % n) for n in range(250)])
        half = logged(service, 'WARN half as many messages are remembered as may be', 'destination=GONE', 'message=0')
        exchange(ports[1], [message(b'M%d' % n) for n in range(90)])
        paused = logged(service, 'WARN reading paused: four fifths as many messages', 'channel=DEAD', 'destination=GONE', 'message=0')
        goes_on = len(exchange(ports[1], [message(b'N%d' % n) for n in range(20)]))
        status, metrics = service.ask('status'), service.ask('metrics')
        cancelled = service.ask('cancel 0')
        again = logged(service, 'INFO reading again', 'channel=DEAD')
    lab.close()
    if not (half and paused and again) or goes_on != 20 or 'paused DEAD' not in status or 'paused ADT' in status \
            or 'hl7_book_remembered_max 400' not in metrics:
        return [f'held up: {half} {paused} {goes_on} {again}, {cancelled}, {status}, {service.log[-5:]}']
    return []


def shown(program, folder):
    """`show` prints a message as it was received, a segment a line, with nothing that a terminal would act on; `export` writes its
    bytes to a new file that only its owner may read. Both are logged, without a word of the message; with --show off both are
    refused."""
    port, lab, found = free_ports(1)[0], Destination(lambda text, before: b'AA'), []
    text, path = message(b'A0', patient=b'77\x1b[31m^\xc3\x9c^\\X0D\\^DOE'), os.path.join(folder, 'a b.hl7')
    plan_text = one_channel(port, [('LAB', lab.port, [])])
    with Service(program, plan_text, folder) as service:
        exchange(port, [text])
        wait_received(lab, 1)
        answers = [service.ask(command) for command in (
            'show 0', 'show 1', f'export 0 {path}', f'export 0 {path}', f'export 1 {path}.1', f'export 0 {folder}/no/such')]
        is_logged = logged(service, 'INFO message shown', 'message=0', 'control_id=A0') \
            and logged(service, 'INFO message exported', 'message=0', 'control_id=A0', f'path={path}')
        lines = [line for line in service.log if 'DOE' in line or '1 message' in line]
    wanted = [['  MSH|^~\\&|REG|HOSP|ENG|HUB|20231114221300||ADT^A01^ADT_A01|A0|P|2.5.1|||AL|NE',
               '  PID|1||77\\x1B[31m^\\xC3\\x9C^\\X0D\\^DOE', '  PV1|1|I'], ['no such message'],
              [f'exported {len(text)} bytes to {path}'], [f'refused: file {path}: File exists (os error 17)'], ['no such message'],
              [f'refused: file {folder}/no/such: No such file or directory (os error 2)']]
    if answers != wanted or not is_logged or lines or os.path.exists(path + '.1'):
        found.append(f'shown: {answers}, logged {is_logged}, {lines}')
    with open(path, 'rb') as file:
        if file.read() != text or stat.S_IMODE(os.stat(path).st_mode) != 0o600:
            found.append(f'shown: the file differs, or has the mode {os.stat(path).st_mode:o}')
    with Service(program, plan_text, folder, '--show', 'off') as service:
        exchange(port, [text])
        answers = [service.ask(command) for command in ('show 0', f'export 0 {path}.2')]
    lab.close()
    if answers != [['refused: the service was started with --show off']] * 2 or os.path.exists(path + '.2'):
        found.append(f'shown: off: {answers}')
    return found


def plans(program, folder):
    """`plan` says which file the plan in force was read from, since when it is in force and what its SHA-256 is; `plan text` prints
    it. A plan that is refused changes neither."""
    port, found = free_ports(1)[0], []
    texts = [f'# Plan {letter}\n' + one_channel(port, [('LAB', port + 1, [])]) for letter in 'AB\u00dc']
    paths = [os.path.join(folder, f'{number}.toml') for number in range(3)]
    for path, text in zip(paths, texts):
        with open(path, 'w', encoding='utf-8') as file:
            file.write(text)
    with Service(program, texts[0], folder) as service:
        before = int(time.time())
        for path, text, number in [(service.path, texts[0], 0), (paths[1], texts[1], 1), (paths[2], texts[2], 2)]:
            if number:
                service.ask(f'deploy {path}')
            service.ask(f'deploy {folder}/none.toml')
            answer = service.ask('plan')
            digest = hashlib.sha256(text.encode()).hexdigest()
            since = time.strptime(answer[1], 'in force since %Y-%m-%dT%H:%M:%SZ')
            passed = calendar.timegm(since) - before
            if [answer[0], *answer[2:]] != [f'path {path}', f'sha256 {digest}', f'deployments {number} left {1_000 - number}'] \
                    or not -LIMIT < passed < LIMIT:
                found.append(f'plans: {answer}, {passed} seconds')
            if service.ask('plan text') != [f'  {line}' for line in text.removesuffix('\n').split('\n')]:
                found.append(f'plans: {service.ask("plan text")}')
    return found


def drained(program, folder):
    """While `stop` waits, the log says at once and then every ten seconds what it waits for."""
    ports, lab = free_ports(2), Destination(lambda text, before: SILENCE)
    text = one_channel(ports[0], [('LAB', lab.port, ['timeout = 60']), ('RAD', ports[1], [])])
    with Service(program, text, folder, '--grace', '1') as service:
        exchange(ports[0], [message(b'A%d' % number) for number in range(3)])
        wait_received(lab, 1)
        service.ask('cancel 2 RAD')
        service.ask('stop')
        is_logged = logged(service, 'INFO stopping: messages wait for delivery, or are in flight', 'messages=LAB:3,RAD:2')
        service.ask('cancel 1 RAD')
        is_later = logged(service, 'INFO stopping: messages wait for delivery, or are in flight', 'messages=LAB:3,RAD:1', limit=15)
        service.ask('stop now')
        service.ended()
        lines = [line for line in service.log if 'INFO stopping: messages' in line]
    lab.close()
    return [] if is_logged and is_later and len(lines) == 2 else [f'drained: {is_logged} {is_later} {lines}']


def brought(program, folder):
    """The line of a connection's end says what became of the messages and blocks that were received over it."""
    port, lab = free_ports(1)[0], Destination(lambda text, before: b'AA')
    text = plan([('ADT', port, [('LAB', '{ equals = ["PV1-2", "I"] }', None)])], [('LAB', lab.port, [])])
    texts = [message(b'E0'), message(b'E1'), message(b'E0'), message(b'E2', ward=b'O'), message(b'E3', version=b'2.3'), message(b'E1')]
    wanted = ['connection ended: closed by the sender', 'accepted=2', 'filtered=1', 'refused=1', 'repeats=2', 'unbooked=0']
    with Service(program, text, folder) as service:
        replies = exchange(port, texts)
        found = [] if logged(service, *wanted) else [f'brought: {[line for line in service.log if "ended" in line]}']
        service.ask('stop')
        service.ended()
    lab.close()
    return found if len(replies) == len(texts) else [*found, f'brought: {replies}']


OPERATORS = [('what a connection brought', brought), ('the text of a message', shown), ('where the plan comes from', plans), ('what a stop waits for', drained),
             ('a last line without a break', last_line), ('a plan that is too large', large_file),
             ('all connections are taken', connections_taken), ('a control id that is none', no_id), ('kinds of lines', kinds),
             ('a log that is read slowly', slow_log), ('prunings by hand', prunings), ('a message that holds up forgetting', held_up), ('an interrupted command', interrupted)]
