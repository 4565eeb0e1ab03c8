"""What the service notes about messages beside its book: when and from where each was received, when it was tried and ended there, and what
the destinations said, around the built service."""
import os
import re
import subprocess

from engine import one_channel
from holds import MOMENT, accepts, asked, until
from mllp import HANG_UP, Destination, block, field, free_ports, message
from served import LIMIT, Service, exchange, wait_received, wait_status
from web import got

ONCE = ['attempts = 1', 'interval = 1']
# An answer of a destination that says why, with a patient's name, control bytes and more than 200 bytes.
SAYS = (b'MSA-3 no such patient: DOE, JANE\\x0A\\x1B[1m; MSA-6 207^Application error; ERR-1.4 101; ERR-3 204^Unknown key; '
        b'ERR-7 \\x22PID-3\\x22 \\xC3\\xA4; ERR-8 ')
FIELDS = (b'no such patient: DOE, JANE\n\x1b[1m', b'207^Application error', b'PID^1^3^101', b'204^Unknown key', b'"PID-3" \xc3\xa4')


def refusal(text, code=b'AR'):
    """A destination's answer to a message, with words in MSA and ERR."""
    control_id, (why, condition, place, fault, found) = field(text, b'MSH', 10), FIELDS
    return block(b'\r'.join([
        b'MSH|^~\\&|PEER|X|ENG|HUB|20231114221300||ACK|' + control_id + b'|P|2.5.1',
        b'MSA|' + code + b'|' + control_id + b'|' + why + b'|||' + condition,
        b'ERR|' + place + b'||' + fault + b'|E|||' + found + b'|' + b'u' * 300, b'ERR|PID^1^3^102||second']) + b'\r')


def shown_words():
    """What is shown of such an answer: at most 200 bytes."""
    return (SAYS + b'u' * 300)[:200].decode()


def matches(lines, patterns):
    """Whether each line is one of the pattern in its place."""
    return lines is not None and len(lines) == len(patterns) and all(re.fullmatch(pattern, line) for pattern, line in zip(patterns, lines))


def failures_say_when(program, folder):
    """`failed` says when each message failed, why, and what the destination said; `message` says when and from where it was received and how
    each delivery went; none of the words is in the log or answered over HTTP."""
    name, (port, web) = 'noted failures', free_ports(2)
    lab = Destination(lambda text, before: {b'N0': refusal(text), b'N1': HANG_UP}.get(field(text, b'MSH', 10), b'AA'))
    ehr, found = Destination(accepts), []
    with Service(program, one_channel(port, [('LAB', lab.port, ONCE), ('EHR', ehr.port, ONCE)]), folder, '--http', f'127.0.0.1:{web}') as service:
        exchange(port, [message(b'N0'), message(b'N1'), message(b'N2')])
        wait_received(ehr, 3)
        wait_status(service, 'destination LAB waiting 0 inflight 0 delivered 1 failed 2')
        wait_status(service, 'destination EHR waiting 0 inflight 0 delivered 3')
        until(lambda: all('at this moment' not in ' '.join(service.ask(f'message {number}')) for number in range(3)))
        words = re.escape(shown_words())
        why = 'closed by the destination before an answer'
        if not matches(service.ask('failed LAB'), [
                f'message 1 control_id N1 failed no attempt left; attempt 1 at {MOMENT}: {why}; ended at {MOMENT}',
                f'message 0 control_id N0 failed rejected; attempt 1 at {MOMENT}: answered AR; ended at {MOMENT}; the answer says {words}',
                'failed 2']):
            found.append(f'{name}: failed: {service.ask("failed LAB")}, {shown_words()}')
        first, last = service.ask('message 0'), service.ask('message 2')
        received = rf'received {MOMENT} from 127\.0\.0\.1:\d+'
        ends = ['outcome failed', f'destination LAB failed rejected; attempt 1 at {MOMENT}: answered AR; ended at {MOMENT}; the answer says {words}',
                f'destination EHR delivered; attempt 1 at {MOMENT}; ended at {MOMENT}']
        if not matches(first[:1], [received]) or not matches(first[-3:], ends):
            found.append(f'{name}: message 0: {first}')
        ends = ['outcome delivered', f'destination LAB delivered; attempt 1 at {MOMENT}; ended at {MOMENT}',
                f'destination EHR delivered; attempt 1 at {MOMENT}; ended at {MOMENT}']
        if not matches(last[:1], [received]) or not matches(last[-3:], ends):
            found.append(f'{name}: message 2: {last}')
        bodies = b''.join(got(web, target)[2] for target in (
            b'/', b'/status', b'/status.json', b'/metrics', b'/messages/0', b'/destinations/LAB/failed', b'/destinations/LAB/waiting'))
        if b'JANE' in bodies or any('JANE' in line for line in service.log):
            found.append(f'{name}: the words of an answer are in the log or over HTTP')
        service.ask('stop')
        service.ended()
    lab.close()
    ehr.close()
    return found


def waits_say_since_when(program, folder):
    """`waiting` says since when each message waits, and the last answer or fault; what is cancelled has an end."""
    name, port, found = 'noted waits', free_ports(1)[0], []
    lab = Destination(lambda text, before: refusal(text, b'AE'))
    with Service(program, one_channel(port, [('LAB', lab.port, ['attempts = 9', 'interval = 1'])]), folder) as service:
        exchange(port, [message(b'W0'), message(b'W1')])
        until(lambda: 'answered AE' in ' '.join(service.ask('waiting LAB')))
        words = re.escape(shown_words())
        received = rf'received {MOMENT} from 127\.0\.0\.1:\d+'
        state = rf'(waiting attempts \d due {MOMENT}|in flight attempt \d)'
        lines = service.ask('waiting LAB')
        if not matches(lines, [
                rf'message 0 control_id W0 {state}; {received}; attempt \d at {MOMENT}: answered AE; the answer says {words}',
                rf'message 1 control_id W1 waiting attempts 0 due {MOMENT}; {received}', 'waiting 2']):
            found.append(f'{name}: waiting: {lines}')
        service.ask('cancel 1 LAB')
        if not matches(service.ask('failed LAB'), [f'message 1 control_id W1 failed cancelled; ended at {MOMENT}', 'failed 1']):
            found.append(f'{name}: failed: {service.ask("failed LAB")}')
        if not any(line == 'outcome waiting' for line in service.ask('message 0')):
            found.append(f'{name}: message: {service.ask("message 0")}')
        lab.close()
        why = r"(can't connect: .*|closed by the destination before an answer|connection failed: .*)"
        until(lambda: re.search(rf'attempt \d at {MOMENT}: {why}', ' '.join(service.ask('waiting LAB'))), 10)
        service.ask('stop now')
        service.ended()
    return found


def words_where_asked(program, folder):
    """With `--answer-text log` the log has the words of an answer that refuses a message, with `none` nothing has them; another word is
    refused."""
    name, found = 'words of answers', []
    for place, in_log, in_answer in (('log', True, True), ('none', False, False), ('commands', False, True)):
        lab, port = Destination(lambda text, before: refusal(text)), free_ports(1)[0]
        with Service(program, one_channel(port, [('LAB', lab.port, ONCE)]), folder, '--answer-text', place) as service:
            exchange(port, [message(b'P0')])
            wait_status(service, 'destination LAB waiting 0 inflight 0 delivered 0 failed 1')
            until(lambda: 'attempt 1' in ' '.join(service.ask('failed LAB')))
            answer = ' '.join(service.ask('failed LAB'))
            says = any("the destination's answer says: " + shown_words()[:40] in line and 'destination=LAB message=0 control_id=P0 attempt=1' in line
                       for line in service.log)
            if (says, 'JANE' in answer, 'answered AR' in answer) != (in_log, in_answer, True):
                found.append(f'{name}: {place}: {answer}, {service.log[-3:]}')
            service.ask('stop')
            service.ended()
        lab.close()
    path = os.path.join(folder, 'plan.toml')
    done = subprocess.run([program, 'run', path, '--memory', '--answer-text', 'all'], stdin=subprocess.DEVNULL, capture_output=True,
                          timeout=LIMIT, check=False)
    if done.returncode != 2 or b"the word of '--answer-text <WHERE>' has to be none, commands or log" not in done.stderr:
        found.append(f'{name}: another word: {done.returncode}, {done.stderr}')
    return found


def forgotten_with_the_book(program, folder):
    """What is noted is forgotten with the message; what was before the start of the service isn't known."""
    name, port, store, found = 'notes are forgotten', free_ports(1)[0], os.path.join(folder, 'store'), []
    lab = Destination(accepts)
    text = one_channel(port, [('LAB', lab.port, [])])
    words = ('--events', '3000', '--keep', '2')
    with Service(program, text, folder, *words, store=store) as service:
        exchange(port, [message(b'F%d' % n) for n in range(200)])
        wait_status(service, 'destination LAB waiting 0 inflight 0 delivered 200')
        service.ask('prune')
        found += asked(name, service, [('message 0', ['forgotten'])])
        until(lambda: 'at this moment' not in ' '.join(service.ask('message 199')))
        if not matches(service.ask('message 199')[:1], [rf'received {MOMENT} from 127\.0\.0\.1:\d+']):
            found.append(f'{name}: {service.ask("message 199")}')
        service.ask('stop')
        service.ended()
    with Service(program, text, folder, *words, store=store) as service:
        lines = service.ask('message 199')
        wanted = 'destination LAB delivered; the last attempt was before the service started, or at this moment'
        if (lines[0], lines[-1]) != ('received before the service started, or at this moment', wanted):
            found.append(f'{name}: after a start: {lines}')
        service.ask('stop')
        service.ended()
    lab.close()
    return found


NOTES = [('failures say when', failures_say_when), ('waits say since when', waits_say_since_when),
         ('the words of answers', words_where_asked), ('notes are forgotten', forgotten_with_the_book)]
