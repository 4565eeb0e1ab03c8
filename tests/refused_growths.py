#!/usr/bin/env python3
"""Refuses each memory request of a call in turn, until a run has no refusal, and compares the state before and after the call.

Usage: tests/refused_growths.py [WORD]

In the scripts of the programs refuse_books and refuse_worlds, each of which has parts that begin with a line '=== NAME', some calls
follow 'try '. For each of these the built program makes the calls of its part before it, and then that call with a small C
library, tests/refuse.c, which refuses the Nth memory request of the call. A call that is refused memory reports it and changes
nothing that can be observed, and when it is repeated it answers as if it had never been refused; or it continues without that
memory, and answers as it does with it. When a connection is served, it ends or its message is acknowledged with NoMemory, and a
delivery makes at most one further attempt. Then the program hl7_engine answers a stream while each of its own requests is refused
in turn. With a WORD, only lines that contain it are tried. If there is no C compiler, the script says so and tries nothing. The exit
status is 0 if all of this holds. Plain Python 3, no packages.
"""
import os
import re
import shutil
import subprocess
import sys
import tempfile

HERE = os.path.dirname(os.path.abspath(__file__))
CRATES = os.path.join(HERE, '..', 'crates')
NO_MEMORY = 'out of memory'
PROGRAMS = ('refuse_books', 'refuse_worlds')
# What a line begins with that begins a part of a script.
PART = '=== '
# What a program prints after the last answer of a part.
ENDINGS = {'shared': ['closed']}
# More requests than any call makes.
MOST = 5_000


class Wrong(Exception):
    """A run that isn't as expected."""


def ran(name, lines, library, variable=None, number=None):
    """The lines that a program prints for a script, and whether a request was refused."""
    folder = os.path.join(CRATES, name)
    data = os.path.join(folder, 'data')
    env = dict(os.environ, LD_PRELOAD=library)
    if variable:
        env[variable] = str(number)
    done = subprocess.run([os.path.abspath(os.path.join(folder, 'out', name))], input='\n'.join(lines) + '\n', env=env,
                          cwd=data if os.path.isdir(data) else folder, capture_output=True, text=True, timeout=60)
    if done.returncode != 0:
        raise Wrong(f'status {done.returncode}: {done.stderr.strip()}')
    return done.stdout.splitlines(), 'refused' in done.stderr.splitlines()


def answers(lines, calls):
    """The answers to these calls, which are the last ones of a script."""
    answered = [line for line in lines if line not in ('begin', 'end')][-len(calls):]
    for line, call in zip(answered, calls):
        if not line.startswith(call + ': '):
            raise Wrong(f'{line!r} instead of the answer to {call!r}')
    return [line[len(call) + 2:] for line, call in zip(answered, calls)]


def plain(call, library, name, before, ending=None):
    """A call that changes nothing if it is refused memory. The calls of 'ending' follow those that are compared."""
    last_answers = ENDINGS.get(part_of(before), [])
    further = ending or []
    calls = ['state', f'try {call}', 'state', call, 'state', *further]
    was, due, became, *_ = answers(ran(name, before + calls, library)[0], calls + last_answers)
    end = answers(ran(name, before + [call, *further], library)[0], further + last_answers) if further + last_answers else []
    if last_answers and not end[-1].startswith('audit Ok(())'):
        raise Wrong(end[-1])

    def look(number):
        lines, refused = ran(name, before + calls, library, 'REFUSE', number)
        first, answer, after, again, last, *left = answers(lines, calls + last_answers)
        if first != was:
            raise Wrong(f'the state before is {first}')
        lacking = answer.startswith(NO_MEMORY)
        if lacking and refused:
            if (after, again, last, left) != (was, due, became, end):
                raise Wrong(f'refused, {after}; then {again}, {last}, {left}')
        elif (answer, after) != (due, became):
            raise Wrong(f'{answer}, {after}')
        return refused, lacking
    return look


def row(call, library, name, before):
    """A row of a store: the contents of each queue are compared too."""
    return plain(call, library, name, before, ['queues'])


def feed(call, library, name, before):
    """A piece of a stream that is refused memory: the stream has failed from then on, and its events before that are still available."""
    calls = [f'try {call}', call, 'events']
    due = answers(ran(name, before + calls[:1], library)[0], calls[:1])
    whole = answers(ran(name, before + [call, 'events'], library)[0], ['events'])[0]

    def look(number):
        lines, refused = ran(name, before + calls, library, 'REFUSE', number)
        answer, again, events = answers(lines, calls)
        if answer == NO_MEMORY and refused:
            if again != 'failed' or not whole.startswith(events):
                raise Wrong(f'refused; then {again}, {events} instead of {whole}')
        elif [answer] != due:
            raise Wrong(answer)
        return refused, answer == NO_MEMORY
    return look


def parts(state):
    """The state of a world's book, and what each connection was sent."""
    book, *sent = state.split('; to ')
    return book, sent


def chunk(call, library, name, before):
    """A message received on a connection: it is acknowledged with NoMemory and not booked, or it is booked; or the connection has
    ended after some of its replies, or before them."""
    calls = ['state', f'try {call}']
    was, became = (parts(state) for state in answers(ran(name, before + calls, library)[0], calls))
    conn = int(call.split()[1])
    due = became[1][conn].removesuffix(', ended false').removeprefix(was[1][conn].removesuffix(', ended false').removesuffix('<>'))
    block = due.split('<FS>')[0] + '<FS><CR>'
    prefix, _, id = block.removesuffix('<CR><FS><CR>').rpartition('MSA|CA|')
    refusal = f'{prefix}MSA|CE|{id}|NoMemory<CR><FS><CR>'

    def look(number):
        lines, refused = ran(name, before + calls, library, 'REFUSE', number)
        book, sent = parts(answers(lines, calls)[1])
        if [s for c, s in enumerate(sent) if c != conn] != [s for c, s in enumerate(was[1]) if c != conn]:
            raise Wrong('another connection was sent something')
        reply, _, ended = sent[conn].rpartition(', ended ')
        reply = reply.removeprefix(was[1][conn].removesuffix(', ended false').removesuffix('<>')).replace('<>', '')
        booked = book == became[0]
        if not booked and book != was[0]:
            raise Wrong(book)
        fine = {'false': (reply == due and booked) or (reply == refusal and not booked),
                'true': due.startswith(reply) and (booked or not reply)}[ended]
        if not fine or (not refused and reply != due):
            raise Wrong(f'{sent[conn]}, {"booked" if booked else "not booked"}')
        return refused, reply != due
    return look


def outcome_of(answer):
    """The reason why a connection or a delivery ended, the numbers with their names, and the bytes that were written."""
    words, _, written = answer.partition(': ')
    end, *numbers = words.split(', ')
    return end, numbers, '' if written == '<>' else written


def serving(call, library, name, before):
    """A connection that is served at a desk of a shared book: its message is acknowledged with NoMemory and not booked, or the
    connection has ended after some of its replies, or before them."""
    calls = ['state', f'try {call}', 'state']
    was, due, became, closed = answers(ran(name, before + calls, library)[0], calls + ['closed'])
    _, numbers, written = outcome_of(due)
    prefix, _, id = written.split('<FS><CR>')[0].rpartition('MSA|')
    id = (id + '||').split('|')[1].removesuffix('<CR>')
    unbooked = f'End, 0 booked, 1 not booked, 0 unreadable: {prefix}MSA|CE|{id}|NoMemory<CR><FS><CR>'

    def look(number):
        lines, refused = ran(name, before + calls, library, 'REFUSE', number)
        first, answer, after, left = answers(lines, calls + ['closed'])
        end, got, wrote = outcome_of(answer)
        booked = got[:1] == numbers[:1]
        cut = end == 'NoMemory' and written.startswith(wrote) and (wrote == '' or wrote.endswith('<FS><CR>')) \
            and after == (became if booked else was)
        if first != was or not left.startswith('audit Ok(())'):
            raise Wrong(f'the state before is {first}; at the end {left}')
        if not refused and (answer, after, left) != (due, became, closed):
            raise Wrong(f'{answer}, {after}')
        if not ((answer, after) == (due, became) or (answer, after) == (unbooked, was) or cut):
            raise Wrong(f'{answer}, {after}')
        return refused, answer != due
    return look


def without_attempts(state):
    """The state of a shared book, without the numbers that a further attempt increases."""
    return re.sub(r'(takes|settlements|held:|owed:|attempts:) \d+', r'\1', state)


def delivery(call, library, name, before):
    """A delivery: each message is delivered, in order, with at most one further attempt, which may have sent its block."""
    calls = ['state', f'try {call}', 'state']
    was, due, became = answers(ran(name, before + calls, library)[0], calls + ['closed'])[:3]
    end, numbers, written = outcome_of(due)
    blocks = [block + '<FS><CR>' for block in written.split('<FS><CR>')[:-1]]
    count = len(blocks)
    again = f'{end}, taken {count + 1}, delivered {count}, again 1, rejected 0'
    if count == 0 or due != f'{end}, taken {count}, delivered {count}, again 0, rejected 0: {written}' or end != 'Drained':
        raise Wrong(due)
    more = [''.join(blocks[:k] + blocks[k:k + 1] + blocks[k:]) for k in range(count)]

    def look(number):
        lines, refused = ran(name, before + calls, library, 'REFUSE', number)
        first, answer, after, left = answers(lines, calls + ['closed'])
        outcome, _, wrote = answer.partition(': ')
        if first != was or not left.startswith('audit Ok(())'):
            raise Wrong(f'the state before is {first}; at the end {left}')
        if (answer, after) != (due, became) and not (
                refused and outcome == again and wrote in (written, *more) and without_attempts(after) == without_attempts(became)):
            raise Wrong(f'{answer}, {after}')
        return refused, answer != due
    return look


def step(call, library, name, before):
    """A step of a world, whose answer is the state after it. If it was refused memory, that is the state before it."""
    calls = ['state', f'try {call}', call]
    was, became, _ = answers(ran(name, before + calls, library)[0], calls)

    def look(number):
        lines, refused = ran(name, before + calls, library, 'REFUSE', number)
        first, after, again = answers(lines, calls)
        if first != was or after != became and not (refused and (after, again) == (was, became)):
            raise Wrong(f'{after}; then {again}')
        return refused, after != became
    return look


def part_of(before):
    """The name of a part, by its lines."""
    return before[0].removeprefix(PART)


def kind(part, call):
    """The function that checks a call of a part."""
    if part == 'worlds':
        return {'chunk': chunk, 'steps': plain}.get(call.split()[0], step)
    return {'feed': feed, 'push': row, 'serve': serving, 'deliver': delivery}.get(call.split()[0], plain)


def each_in_turn(look):
    """The number of refused requests, the number of them that the call reported, and the failure if there is one."""
    reported = 0
    for number in range(1, MOST):
        try:
            refused, lacked = look(number)
        except (Wrong, OSError, subprocess.SubprocessError, ValueError, KeyError, IndexError) as fault:
            return number, reported, f'request {number}: {fault}'
        if not refused:
            return number - 1, reported, None
        reported += lacked
    return MOST, reported, 'every run had a refusal'


def tries(name):
    """Yields each call of a program's script that is tried, with the lines of its part before it."""
    with open(os.path.join(CRATES, name, 'stdin'), encoding='utf-8') as script:
        lines = script.read().splitlines()
    first = 0
    for index, line in enumerate(lines):
        if line.startswith(PART):
            first = index
        if line.startswith('try '):
            yield line[4:], [before.removeprefix('try ') for before in lines[first:index]]


def message(number):
    return (f'\x0bMSH|^~\\&|REG|HOSP|ENG|HUB|20231114221300||ADT^A01^ADT_A01|M{number}|P|2.5.1|||AL|NE\r'
            f'PID|1||{"7" * (number * 90)}^^^H\r\x1c\r').encode()


def answering(library):
    """The program hl7_engine, which serves one connection from its start to its end."""
    program = os.path.abspath(os.path.join(CRATES, 'hl7_engine', 'out', 'hl7_engine'))
    stream = b''.join(message(number) for number in range(4))

    def run(number):
        done = subprocess.run([program], input=stream, capture_output=True, timeout=60,
                              env=dict(os.environ, LD_PRELOAD=library, REFUSE_FROM=str(number)))
        return done.returncode, done.stdout.split(b'\x1c\r'), done.stderr.replace(b'refused\n', b''), b'refused\n' in done.stderr
    status, dues, _, _ = run(0)
    if status != 0 or len(dues) != 5:
        raise Wrong(f'with memory: status {status}, {len(dues) - 1} replies')

    def look(number):
        status, replies, err, refused = run(number)
        rest = replies.pop()
        for message, (got, due) in enumerate(zip(replies, dues)):
            if got not in (due, due.replace(b'MSA|CA|M%d\r' % message, b'MSA|CE|M%d|NoMemory\r' % message)):
                raise Wrong(got)
        whole = (status, err, len(replies)) == (0, b'', 4)
        if rest or not whole and (status, err) != (3, b'memory\n'):
            raise Wrong(f'status {status}, {err}, {len(replies)} replies')
        return refused, not whole or any(b'NoMemory' in got for got in replies)
    return look


def main():
    compiler = shutil.which('cc') or shutil.which('gcc') or shutil.which('clang')
    if compiler is None:
        print('NOT TRIED: there is no C compiler for the library that refuses requests for memory')
        return 0
    wanted, wrong, calls, requests = (sys.argv + [''])[1], 0, 0, {}
    with tempfile.TemporaryDirectory() as folder:
        library = os.path.join(folder, 'refuse.so')
        subprocess.run([compiler, '-shared', '-fPIC', '-O1', '-o', library, os.path.join(HERE, 'refuse.c')], check=True)
        looks = [(f'{name} {part_of(before)}', call,
                  lambda name=name, call=call, before=before: kind(part_of(before), call)(call, library, name, before))
                 for name in PROGRAMS
                 for call, before in tries(name)]
        looks.append(('hl7_engine', 'answer', lambda: answering(library)))
        for name, call, look in looks:
            if wanted not in f'{name} {call}':
                continue
            try:
                refused, reported, fault = each_in_turn(look())
            except (Wrong, OSError, subprocess.SubprocessError, ValueError) as broken:
                refused, reported, fault = 0, 0, f'with memory: {broken}'
            wrong, calls = wrong + (fault is not None), calls + 1
            requests[name] = requests.get(name, 0) + refused
            print(f'{name}: {call[:60]}: {refused} requests refused, {reported} reported' + (f'; WRONG: {fault}' if fault else ''),
                  flush=True)
    for name in (name for name, refused in requests.items() if not refused):
        wrong += 1
        print(f'{name}: WRONG: none of its requests was refused')
    print(f'{calls} calls, {sum(requests.values())} requests refused: {"as it should be" if not wrong else f"{wrong} WRONG"}')
    return 1 if wrong else 0


if __name__ == '__main__':
    sys.exit(main())
