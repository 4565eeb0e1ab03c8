#!/usr/bin/env python3
"""A day of the built service in minutes: 10,000,000 messages by 64 connections to 8 destinations, of which one is slow and one is
dead for a third of the messages, while a plan is deployed, settled messages are forgotten and the metrics are scraped once a second.
It compares resident memory, log lines and counts with what they have to be.

Usage: bench/day.py [PROGRAM] [--messages N] [--outages N] [--rate N]

PROGRAM is the built service, by default crates/hl7_service/out/hl7_service ('rt run' in crates/hl7_service builds it). --outages is how
often the one destination is dead, by default once for each 1,000,000 messages and twice at least: each time for the middle third of
an equal part of the messages, since a book remembers 1,100,000 messages at most behind one that waits. --rate is how many messages
each connection sends a second; without it, each has 16 unacknowledged at a time.

Plain Python 3, no packages. The load generator and the destinations are Rust, of bench/twins, and need rustc; where there is none,
nothing is measured. The service runs with MALLOC_ARENA_MAX=1, unless that is set otherwise. A line with a bound ends with ok or
MISSED; the exit status is 0 if every bound is met.
"""
import argparse
import os
import re
import sys
import tempfile
import time
import urllib.request
from collections import Counter

sys.path.insert(0, os.path.join(os.path.dirname(os.path.abspath(__file__)), '..', 'peers'))
from bounds import Bounds, resident  # noqa: E402
from engine import channel_counts, checks_accesses, plan  # noqa: E402
from load import LIMIT, Load, Sink, compiled  # noqa: E402
from mllp import free_ports  # noqa: E402
from served import Service  # noqa: E402

HERE = os.path.dirname(os.path.abspath(__file__))
PROGRAM = os.path.join(HERE, '..', 'crates', 'hl7_service', 'out', 'hl7_service')
OPERATIONS = os.path.join(HERE, '..', 'docs', 'OPERATIONS.md')
CONNECTIONS, IN_FLIGHT, SIZES = 64, 16, (300, 700, 700, 2_000)
# By destination, the wards (PV1-2) whose messages it gets. Each of W0 to W5 has two destinations, and so has what goes to SLOW or DEAD.
ROUTES = {**{f'D{n}': [f'W{n}', f'W{(n + 1) % 6}'] for n in range(6)}, 'SLOW': ['S'], 'DEAD': ['X']}
ROUTES['D0'].append('S')
ROUTES['D1'].append('X')
# The wards of each sender's messages, over and over: one message of 200 is for SLOW, one for DEAD, and one for nobody.
WARDS = ['S', 'X', 'F', *(f'W{n % 6}' for n in range(197))]
APART = 37  # how far apart two connections begin in the list, by bench/twins/senders.rs
DESTINATIONS_EACH = 2  # how many destinations a message has at most
# How many messages each sender sends again that were refused: one that is held back for room while two plans are deployed is.
AGAIN = 1_000
# How late SLOW answers. It takes what is sent to it, up to 90,000 messages a second in all.
SLOW_MICROSECONDS = 2_000
# Seconds between two looks, between two deployments at least, and without a message until an outage ends.
LOOK, APART_SECONDS, STALLED = 0.1, 0.5, 10.0
DEPLOYMENTS = 900  # of the 1,000 that a book has
MOST_DEAD = 1_000_000  # the messages of an outage and of the time around it


def text_of(port, ports, turn):
    """The plan of a turn. Every second one connects anew to D0, for its other timeout, and changes what D2 gets."""
    names = {name: to for name, to in zip(ROUTES, ports)}
    timeouts = {'D0': 30 + turn % 2}
    routes = [(name, '{ one_of = ["PV1-2", [' + ', '.join(f'"{ward}"' for ward in wards) + ']] }',
               f'{{ set = ["MSH-5", "TURN{turn % 2}"] }}' if name == 'D2' else None) for name, wards in ROUTES.items()]
    return plan([('ADT', port, routes)],
                [(name, to, ['attempts = 3', 'interval = 1', f'timeout = {timeouts.get(name, 30)}']) for name, to in names.items()])


def expected(each):
    """The counts of the channel, and those of each destination, where each connection has sent `each` messages."""
    whole, rest = divmod(each, len(WARDS))
    wards = Counter()
    for connection in range(CONNECTIONS):
        for index, ward in enumerate(WARDS):
            wards[ward] += whole + ((index - APART * connection) % len(WARDS) < rest)
    total = each * CONNECTIONS
    return (channel_counts(total, filtered=wards['F'], accepted=total - wards['F']),
            {name: sum(wards[ward] for ward in own) for name, own in ROUTES.items()})


def facts(lines):
    """The numbers in the answer to `status`, or in the counts at the end, by the words of the line before them."""
    found = {}
    for line in lines:
        kind, *words = line.split(' ')
        if kind in ('channel', 'destination'):
            kind, words = (kind, words[0]), words[1:]
        elif kind in ('prunings', 'deployments'):
            words = [kind, *words]
        elif kind not in ('book', 'unbooked'):
            continue
        found[kind] = {name: int(value) for name, value in zip(words[::2], words[1::2]) if value.isdigit()}
    return found


def documented():
    """A pattern of the log lines that docs/OPERATIONS.md has: the texts in its tables, with fields behind them, and plain lines."""
    texts = []
    with open(OPERATIONS, encoding='utf-8') as file:
        for line in file:
            first = line.split('|')[1].split(', with')[0] if line.startswith('| ') else ''
            if re.search(r'\b(INFO|WARN) `', first):
                texts += re.findall('`([^`]+)`', first)
    words = {'WHY': '.+', 'CAUSE': '.+', 'WORDS': '.+', 'N': r'\d+', r'\.\.': '.*'}
    patterns = [re.sub(r'WHY|CAUSE|WORDS|\bN\b|\\\.\\\.', lambda found: words[found[0]], re.escape(text)) for text in texts]
    return re.compile(r'\S+Z (INFO|WARN) (' + '|'.join(patterns) + r')( [a-z_]+=.*)?|(listening on|note:|warning:) .*'
                      r'|\d+ lines of the log were dropped, nobody read them')


class Day:
    """What happens beside the messages: deployments, prunings and scrapes, outages, and looks at the service."""

    def __init__(self, service, sink, port, host, messages, outages):
        self.service, self.sink, self.port, self.host = service, sink, port, host
        self.messages, self.outages = messages, outages
        self.index, self.is_dead, self.received, self.risen = list(ROUTES).index('DEAD'), False, 0, time.monotonic()
        self.dead, self.cut_short, self.peaks, self.remembered = 0, 0, {}, 0
        self.done, self.answers = Counter(), Counter()

    def ask(self, command):
        """The answer to a command."""
        if (answer := self.service.ask(command)) is None:
            raise RuntimeError(f'no answer to {command}: {self.service.log[-4:]}')
        return answer

    def look(self):
        """Notes memory, and begins or ends an outage by the number of messages received."""
        now, status = time.monotonic(), facts(self.ask('status'))
        received = status['channel', 'ADT']['received']
        if received > self.received:
            self.risen = now
            self.dead += (received - self.received) * self.is_dead
            self.received = received
        part, share = divmod(received * self.outages / self.messages, 1)
        self.remembered = max(self.remembered, status['book']['remembered'])
        if part < self.outages:
            self.peaks[part] = max(self.peaks.get(part, 0), resident(self.service.process))
        is_due = 1 / 3 <= share < 2 / 3 and part < self.outages
        if self.is_dead and is_due and now > self.risen + STALLED:
            self.cut_short += 1
            self.switch(False)
        elif is_due != self.is_dead and now <= self.risen + STALLED:
            self.switch(is_due)

    def switch(self, is_dead):
        if is_dead != self.is_dead:
            self.sink.switch(self.index, not is_dead)
            self.is_dead = is_dead
            self.done['outages'] += is_dead

    def each_second(self):
        """Deploys a plan, forgets what is settled, and scrapes the metrics."""
        if self.done['deployments'] < DEPLOYMENTS:
            self.done['deployments'] += 1
            path = f'{self.service.path}.{self.done["deployments"] % 2}'
            with open(path, 'w', encoding='utf-8') as file:
                file.write(text_of(self.port, self.sink.ports, self.done['deployments']))
            self.answers[self.ask(f'deploy {path}')[0]] += 1
        self.ask('prune')
        self.scrape()

    def scrape(self):
        """The metrics, as they are scraped over HTTP."""
        with urllib.request.urlopen(f'http://{self.host}/metrics', timeout=10) as answer:
            self.done['scrapes'] += 1
            return answer.read().decode()

    def settled(self):
        """The counts once nothing waits and nothing is in flight."""
        deadline = time.monotonic() + LIMIT
        while time.monotonic() < deadline:
            counts = facts(self.ask('status'))
            if not any(counts['destination', name][state] for name in ROUTES for state in ('waiting', 'inflight')):
                return counts
            time.sleep(LOOK)
        raise TimeoutError(f'messages wait after {LIMIT} s: {counts}')


def metric(text, name, label):
    """The number of a metric with this label."""
    found = re.search(rf'^{name}\{{\w+="{label}"\}} (\d+)$', text, re.MULTILINE)
    return int(found[1]) if found else None


def compare(day, found, bounds):
    """Compares the counts of the senders, of the service and of the destinations with what was sent."""
    total = day.messages
    channel, delivered = expected(total // CONNECTIONS)
    bounds.agrees('sent, acknowledged, and refused for good, by the count of the senders',
                  (found['sent'], found['acknowledged'], found['refused'] - found['again']), (total, total, 0))
    counts, text, received = day.settled(), day.scrape(), day.sink.counts()
    print(f'refused, and sent again: {found["again"]}; by the count of the service {counts["unbooked"]}')
    bounds.agrees('refused', sum(counts['unbooked'].values()), found['refused'])
    bounds.agrees('counts of the channel', counts['channel', 'ADT'], channel)
    bounds.agrees('delivered', {name: counts['destination', name]['delivered'] for name in ROUTES}, delivered)
    bounds.agrees('failed', {name: counts['destination', name]['failed'] for name in ROUTES}, dict.fromkeys(ROUTES, 0))
    bounds.agrees('received by the destinations, repeats aside',
                  {name: own['received'] - own['again'] for name, own in zip(ROUTES, received)}, delivered)
    bounds.agrees('received without a number', sum(own['strange'] for own in received), 0)
    bounds.at_most('received behind a later message of the same sender, but for those sent again',
                   sum(own['disorder'] for own in received), DESTINATIONS_EACH * found['again'])
    bounds.agrees('metrics', (metric(text, 'hl7_channel_received_total', 'ADT'), metric(text, 'hl7_channel_filtered_total', 'ADT'),
                              {name: metric(text, 'hl7_destination_delivered_total', name) for name in ROUTES}),
                  (total, channel['filtered'], delivered))
    again = {name: own['again'] for name, own in zip(ROUTES, received) if own['again']}
    print(f'received twice, since a destination died before it answered: {again or "none"}', flush=True)
    return counts


def ended(service, counts, bounds):
    """Stops the service, and compares the counts at its end and the lines of its log."""
    service.ask('stop')
    status, lines = service.ended(LIMIT)
    last = facts(lines)
    bounds.agrees('exit status', status, 0)
    bounds.agrees('counts at the end', last, {name: value for name, value in counts.items() if name in last} or None)
    known = documented()
    strange = [line for line in service.log if not known.fullmatch(line)]
    warnings = Counter(re.sub(r'\S+Z WARN |( [a-z_]+=.*)', '', line) for line in service.log if ' WARN ' in line)
    print(f'{len(service.log)} lines of the log, of these warnings: {dict(warnings) or "none"}')
    bounds.agrees('lines that docs/OPERATIONS.md does not have', strange[:5], [])


def played(program, folder, paths, messages, outages, rate, bounds):
    """Plays a day, and prints what became of it."""
    (port, host), began = free_ports(2), time.monotonic()
    host = f'127.0.0.1:{host}'
    pace = {'rate': rate} if rate else {'window': IN_FLIGHT}
    with Sink(paths, len(ROUTES), {list(ROUTES).index('SLOW'): SLOW_MICROSECONDS}) as sink:
        text = text_of(port, sink.ports, 0)
        with Service(program, text, folder, '--connections', str(CONNECTIONS + 1), '--http', host) as service:
            day = Day(service, sink, port, host, messages, outages)
            with Load(paths, [port], connections=CONNECTIONS, messages=messages // CONNECTIONS, wards=WARDS, sizes=SIZES,
                      again=AGAIN, patience=LIMIT, **pace) as load:
                due = load.go()
                while load.is_running():
                    day.look()
                    if time.monotonic() >= due:
                        day.each_second()
                        due = max(due + 1, time.monotonic() + APART_SECONDS)
                    time.sleep(LOOK)
                found = load.found()
            day.switch(False)
            counts = compare(day, found, bounds)
            ended(service, counts, bounds)
    print(f'{messages:,} messages in {found["seconds"]:.1f} s, {time.monotonic() - began:.1f} s in all; {day.done["outages"]} outages, '
          f'{day.cut_short} of them cut short; deployments {dict(day.answers)}; {counts["prunings"]["prunings"]} prunings, '
          f'{day.done["scrapes"]} scrapes; at most {day.remembered:,} messages remembered')
    bounds.at_least('share of the messages that were received while DEAD was dead', day.dead / messages, 0.3)
    bounds.agrees('deployments that were refused', sum(number for answer, number in day.answers.items() if answer != 'deployed'), 0)
    bounds.at_least('scrapes a second', day.done['scrapes'] / found['seconds'], 0.9)
    peaks = [size for part, size in sorted(day.peaks.items()) if part > 0 or len(day.peaks) == 1]
    print('resident memory, the greatest in each part of the messages but the first: '
          + ', '.join(f'{size / 1e6:.0f} MB' for size in peaks))
    bounds.at_most('the greatest of these over the least', max(peaks) / min(peaks), 1.1)


def main():
    parser = argparse.ArgumentParser()
    parser.add_argument('program', nargs='?', default=PROGRAM)
    parser.add_argument('--messages', type=int, default=10_000_000)
    parser.add_argument('--outages', type=int)
    parser.add_argument('--rate', type=float)
    args, bounds = parser.parse_args(), Bounds()
    os.environ.setdefault('MALLOC_ARENA_MAX', '1')  # as examples/service/hl7-service.service has it
    program, messages = os.path.abspath(args.program), max(args.messages // CONNECTIONS, 1) * CONNECTIONS
    outages = args.outages or max(2, -(-messages // MOST_DEAD))
    if checks_accesses(program):
        print('the program checks its memory accesses (./build --unproved), so it is slower than a proved one and takes more memory')
    with tempfile.TemporaryDirectory() as folder:
        paths = compiled(('load', 'sink'), folder)
        if paths is None:
            print('rustc is not installed: nothing is measured (apt-get install rustc)')
            return 0
        played(program, folder, paths, messages, outages, args.rate, bounds)
    return 0 if bounds.met else 1


if __name__ == '__main__':
    sys.exit(main())
