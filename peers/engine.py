"""The built program, started with `run`: its plan, its log lines and its counts."""
import os
import re
import subprocess
import threading
import time

PROGRAM = os.path.join(os.path.dirname(os.path.abspath(__file__)), '..', 'crates', 'hl7_engine', 'out', 'hl7_engine')


def checks_accesses(program):
    """Whether a program checks each of its memory accesses at run time, as one built by './build --unproved' does. Such a program
    is slower and uses more memory."""
    with open(program, 'rb') as file:
        return b'AddressSanitizer' in file.read()


def plan(channels, destinations):
    """A plan's text. Channels are given as (name, port, [(destination, filter, steps)]), destinations as (name, port, [more lines])."""
    lines = []
    for name, port, more in destinations:
        lines += ['[[destination]]', f'name = "{name}"', f'address = "127.0.0.1:{port}"', *more]
    for name, port, routes in channels:
        lines += ['[[channel]]', f'name = "{name}"', f'listen = "127.0.0.1:{port}"', 'types = ["ADT"]',
                  'processing = ["P"]', 'versions = ["2.5.1"]']
        for to, condition, steps in routes:
            lines += ['[[channel.route]]', f'to = "{to}"', *([f'filter = {condition}'] if condition else []),
                      *([f'steps = [{steps}]'] if steps else [])]
    return '\n'.join(lines) + '\n'


def one_channel(port, destinations):
    """The text of a plan with one channel, which routes every message to every destination."""
    return plan([('ADT', port, [(name, None, None) for name, _, _ in destinations])], destinations)


class Engine:
    """The program started with `run`, by itself or under a tool, once it listens on all channels. Leaving the context kills it."""

    def __init__(self, program, text, accept, folder, events=1_000_000, under=()):
        path = os.path.join(folder, 'plan.toml')
        with open(path, 'w', encoding='utf-8') as file:
            file.write(text)
        self.process = subprocess.Popen([*under, program, 'run', path, '--accept', str(accept), '--events', str(events)],
                                        stdin=subprocess.DEVNULL, stdout=subprocess.PIPE, stderr=subprocess.PIPE)
        self.log, self._channels = [], text.count('[[channel]]')
        self._listens, self._reader = threading.Event(), threading.Thread(target=self._read, daemon=True)
        self._reader.start()
        self._listens.wait(30)
        if self._listening() < self._channels:
            self.process.kill()
            raise RuntimeError(f'it does not listen on {self._channels} channels: {self.log}')

    def __enter__(self):
        return self

    def __exit__(self, *_):
        if self.process.poll() is None:
            self.process.kill()
        self.process.wait()

    def _read(self):
        for line in self.process.stderr:
            self.log.append(line.decode(errors='replace').rstrip('\n'))
            if self._listening() == self._channels:
                self._listens.set()
        self._listens.set()

    def _listening(self):
        return sum(line.startswith('listening on ') for line in self.log)

    def warnings(self):
        """The lines that it logged at level WARN or above."""
        return [line for line in self.log if re.match(r'(\S+Z )?\[?(WARN|ERROR)\b', line)]

    def faults(self):
        """Its warnings, except those about a message or a text that it received."""
        own = ('message refused', 'message not booked', 'text unreadable', 'block broken', 'acknowledgment received', 'MSH holds')
        return [line for line in self.warnings() if not any(words in line for words in own)]

    def lines_with(self, *texts):
        """The lines on standard error that contain all these texts."""
        return [line for line in self.log if all(text in line for text in texts)]

    def wait_logged(self, *texts, limit=20):
        """Waits for a line that contains all these texts, and returns whether it was logged in time."""
        deadline = time.monotonic() + limit
        while not self.lines_with(*texts) and time.monotonic() < deadline:
            time.sleep(0.02)
        return bool(self.lines_with(*texts))

    def resident(self):
        """Its resident memory, in bytes."""
        with open(f'/proc/{self.process.pid}/status', encoding='utf-8') as file:
            return next(int(line.split()[1]) * 1024 for line in file if line.startswith('VmRSS'))

    def ended(self, limit=120):
        """Its exit status and the counts that it printed for each channel and destination; None and no counts if it doesn't end in time."""
        try:
            self.process.wait(limit)
        except subprocess.TimeoutExpired:
            return None, {}
        self._reader.join(10)
        counts = {}
        for line in self.process.stdout.read().decode(errors='replace').splitlines():
            kind, name, *words = line.split(' ')
            counts[kind, name] = dict(zip(words[::2], map(int, words[1::2])))
        return self.process.returncode, counts


def channel_counts(received, filtered=0, accepted=0, refused=0, repeats=0):
    return {'received': received, 'filtered': filtered, 'accepted': accepted, 'refused': refused, 'repeats': repeats}


def destination_counts(delivered, failed=0, attempts=None):
    return {'waiting': 0, 'inflight': 0, 'delivered': delivered, 'failed': failed,
            'attempts': delivered + failed if attempts is None else attempts}
