"""The built service, run over loopback, and what its scenes share."""
import os
import select
import subprocess
import threading
import time

from mllp import Sender

LIMIT = 30


class Service:
    """The program started with `run`, once it listens on all channels. Its history is in the folder `store`, or in memory alone where
    that is left out. Leaving the context kills it."""

    def __init__(self, program, text, folder, *words, store=None):
        self.path = os.path.join(folder, 'plan.toml')
        with open(self.path, 'w', encoding='utf-8') as file:
            file.write(text)
        keeping = ['--store', store] if store else ['--memory']
        self.process = subprocess.Popen([program, 'run', self.path, *keeping, *words], stdin=subprocess.PIPE,
                                        stdout=subprocess.PIPE, stderr=subprocess.PIPE)
        self.log, self.channels = [], text.count('[[channel]]')
        self.ready = threading.Event()
        self.reader = threading.Thread(target=self.read, daemon=True)
        self.reader.start()
        self.ready.wait(LIMIT)

    def __enter__(self):
        return self

    def __exit__(self, *_):
        if self.process.poll() is None:
            self.process.kill()
        self.process.wait()

    def read(self):
        for line in self.process.stderr:
            self.log.append(line.decode(errors='replace').rstrip('\n'))
            if sum('listening on ' in logged for logged in self.log) == self.channels:
                self.ready.set()
        self.ready.set()

    def ask(self, command, limit=LIMIT):
        """Sends a command, and returns its answer: the lines behind the one that repeats the command up to the empty one, or None if
        there is no answer in time, or one to another command."""
        self.process.stdin.write(command.encode() + b'\n')
        self.process.stdin.flush()
        held, deadline = b'', time.monotonic() + limit
        while not held.endswith(b'\n\n') and time.monotonic() < deadline:
            if select.select([self.process.stdout], [], [], 0.1)[0]:
                piece = os.read(self.process.stdout.fileno(), 65_536)
                if not piece:
                    break
                held += piece
        first, *answer = held.decode(errors='replace').rstrip('\n').split('\n')
        return answer if held.endswith(b'\n\n') and first in ('> ' + command.rstrip('\r'), '> ..') else None

    def ended(self, limit=LIMIT):
        """Its exit status and its last lines of output; None and no lines if it doesn't end in time."""
        try:
            self.process.wait(limit)
        except subprocess.TimeoutExpired:
            return None, []
        self.reader.join(5)
        return self.process.returncode, self.process.stdout.read().decode(errors='replace').splitlines()


def exchange(port, texts):
    """Sends texts one after another on one connection, and returns the acknowledgments received."""
    sender = Sender(port, texts)
    sender.start()
    sender.join(LIMIT)
    return sender.replies


def wait_received(destination, number, limit=LIMIT):
    """Waits until the destination has received `number` messages, for `limit` seconds at most, and returns whether it has."""
    deadline = time.monotonic() + limit
    while len(destination.received) < number and time.monotonic() < deadline:
        time.sleep(0.02)
    return len(destination.received) >= number


def wait_status(service, beginning, limit=LIMIT):
    """Waits until a line of the answer to `status` begins so, for `limit` seconds at most, and returns whether one does."""
    deadline = time.monotonic() + limit
    while time.monotonic() < deadline:
        if any(line.startswith(beginning) for line in service.ask('status') or []):
            return True
        time.sleep(0.05)
    return False
