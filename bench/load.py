"""Programs of bench/twins in Rust, built by rustc, and two of them run: the load generator and the sink, which bench/service.py and
bench/day.py send by and to. It has no command line of its own.
"""
import json
import os
import resource
import selectors
import shutil
import subprocess
import time

from mllp import free_ports

TWINS = os.path.join(os.path.dirname(os.path.abspath(__file__)), 'twins')
LIMIT = 600  # the longest wait for any step, in seconds


def compiled(names, folder):
    """Builds these programs in a folder, and returns their paths by name; None if there is no rustc."""
    if shutil.which('rustc') is None:
        return None
    paths = {name: os.path.join(folder, name) for name in names}
    for name, path in paths.items():
        source = os.path.join(TWINS, f'{name}.rs')
        subprocess.run(['rustc', '--edition', '2021', '-O', '-C', 'target-cpu=x86-64', '-o', path, source], check=True, timeout=LIMIT)
    version = subprocess.run(['rustc', '--version'], check=True, capture_output=True, text=True, timeout=LIMIT).stdout.strip()
    print(f'{", ".join(names)}: built by {version}, with -O -C target-cpu=x86-64', flush=True)
    return paths


def more_files():
    """Has this process, and those that it starts from now on, open as many files as the system allows without asking."""
    _, most = resource.getrlimit(resource.RLIMIT_NOFILE)
    resource.setrlimit(resource.RLIMIT_NOFILE, (most, most))


class Program:
    """A program with commands on its standard input and answers of a line each. Leaving the context kills it."""

    def __init__(self, command, first):
        self._process = subprocess.Popen(command, stdin=subprocess.PIPE, stdout=subprocess.PIPE)
        if (line := self._line(LIMIT)) != first:
            self.__exit__()
            raise RuntimeError(f'{command}: {line!r}, and not {first!r}')

    def __enter__(self):
        return self

    def __exit__(self, *_):
        self._process.kill()
        self._process.wait(LIMIT)
        self._process.stdin.close()
        self._process.stdout.close()

    def _say(self, line):
        self._process.stdin.write(f'{line}\n'.encode())
        self._process.stdin.flush()

    def _line(self, limit):
        """The next line of output, an empty text at its end. It takes at most `limit` seconds."""
        with selectors.DefaultSelector() as waits:
            waits.register(self._process.stdout, selectors.EVENT_READ)
            if not waits.select(limit):
                raise TimeoutError(f'{self._process.args[0]} said nothing for {limit} s')
        return self._process.stdout.readline().decode().rstrip('\n')


class Sink(Program):
    """Destinations that answer AA, at ports of their own. `delays` has microseconds for the indices of those that answer later."""

    def __init__(self, paths, number, delays=None):
        self.ports = free_ports(number)
        words = [f'{port}:{(delays or {}).get(index, 0)}' for index, port in enumerate(self.ports)]
        super().__init__([paths['sink'], *words], 'up')

    def _answer(self, command, limit=LIMIT):
        self._say(command)
        return self._line(limit)

    def wait(self, total, limit=LIMIT):
        """Waits until all destinations together have received `total` messages, repeats aside, and returns the time at which they had."""
        if (answer := self._answer(f'wait {total}', limit)) != 'reached':
            raise RuntimeError(f'the sink says {answer!r}')
        return time.monotonic()

    def counts(self):
        """A dictionary for each destination: `received`, of these `again` and in `disorder`, and `strange`."""
        return json.loads(self._answer('counts'))

    def switch(self, index, is_open):
        """Opens a destination, or closes it: its connections end, and further ones are refused."""
        if (answer := self._answer(f'{"open" if is_open else "close"} {index}')) != 'done':
            raise RuntimeError(f'the sink says {answer!r}')


class Load(Program):
    """Connections that are open and send once `go` is called. The options are those of bench/twins/load.rs; a list is joined."""

    def __init__(self, paths, ports, **options):
        options = {'ports': ports, **options}
        joined = {name: ','.join(map(str, value)) if isinstance(value, (list, tuple)) else str(value) for name, value in options.items()}
        super().__init__([paths['load'], *(word for name, value in joined.items() for word in (f'--{name}', value))], 'ready')

    def go(self):
        """Begins, and returns when."""
        self._say('')
        return time.monotonic()

    def is_running(self):
        return self._process.poll() is None

    def found(self, limit=LIMIT):
        """What it has found once it has ended: what bench/twins/load.rs prints."""
        line = self._line(limit)
        if self._process.wait(limit) != 0 or not line:
            raise RuntimeError(f'the load generator ended with status {self._process.returncode}')
        return json.loads(line)


def loaded(paths, ports, **options):
    """Sends by connections of their own, to the end, and returns what was found."""
    with Load(paths, ports, **options) as load:
        load.go()
        return load.found()
