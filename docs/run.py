#!/usr/bin/env python3
"""Plays the README and the pages of docs/: writes the files that a page shows, runs its commands, and compares their output.

Usage: docs/run.py [PROGRAM]

PROGRAM is the built service, by default crates/hl7_service/out/hl7_service ('rt run' in crates/hl7_service builds it). In a page, a
block after a line
- '<!-- file NAME -->' is the file NAME;
- '<!-- printed by COMMAND -->' is the output of COMMAND;
- '<!-- typed -->' is what a reader types, line by line. After 'hl7_service run' the commands of the service are typed into its
  standard input. If a comment begins with 'prints', the rest of it has to be printed. Each line has to succeed.
A block of kind 'console' has commands, each on a line that begins with '$ ', and after each of them its output, with standard error
first if it prints there too. A line '..' matches any number of lines.

All commands of a page run in one folder. It contains the repository's examples and peers, a './build' that prints PROGRAM, and a
folder that replaces the machine's /usr/local, /etc, /run and /var, with a 'systemctl' that runs the unit's commands and makes the
unit's folders, and a 'systemd-sysusers' that does nothing. Ports 6660 to 6699 are replaced by free ones. A store that a page begins
is in that folder, and is removed with it.
Plain Python 3, no packages, bounded in time. The exit status is 0 if everything is as the pages say, else 1.
"""
import os
import random
import re
import select
import shutil
import signal
import socket
import subprocess
import sys
import tempfile
import time

HERE = os.path.dirname(os.path.abspath(__file__))
TOP = os.path.join(HERE, '..')
PROGRAM = os.path.join(TOP, 'crates', 'hl7_service', 'out', 'hl7_service')
PAGES = ['../README.md', 'GUIDE.md', 'EXAMPLES.md', 'OPERATIONS.md', 'FROM_MIRTH.md']
BLOCK = re.compile(r'(?:<!-- (file|printed by|typed) ?([^\n]*?) ?-->\n)?```(\w*)\n(.*?)```\n', re.S)
PORT = re.compile(r'\b66[6-9]\d\b')
OBEYED = re.compile(r'(status|metrics|message|show|export|plan|find|waiting|failed|hold|release|links|deploy|prune|cancel|stop)\b')
MACHINE = re.compile(r'(?<![\w.])/(?=(usr/local|etc|run|var)/)')
LIMIT = 60
# A systemctl that runs the commands of a unit, and does nothing else.
SYSTEMCTL = r'''#!/bin/sh
unit=$MACHINE/etc/systemd/system/hl7-service.service
lines() { sed -n "s,^$1=,,p" "$unit" | sed -E "s,/(usr/local|etc|run|var)/,$MACHINE&,g"; }
case "$1" in
    enable)
        mkdir "$MACHINE/run/hl7-service"
        mkdir -p "$MACHINE/var/lib/$(lines StateDirectory)"
        lines ExecStartPre | sh -e || exit 1
        sh -c "exec $(lines ExecStart)" & echo $! > "$MACHINE/pid" ;;
    stop)
        MAINPID=$(cat "$MACHINE/pid") sh -c "$(lines ExecStop)"
        rm -r "$MACHINE/run/hl7-service" ;;
    restart) "$0" stop && "$0" enable ;;
esac
'''


def other_ports(count):
    """Loopback ports of four digits that nothing listens on."""
    found = []
    for port in random.sample(range(2_000, 6_000), 1_000):
        with socket.socket() as holder:
            if holder.connect_ex(('127.0.0.1', port)):
                found.append(str(port))
        if len(found) == count:
            return found
    raise RuntimeError('no free ports')


def remains(group):
    """Whether a process of this group is still running."""
    try:
        os.killpg(group, 0)
        return True
    except ProcessLookupError:
        return False


class Page:
    """A page, the folder in which it is played, and the processes that its commands have started."""

    def __init__(self, name, program, folder):
        self.name, self.folder, self.played, self.wrong = name, folder, 0, []
        self.started, self.service = [], None
        self.ports = dict(zip((str(port) for port in range(6_660, 6_700)), other_ports(40)))
        self.machine = os.path.join(folder, 'machine')
        for part in ('usr/local/bin', 'etc/systemd/system', 'run', 'var/lib/node_exporter'):
            os.makedirs(os.path.join(self.machine, part))
        os.symlink(os.path.join(TOP, 'peers'), os.path.join(folder, 'peers'))
        shutil.copytree(os.path.join(TOP, 'examples'), os.path.join(folder, 'examples'))
        for at, _, names in os.walk(os.path.join(folder, 'examples')):
            for plan in (os.path.join(at, name) for name in names if name.endswith('.toml')):
                with open(plan, 'r+', encoding='utf-8') as file:
                    text = self.with_ports(file.read())
                    file.seek(0)
                    file.write(text)
        tools = os.path.join(folder, 'tools')
        os.mkdir(tools)
        os.symlink(os.path.abspath(program), os.path.join(tools, 'hl7_service'))
        self.script(os.path.join(tools, 'systemctl'), SYSTEMCTL)
        self.script(os.path.join(tools, 'systemd-sysusers'), '#!/bin/sh\n')
        self.script(os.path.join(folder, 'build'), f'#!/bin/sh\necho {os.path.abspath(program)}\n')
        self.around = dict(os.environ, MACHINE=self.machine, HL7_SERVICE_DIR=os.path.join(self.machine, 'run', 'hl7-service'),
                           PATH=os.pathsep.join([os.path.join(self.machine, 'usr', 'local', 'bin'), tools, os.environ['PATH']]))

    @staticmethod
    def script(path, text):
        """Writes an executable script."""
        with open(path, 'w', encoding='utf-8') as file:
            file.write(text)
        os.chmod(path, 0o755)

    def with_ports(self, text):
        """The text with the page's ports replaced by free ones."""
        return PORT.sub(lambda found: self.ports[found[0]], text)

    def shell(self, command):
        """Runs a command, and returns its exit status and its output."""
        with tempfile.TemporaryFile() as out, tempfile.TemporaryFile() as err:
            done = subprocess.Popen(['sh', '-c', MACHINE.sub(self.machine + '/', command)], cwd=self.folder, env=self.around,
                                    stdin=subprocess.DEVNULL, stdout=out, stderr=err, start_new_session=True)
            try:
                status = done.wait(LIMIT)
            finally:
                self.started += [done.pid] if remains(done.pid) else []
            out.seek(0)
            err.seek(0)
            return status, self.with_ports((err.read() + out.read()).decode(errors='replace').strip('\n'))

    def run(self, command):
        """Starts a service that reads commands, waits until it is ready, and returns the status and its log."""
        with open(os.path.join(self.folder, 'log'), 'w+', encoding='utf-8') as log:
            self.service = subprocess.Popen(command.split(), cwd=self.folder, env=self.around, stdin=subprocess.PIPE,
                                            stdout=subprocess.PIPE, stderr=log, start_new_session=True)
            self.started.append(self.service.pid)
            until, printed = time.monotonic() + LIMIT, ''
            while 'the service is ready' not in printed and time.monotonic() < until and self.service.poll() is None:
                time.sleep(0.05)
                log.seek(0)
                printed = log.read()
            return int('the service is ready' not in printed), printed

    def typed(self, command):
        """Types a command into the service, and returns a status and the answer; for 'stop' the exit status and all further output."""
        self.service.stdin.write(command.encode() + b'\n')
        self.service.stdin.flush()
        if command.startswith('stop'):
            service, self.service = self.service, None
            self.started.remove(service.pid)
            return service.wait(LIMIT), service.stdout.read().decode(errors='replace')
        held, until = b'', time.monotonic() + LIMIT
        while not held.endswith(b'\n\n') and time.monotonic() < until:
            if select.select([self.service.stdout], [], [], 0.1)[0]:
                piece = os.read(self.service.stdout.fileno(), 65_536)
                if not piece:
                    break
                held += piece
        return int(not held.endswith(b'\n\n')), held.decode(errors='replace')

    def line(self, line):
        """Runs a line that a reader types, and checks its status and output."""
        command, _, comment = re.sub(r'\s+# ', '\0', line, count=1).partition('\0')
        if self.service and OBEYED.match(command):
            status, got = self.typed(command)
        else:
            status, got = (self.run if command.startswith('hl7_service run') else self.shell)(command)
        self.played += 1
        expected = comment.removeprefix('prints ') if comment.startswith('prints ') else ''
        if status or expected not in got:
            self.wrong.append(f'{self.name}: {command}\n  status {status}, printed:\n{got}\n  and not: {expected}')

    def compare(self, command, wanted):
        """Runs a command, and compares its output with `wanted`."""
        got = self.shell(command)[1]
        self.played += 1
        if not re.fullmatch(r'\n(.*\n)*?'.join(map(re.escape, re.split(r'\n *\.\.\n', wanted))), got):
            self.wrong.append(f'{self.name}: {command}\n  printed:\n{got}\n  and not:\n{wanted}')

    def play(self):
        """Plays the blocks of the page in order."""
        with open(os.path.join(HERE, self.name), encoding='utf-8') as file:
            text = self.with_ports(file.read())
        for use, name, kind, body in BLOCK.findall(text):
            if use == 'file':
                with open(os.path.join(self.folder, name), 'w', encoding='utf-8', newline='') as file:
                    file.write(body)
            elif use == 'printed by':
                self.compare(name, body.strip('\n'))
            elif use == 'typed':
                for line in filter(None, body.splitlines()):
                    self.line(line)
            elif kind == 'console':
                for part in re.split(r'^\$ ', body, flags=re.M)[1:]:
                    command, _, wanted = part.partition('\n')
                    self.compare(command, wanted.strip('\n'))

    def end(self):
        """Kills the processes that the page's commands have started."""
        for group in filter(remains, self.started):
            os.killpg(group, signal.SIGKILL)


def played(name, program):
    """Plays a page, prints the number of commands played, and returns the differences, one line each."""
    with tempfile.TemporaryDirectory() as folder:
        page = Page(name, program, folder)
        try:
            page.play()
        except (OSError, RuntimeError, subprocess.SubprocessError) as error:
            page.wrong.append(f'{name}: {error!r}')
        finally:
            page.end()
    print(f'{name}: {page.played} commands, {"as it says" if not page.wrong else "WRONG"}', flush=True)
    return page.wrong


def main():
    program = sys.argv[1] if len(sys.argv) > 1 else PROGRAM
    wrong = [line for name in PAGES for line in played(name, program)]
    for line in wrong:
        print(line)
    return 1 if wrong else 0


if __name__ == '__main__':
    sys.exit(main())
