"""Destinations that are down in ways that a connect doesn't show, and senders without framing, around the built service."""
import os
import socket
import subprocess
import sys
import threading
import time

from engine import one_channel
from mllp import HANG_UP, SILENCE, Destination, block, field, free_ports, message
from served import Service, exchange, wait_received


class Proxy:
    """A proxy as stunnel or HAProxy: it accepts connections, connects each to the port behind it, and closes it where that
    refuses. It counts the connections that it accepted."""

    def __init__(self, behind, address='127.0.0.1', port=None):
        self.behind, self.accepted, self._closed = behind, 0, False
        self._listener = socket.socket()
        self._listener.bind((address, port or free_ports(1)[0]))
        self._listener.listen(16)
        self.port = self._listener.getsockname()[1]
        self._thread = threading.Thread(target=self._listen, daemon=True)
        self._thread.start()

    def _listen(self):
        while not self._closed:
            try:
                connection, _ = self._listener.accept()
            except OSError:
                return
            self.accepted += 1
            threading.Thread(target=self._join, args=(connection,), daemon=True).start()

    def _join(self, connection):
        with connection:
            try:
                with socket.create_connection(('127.0.0.1', self.behind), timeout=5) as other:
                    back = threading.Thread(target=_copy, args=(other, connection), daemon=True)
                    back.start()
                    _copy(connection, other)
                    back.join(5)
            except OSError:
                return

    def close(self):
        self._closed = True
        self._listener.shutdown(socket.SHUT_RDWR)
        self._thread.join(10)
        self._listener.close()


def _copy(source, target):
    """Passes bytes on until the end of the input, which it passes on too."""
    try:
        while piece := source.recv(65_536):
            target.sendall(piece)
        target.shutdown(socket.SHUT_WR)
    except OSError:
        return


def behind_a_proxy(program, folder):
    """Messages wait for a destination that is down behind a proxy: at most one attempt is spent on it, and then all of them are
    delivered once it is up."""
    lab = Destination(lambda text, before: b'AA', up=False)
    proxy, port = Proxy(lab.port), free_ports(1)[0]
    more = ['attempts = 2', 'interval = 0', 'timeout = 1']
    with Service(program, one_channel(port, [('LAB', proxy.port, more)]), folder) as service:
        exchange(port, [message(b'A%d' % n) for n in range(3)])
        time.sleep(4)
        while_down = proxy.accepted
        lab.open()
        whole = wait_received(lab, 3)
        service.ask('stop')
        status, lines = service.ended()
    lab.close()
    proxy.close()
    named = [line for line in service.log if 'right after it was connected' in line]
    if (whole, status) != (True, 0) or while_down < 3 or not named or 'failed 0' not in ' '.join(lines):
        return [f'behind a proxy: status {status}, {len(lab.received)} of 3 received, {while_down} connections while down, '
                f'{lines}, {service.log[-5:]}']
    return []


def sent_once_an_attempt(program, folder):
    """A destination that closes each connection without an answer is sent a message once in each attempt, and the line of the
    message that failed says why."""
    lab, port = Destination(lambda text, before: HANG_UP), free_ports(1)[0]
    more = ['attempts = 2', 'interval = 0', 'timeout = 1']
    with Service(program, one_channel(port, [('LAB', lab.port, more)]), folder) as service:
        exchange(port, [message(b'A1')])
        service.ask('stop')
        status, lines = service.ended()
    lab.close()
    why = 'message failed: no attempt is left (closed by the destination before an answer)'
    if len(lab.received) != 2 or status != 0 or not any(why in line for line in service.log):
        return [f'sent once an attempt: status {status}, received {len(lab.received)} times, {lines}, {service.log[-5:]}']
    return []


def cut_off(program, folder):
    """A message whose last attempt is cut off by `stop now` is named in the log, and the status is 5."""
    lab, port = Destination(lambda text, before: SILENCE), free_ports(1)[0]
    with Service(program, one_channel(port, [('LAB', lab.port, ['attempts = 1', 'timeout = 30'])]), folder) as service:
        exchange(port, [message(b'CUT1')])
        wait_received(lab, 1)
        service.ask('stop now')
        status, lines = service.ended()
    lab.close()
    named = [line for line in service.log if 'cut off by the stop' in line and 'control_id=CUT1' in line]
    return [] if status == 5 and named else [f'cut off: status {status}, {lines}, {service.log[-5:]}']


def without_framing(program, folder):
    """A sender without MLLP framing, one that leaves out the last byte of a block, and one that is cut off in its first message
    are each named in the log; one that sends nothing, or a block, is not."""
    lab, port = Destination(lambda text, before: b'AA'), free_ports(1)[0]
    text = message(b'A1')
    with Service(program, one_channel(port, [('LAB', lab.port, [])]), folder) as service:
        for data in (text, block(text)[:-1], block(text)[:40], b''):
            with socket.create_connection(('127.0.0.1', port), timeout=5) as connection:
                connection.sendall(data)
        codes = [field(reply, b'MSA', 1) for reply in exchange(port, [text])]
        deadline = time.monotonic() + 10
        while sum('connection ended' in line for line in service.log) < 5 and time.monotonic() < deadline:
            time.sleep(0.05)
        service.ask('stop')
        status, _ = service.ended()
    lab.close()
    # The first of them is shown, and a line at the end has the number of the others.
    named = [line for line in service.log if 'no whole block was received' in line]
    if codes != [b'CA'] or status != 0 or len(named) != 2 or 'repeated=2' not in named[-1]:
        return [f'without framing: {codes}, status {status}, {named}, {service.log[-8:]}']
    return []


class Silent:
    """An address at which a connect gets no answer: a listener that accepts nothing, with as many connections as may wait."""

    def __init__(self, address, port):
        self._sockets = [socket.socket() for _ in range(5)]
        self._sockets[0].bind((address, port))
        self._sockets[0].listen(0)
        for waiting in self._sockets[1:]:
            waiting.setblocking(False)
            waiting.connect_ex((address, port))
        time.sleep(0.2)

    def close(self):
        for each in self._sockets:
            each.close()


def with_hosts(folder, program, hosts):
    """A script that runs a program where these names are known, and no others; None where this machine doesn't allow it."""
    names, script = os.path.join(folder, 'hosts'), os.path.join(folder, os.path.basename(program) + '.sh')
    with open(names, 'w', encoding='utf-8') as file:
        file.write(hosts)
    with open(script, 'w', encoding='utf-8') as file:
        file.write(f'#!/bin/sh\nexec unshare -m sh -c \'mount --bind "$1" /etc/hosts && shift && exec "$@"\' sh '
                   f'{names} {program} "$@"\n')
    os.chmod(script, 0o755)
    return script


def knows_names(folder, hosts):
    """Whether this machine allows programs of their own names."""
    done = subprocess.run([with_hosts(folder, '/bin/true', hosts)], stderr=subprocess.DEVNULL, check=False)
    return done.returncode == 0


def each_address(program, folder):
    """The addresses of a destination's name are tried one after another: a first one that doesn't answer a connect keeps no
    message from the second."""
    hosts = '127.0.0.1 localhost\n127.0.0.2 twice.example\n127.0.0.3 twice.example\n'
    if not knows_names(folder, hosts):
        print('not played, since this machine allows no mounts: each address of a name')
        return []
    service_there, python_there = (with_hosts(folder, each, hosts) for each in (program, sys.executable))
    port, away = free_ports(2)
    look = f'import socket\nfor a in socket.getaddrinfo("twice.example", {away}, type=socket.SOCK_STREAM): print(a[4][0])'
    order = subprocess.run([python_there, '-c', look], stdout=subprocess.PIPE, check=True).stdout.decode().split()
    if len(order) < 2:
        print('not played, since this machine keeps one address for a name: each address of a name')
        return []
    lab = Destination(lambda text, before: b'AA')
    silent, relay = Silent(order[0], away), Proxy(lab.port, order[-1], away)
    text = one_channel(port, [('LAB', away, ['timeout = 1', 'attempts = 1'])])
    with Service(service_there, text.replace(f'127.0.0.1:{away}', f'twice.example:{away}'), folder) as service:
        exchange(port, [message(b'A0'), message(b'A1')])
        whole = wait_received(lab, 2)
        service.ask('stop')
        status, _ = service.ended()
    for each in (silent, relay, lab):
        each.close()
    if (whole, status, lab.received) != (True, 0, [message(b'A0'), message(b'A1')]):
        return [f'each address: {order}, status {status}, {len(lab.received)} of 2 received']
    return []


OUTAGES = [('behind a proxy', behind_a_proxy), ('sent once an attempt', sent_once_an_attempt), ('cut off', cut_off),
           ('without framing', without_framing), ('each address of a name', each_address)]
