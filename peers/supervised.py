"""Scenes of a service under a service manager: what it says by sd_notify(3), to a listener of the test's own."""
import os
import socket
import time

from engine import plan
from mllp import Destination, free_ports, message
from served import Service, exchange, wait_status


class Manager:
    """A listener for what a service says of itself, at a path or, with an address that begins with `@`, in the abstract namespace."""

    def __init__(self, address):
        self.address, self.lines = address, []
        self.socket = socket.socket(socket.AF_UNIX, socket.SOCK_DGRAM)
        self.socket.bind(b'\0' + address[1:].encode() if address.startswith('@') else address)

    def __enter__(self):
        os.environ['NOTIFY_SOCKET'] = self.address
        return self

    def __exit__(self, *_):
        del os.environ['NOTIFY_SOCKET']
        self.socket.close()

    def hear(self, seconds):
        """Hears what is said within some seconds, and returns it."""
        said, deadline = [], time.monotonic() + seconds
        while (left := deadline - time.monotonic()) > 0:
            self.socket.settimeout(left)
            try:
                said += self.socket.recv(65_536).decode().splitlines()
            except OSError:
                break
        self.lines += said
        return said

    def wait(self, line, limit=30):
        """Whether a line is said within the limit."""
        deadline = time.monotonic() + limit
        while line not in self.lines and time.monotonic() < deadline:
            self.hear(0.1)
        return line in self.lines


def supervised(program, folder, address, *words, store=None):
    """A service says that it is ready, once a second that it works and how it is, that it loads its plan anew, and that it ends."""
    [port], found = free_ports(1), []
    lab = Destination(lambda text, before: b'AA')
    text = plan([('ADT', port, [('LAB', None, None)])], [('LAB', lab.port, ['interval = 1'])])
    with Manager(address) as manager, Service(program, text, folder, *words, store=store) as service:
        if not manager.wait('READY=1'):
            found.append(f'not ready: {manager.lines}')
        exchange(port, [message(b'N0')])
        wait_status(service, 'destination LAB waiting 0 inflight 0 delivered 1')
        said = manager.hear(3.5)
        if not 2 <= said.count('WATCHDOG=1') <= 5:
            found.append(f'of 3.5 seconds: {said}')
        if not any(line == 'STATUS=0 connections, 1 messages, 0 deliveries to come' for line in said):
            found.append(f'no state: {said}')
        manager.lines.clear()
        service.ask(f'deploy {service.path}')
        said = manager.hear(0.5)
        if [line for line in said if line in ('RELOADING=1', 'READY=1')] != ['RELOADING=1', 'READY=1']:
            found.append(f'of a deployment: {said}')
        service.ask('stop')
        if not manager.wait('STOPPING=1'):
            found.append(f'of a stop: {manager.lines}')
        if service.ended()[0] != 0:
            found.append('its status was not 0')
    lab.close()
    return found


def by_path(program, folder):
    """With its book in memory, and a manager at a path."""
    return [f'a service manager: {line}' for line in supervised(program, folder, os.path.join(folder, 'notify'))]


def by_name(program, folder):
    """With a store, and a manager in the abstract namespace."""
    name = f'@hl7-service-test-{os.getpid()}'
    return [f'a service manager of a store: {line}'
            for line in supervised(program, folder, name, store=os.path.join(folder, 'supervised'))]


def nobody_listens(program, folder):
    """An address at which nobody listens, or that is none, changes nothing."""
    found = []
    for address in (os.path.join(folder, 'nobody'), 'vsock:2:3', '@', ''):
        [port] = free_ports(1)
        lab = Destination(lambda text, before: b'AA')
        os.environ['NOTIFY_SOCKET'] = address
        try:
            with Service(program, plan([('ADT', port, [('LAB', None, None)])], [('LAB', lab.port, [])]), folder) as service:
                if b'MSA|CA' not in exchange(port, [message(b'Q0')])[0]:
                    found.append(f'{address}: not answered')
                service.ask('stop')
                if service.ended()[0] != 0:
                    found.append(f'{address}: its status was not 0')
        finally:
            del os.environ['NOTIFY_SOCKET']
            lab.close()
    return [f'no service manager: {line}' for line in found]


SUPERVISED = [('a service manager', by_path), ('a service manager of a store', by_name), ('no service manager', nobody_listens)]
