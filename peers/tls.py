#!/usr/bin/env python3
"""Plays the configurations of examples/tls around the built service: a sender and a destination that use TLS, through stunnel and
through HAProxy, with certificates of an authority that the script creates. If one of the two, or openssl, isn't installed, the
script says so and leaves it out.

Usage: peers/tls.py [PROGRAM]

PROGRAM is the built service, by default crates/hl7_service/out/hl7_service ('rt run' in crates/hl7_service builds it).
Plain Python 3, no packages, bounded in time. The exit status is 0 if every check passes, else 1.
"""
import os
import shutil
import socket
import ssl
import subprocess
import sys
import tempfile
import threading
import time

from engine import one_channel
from mllp import answer, block, blocks, field, free_ports, message
from service import PROGRAM, Service, until, wait_received
from mllp import Destination
from outages import Silent

EXAMPLES = os.path.join(os.path.dirname(os.path.abspath(__file__)), '..', 'examples', 'tls')
LIMIT = 20


def openssl(folder, *words):
    subprocess.run(['openssl', *words], cwd=folder, check=True, capture_output=True, timeout=LIMIT)


def certificates(folder):
    """Creates an authority with certificates for the engine, two senders and LAB; and a certificate by another authority."""
    os.mkdir(folder)
    for authority in ('ca', 'other'):
        openssl(folder, 'req', '-x509', '-newkey', 'ec', '-pkeyopt', 'ec_paramgen_curve:P-256', '-nodes', '-days', '2', '-subj',
                f'/CN={authority}', '-keyout', f'{authority}.key', '-out', f'{authority}.crt')
    for name, by in (('engine', 'ca'), ('adt-sender', 'ca'), ('guest', 'ca'), ('lab', 'ca'), ('forged', 'other')):
        subject = 'adt-sender' if name == 'forged' else name
        openssl(folder, 'req', '-newkey', 'ec', '-pkeyopt', 'ec_paramgen_curve:P-256', '-nodes', '-subj', f'/CN={subject}',
                '-keyout', f'{name}.key', '-out', f'{name}.csr')
        with open(os.path.join(folder, f'{name}.ext'), 'w', encoding='utf-8') as file:
            file.write(f'subjectAltName=DNS:{subject}\n')
        openssl(folder, 'x509', '-req', '-in', f'{name}.csr', '-CA', f'{by}.crt', '-CAkey', f'{by}.key', '-CAcreateserial',
                '-days', '2', '-extfile', f'{name}.ext', '-out', f'{name}.crt')
        with open(os.path.join(folder, f'{name}.pem'), 'wb') as both:
            for part in ('crt', 'key'):
                with open(os.path.join(folder, f'{name}.{part}'), 'rb') as file:
                    both.write(file.read())


class SecureLab:
    """A destination that speaks TLS, requires a certificate of the authority, and answers AA."""

    def __init__(self, port, folder):
        self.received, self.listener = [], socket.create_server(('127.0.0.1', port))
        self.context = ssl.SSLContext(ssl.PROTOCOL_TLS_SERVER)
        self.context.load_cert_chain(os.path.join(folder, 'lab.crt'), os.path.join(folder, 'lab.key'))
        self.context.load_verify_locations(os.path.join(folder, 'ca.crt'))
        self.context.verify_mode = ssl.CERT_REQUIRED
        threading.Thread(target=self.listen, daemon=True).start()

    def listen(self):
        while True:
            try:
                peer, _ = self.listener.accept()
            except OSError:
                return
            threading.Thread(target=self.talk, args=(peer,), daemon=True).start()

    def talk(self, peer):
        try:
            with self.context.wrap_socket(peer, server_side=True) as secure:
                for text in blocks(secure):
                    self.received.append(text)
                    secure.sendall(block(answer(text, b'AA')))
        except OSError:
            pass

    def close(self):
        self.listener.shutdown(socket.SHUT_RDWR)
        self.listener.close()


def sent(port, folder, name, text):
    """The acknowledgment code for a message sent over TLS, with the certificate `name` if one is given; 'closed' if there is none."""
    context = ssl.SSLContext(ssl.PROTOCOL_TLS_CLIENT)
    context.load_verify_locations(os.path.join(folder, 'ca.crt'))
    if name:
        context.load_cert_chain(os.path.join(folder, f'{name}.crt'), os.path.join(folder, f'{name}.key'))
    try:
        with socket.create_connection(('127.0.0.1', port), timeout=LIMIT) as plain, \
                context.wrap_socket(plain, server_hostname='engine') as secure:
            secure.sendall(block(text))
            reply = next(blocks(secure), None)
            return field(reply, b'MSA', 1) if reply else 'closed'
    except OSError:
        return 'closed'


def sent_plain(port, text):
    """The same over plain MLLP."""
    try:
        with socket.create_connection(('127.0.0.1', port), timeout=LIMIT) as peer:
            peer.sendall(block(text))
            reply = next(blocks(peer), None)
            return field(reply, b'MSA', 1) if reply else 'closed'
    except OSError:
        return 'closed'


class Proxy:
    """A proxy with one of the example configurations, at other ports, once its port for senders accepts connections."""

    def __init__(self, tool, example, folder, port_of):
        with open(os.path.join(EXAMPLES, example), encoding='utf-8') as file:
            text = file.read()
        for number, port in port_of.items():
            text = text.replace(f'127.0.0.1:{number}\n', f'127.0.0.1:{port}\n').replace(f'127.0.0.1:{number} ', f'127.0.0.1:{port} ')
        with open(os.path.join(folder, example), 'w', encoding='utf-8') as file:
            file.write(text)
        words = [tool, example] if tool.endswith('stunnel') else [tool, '-f', example]
        self.process = subprocess.Popen(words, cwd=folder, stdout=subprocess.DEVNULL, stderr=subprocess.DEVNULL)
        until = time.monotonic() + LIMIT
        while time.monotonic() < until and self.process.poll() is None:
            try:
                socket.create_connection(('127.0.0.1', port_of[2576]), timeout=1).close()
                return
            except OSError:
                time.sleep(0.05)
        raise RuntimeError(f'{tool} does not listen')

    def __enter__(self):
        return self

    def __exit__(self, *_):
        self.process.kill()
        self.process.wait()


def ports():
    """A free port for each port number of the examples."""
    return dict(zip((2576, 2577, 6660, 6661, 6760), free_ports(5)))


def by_stunnel(program, folder):
    """A sender with the right certificate, then senders without it, and LAB over TLS."""
    port_of, tls = ports(), os.path.join(folder, 'tls')
    lab = SecureLab(port_of[2577], tls)
    with Service(program, one_channel(port_of[6660], [('LAB', port_of[6661], [])]), folder) as service, \
            Proxy(shutil.which('stunnel'), 'stunnel.conf', folder, port_of):
        codes = [sent(port_of[2576], tls, 'adt-sender', message(b'S1')), sent(port_of[2576], tls, None, message(b'S2')),
                 sent(port_of[2576], tls, 'guest', message(b'S3')), sent(port_of[2576], tls, 'forged', message(b'S4')),
                 sent_plain(port_of[2576], message(b'S5'))]
        whole = wait_received(lab, 1)
        service.ask('stop now')
    lab.close()
    wanted = [b'CA', 'closed', 'closed', 'closed', 'closed']
    return [] if codes == wanted and whole and lab.received == [message(b'S1')] else [f'stunnel: {codes}, {len(lab.received)} received']


def by_haproxy(program, folder):
    """The same through HAProxy, whose health checks open no connection to the service. Then the first service ends and the second
    takes over, and then that ends too."""
    port_of, tls, found = ports(), os.path.join(folder, 'tls'), []
    lab, spare = SecureLab(port_of[2577], tls), Destination(lambda *_: b'AA')
    second = os.path.join(folder, 'second')
    os.mkdir(second)
    with Service(program, one_channel(port_of[6660], [('LAB', port_of[6661], [])]), folder) as service, \
            Service(program, one_channel(port_of[6760], [('SPARE', spare.port, [])]), second) as other, \
            Proxy(shutil.which('haproxy'), 'haproxy.cfg', folder, port_of):
        checked = subprocess.run(['haproxy', '-c', '-f', 'haproxy.cfg'], cwd=folder, capture_output=True, timeout=LIMIT, check=False)
        codes = [sent(port_of[2576], tls, 'adt-sender', message(b'H1')), sent(port_of[2576], tls, None, message(b'H2')),
                 sent(port_of[2576], tls, 'guest', message(b'H3')), sent(port_of[2576], tls, 'forged', message(b'H4')),
                 sent_plain(port_of[2576], message(b'H5'))]
        whole = wait_received(lab, 1)
        time.sleep(3)
        opened = sum('connection opened' in line for line in service.log)
        service.ask('stop')
        until, code = time.monotonic() + LIMIT, 'closed'
        while code == 'closed' and time.monotonic() < until:
            code = sent(port_of[2576], tls, 'adt-sender', message(b'H6'))
        took_over = wait_received(spare, 1)
        other.ask('stop now')
        other.ended(LIMIT)
        down = sent(port_of[2576], tls, 'adt-sender', message(b'H7'))
    lab.close()
    spare.close()
    if checked.returncode or codes != [b'CA', 'closed', 'closed', 'closed', 'closed'] or not whole or lab.received != [message(b'H1')]:
        found.append(f'haproxy: {checked.returncode}, {codes}, {len(lab.received)} received')
    if code != b'CA' or not took_over:
        found.append(f'haproxy: the second service was not reached: {code}')
    if opened != 1:
        found.append(f'haproxy: {opened} connections were opened by one sender and by health checks, which open none')
    if down != 'closed':
        found.append(f'haproxy: a sender is answered {down} while no service is up')
    return found


def switched_off(program, folder):
    """While the machine of a destination behind HAProxy is switched off, so that it answers no connect, a message costs one attempt,
    and waits."""
    port_of = ports()
    lab = Silent('127.0.0.1', port_of[2577])
    more = ['attempts = 3', 'interval = 1', 'timeout = 20']
    with Service(program, one_channel(port_of[6660], [('LAB', port_of[6661], more)]), folder) as service, \
            Proxy(shutil.which('haproxy'), 'haproxy.cfg', folder, port_of):
        code = sent_plain(port_of[6660], message(b'H1'))
        is_watched = until(lambda: sum('right after it was connected' in line for line in service.log) > 0)
        time.sleep(10)
        status = service.ask('status')
        service.ask('stop now')
    lab.close()
    fronts = [line for line in status or [] if line.startswith('front LAB')]
    if (code, is_watched) != (b'CA', True) or not fronts or 'waiting attempts 1' not in fronts[0]:
        return [f'switched off behind haproxy: {code}, {fronts}, {service.log[-5:]}']
    return []


def main():
    program, lines = os.path.abspath(sys.argv[1] if len(sys.argv) > 1 else PROGRAM), []
    for tool, scene in (('stunnel', by_stunnel), ('haproxy', by_haproxy), ('haproxy', switched_off)):
        if not shutil.which(tool) or not shutil.which('openssl'):
            print(f'{tool}: not played, {tool} or openssl is not installed')
            continue
        began = time.monotonic()
        with tempfile.TemporaryDirectory() as folder:
            certificates(os.path.join(folder, 'tls'))
            try:
                found = scene(program, folder)
            except (OSError, RuntimeError, subprocess.SubprocessError) as error:
                found = [f'{tool}: {error!r}']
        print(f'{tool}: {"as it should be" if not found else "WRONG"}, {time.monotonic() - began:.1f} seconds', flush=True)
        lines += found
    for line in lines:
        print(line)
    return 1 if lines else 0


if __name__ == '__main__':
    sys.exit(main())
