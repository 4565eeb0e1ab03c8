#!/usr/bin/env python3
"""Opens the page of a service in a real browser, headless Chromium, in states that are made over real sockets: all well, a
destination that can't be reached for ten seconds and for a minute, one that rejects, one that is held, a paused channel, and a service that
drains. The title and the first sentences have to say what is so, and at a width of 360 and of 1,280 pixels nothing may be wider than
the window. Text and background of each pair of colours of the style sheet have a contrast of 4.5 at least, light and dark.

Usage: tests/page.py [PROGRAM]

PROGRAM is the built service, by default crates/hl7_service/out/hl7_service. Where no Chromium is installed this is said, and the
contrasts alone are computed. The exit status is 0 if all is as it has to be, else 1. Plain Python 3, no packages.
"""
import base64
import json
import os
import re
import shutil
import socket
import subprocess
import sys
import tempfile
import threading
import time
import urllib.request

TOP = os.path.dirname(os.path.dirname(os.path.abspath(__file__)))
sys.path.insert(0, os.path.join(TOP, 'peers'))

from engine import plan  # noqa: E402
from mllp import Destination, free_ports, message  # noqa: E402
from served import Service, exchange, wait_status  # noqa: E402

PROGRAM = os.path.join(TOP, 'crates', 'hl7_service', 'out', 'hl7_service')
BROWSERS = ('chromium', 'chromium-browser', 'google-chrome')
LIMIT = 30
WIDTHS = (360, 1_280)
CONTRAST = 4.5
# The colours of a text and of what it is written on, by their names in the style sheet.
PAIRS = (('ink', 'back'), ('ink', 'card'), ('soft', 'back'), ('soft', 'card'), ('ok', 'okb'), ('look', 'lookb'), ('act', 'actb'),
         ('ink', 'okb'), ('ink', 'lookb'), ('ink', 'actb'))
WIDE = 'Math.max(document.documentElement.scrollWidth, document.body.scrollWidth) - window.innerWidth'


class Socket:
    """A WebSocket to a page of the browser, by which it is told what to do: RFC 6455, in as much as that needs."""

    def __init__(self, url):
        host, _, path = url.removeprefix('ws://').partition('/')
        name, _, port = host.partition(':')
        self.peer, self.held, self.number = socket.create_connection((name, int(port)), LIMIT), b'', 0
        key = base64.b64encode(os.urandom(16)).decode()
        self.peer.sendall((f'GET /{path} HTTP/1.1\r\nHost: {host}\r\nUpgrade: websocket\r\nConnection: Upgrade\r\n'
                           f'Sec-WebSocket-Key: {key}\r\nSec-WebSocket-Version: 13\r\n\r\n').encode())
        while b'\r\n\r\n' not in self.held:
            self.more()
        self.held = self.held.partition(b'\r\n\r\n')[2]

    def more(self):
        """Reads what there is."""
        piece = self.peer.recv(65_536)
        if not piece:
            raise OSError('the browser ended the connection')
        self.held += piece

    def take(self, count):
        """The next bytes."""
        while len(self.held) < count:
            self.more()
        taken, self.held = self.held[:count], self.held[count:]
        return taken

    def send(self, text):
        """Sends a text, masked as a client has to."""
        data, mask = text.encode(), os.urandom(4)
        length = bytes([0x80 | len(data)]) if len(data) < 126 else b'\xfe' + len(data).to_bytes(2, 'big')
        self.peer.sendall(b'\x81' + length + mask + bytes(byte ^ mask[at % 4] for at, byte in enumerate(data)))

    def receive(self):
        """The next text, of as many frames as it has."""
        whole = b''
        while True:
            first, second = self.take(2)
            length = second & 0x7F
            if length >= 126:
                length = int.from_bytes(self.take(2 if length == 126 else 8), 'big')
            whole += self.take(length)
            if first & 0x80:
                return whole.decode()

    def call(self, method, **given):
        """What the browser answers to a call."""
        self.number += 1
        self.send(json.dumps({'id': self.number, 'method': method, 'params': given}))
        while True:
            found = json.loads(self.receive())
            if found.get('id') == self.number:
                return found.get('result', {})


class Browser:
    """Headless Chromium with one page."""

    def __init__(self, program, folder):
        words = ['--headless=new', '--no-sandbox', '--disable-gpu', '--disable-dev-shm-usage', '--no-first-run', '--hide-scrollbars',
                 '--remote-debugging-port=0', f'--user-data-dir={folder}', 'about:blank']
        self.process = subprocess.Popen([program, *words], stdin=subprocess.DEVNULL, stdout=subprocess.DEVNULL,
                                        stderr=subprocess.DEVNULL)
        port, deadline = os.path.join(folder, 'DevToolsActivePort'), time.monotonic() + LIMIT
        while not os.path.isfile(port) and time.monotonic() < deadline:
            time.sleep(0.1)
        with open(port, encoding='ascii') as file:
            number = file.read().split()[0]
        with urllib.request.urlopen(f'http://127.0.0.1:{number}/json/list', timeout=LIMIT) as answer:
            pages = [it for it in json.load(answer) if it['type'] == 'page']
        self.page = Socket(pages[0]['webSocketDebuggerUrl'])

    def value(self, text):
        """The value of an expression on the page."""
        return self.page.call('Runtime.evaluate', expression=text).get('result', {}).get('value')

    def open(self, url):
        """Opens an address, and waits until it is loaded."""
        self.page.call('Page.navigate', url=url)
        deadline = time.monotonic() + LIMIT
        while time.monotonic() < deadline and self.value('document.readyState + location.href') != 'complete' + url:
            time.sleep(0.05)

    def wider(self, width):
        """By how many pixels the page is wider than a window of this width."""
        self.page.call('Emulation.setDeviceMetricsOverride', width=width, height=800, deviceScaleFactor=1, mobile=width < 600)
        return self.value(WIDE)

    def end(self):
        self.process.kill()
        self.process.wait()


def luminance(colour):
    """The relative luminance of a colour such as #1b1f23 or #fff, by WCAG 2."""
    digits = colour.lstrip('#')
    digits = ''.join(2 * it for it in digits) if len(digits) == 3 else digits
    parts = [int(digits[at:at + 2], 16) / 255 for at in (0, 2, 4)]
    red, green, blue = (it / 12.92 if it <= 0.04045 else ((it + 0.055) / 1.055) ** 2.4 for it in parts)
    return 0.2126 * red + 0.7152 * green + 0.0722 * blue


def faint():
    """The pairs of colours of the style sheet whose contrast is too small."""
    with open(os.path.join(TOP, 'crates', 'service_pages', 'src', 'page.rt'), encoding='utf-8') as file:
        sheets = re.findall(r':root\{([^}]*)\}', file.read())
    found = [] if len(sheets) == 2 else [f'{len(sheets)} lists of colours in the style sheet']
    for name, sheet in zip(('light', 'dark'), sheets):
        colours = dict(re.findall(r'--(\w+):(#\w+)', sheet))
        for ink, ground in PAIRS:
            one, other = sorted((luminance(colours[ink]), luminance(colours[ground])))
            if (other + 0.05) / (one + 0.05) < CONTRAST:
                found.append(f'contrast of {ink} on {ground}, {name}: {(other + 0.05) / (one + 0.05):.2f}')
    return found


class Night:
    """A service with a destination LAB whose port is dead, PACS that rejects and ARCHIVE that takes everything, each of a channel
    of its own."""

    def __init__(self, program, folder, *words):
        self.ports, self.web, self.dead = free_ports(3), *free_ports(2)
        self.up, self.refuser = Destination(lambda text, before: b'AA'), Destination(lambda text, before: b'AR')
        waits, once = ['attempts = 100', 'interval = 1'], ['attempts = 1', 'interval = 1']
        text = plan([(name, port, [(to, None, None)]) for name, port, to in zip('ABC', self.ports, ('LAB', 'PACS', 'ARCHIVE'))],
                    [('LAB', self.dead, waits), ('PACS', self.refuser.port, once), ('ARCHIVE', self.up.port, once)])
        self.service = Service(program, text, folder, '--http', f'127.0.0.1:{self.web}', *words)

    def send(self, channel, count):
        """Sends messages to a channel, and returns how many were acknowledged."""
        return len(exchange(self.ports['ABC'.index(channel)], [message(b'%d' % at) for at in range(count)]))

    def end(self):
        self.service.__exit__()
        self.up.close()
        self.refuser.close()


def looked(browser, night, name, title, *words):
    """What is wrong with the page in a state: its title begins with `title`, and its first box has these words."""
    found = []
    time.sleep(0.1)  # one look at the book serves for 50 milliseconds
    url = f'http://127.0.0.1:{night.web}/'
    browser.open(url)
    shown, top = browser.value('document.title'), browser.value("document.querySelector('.top').innerText")
    lacking = [word for word in words if word not in (top or '')]
    if not (shown or '').startswith(title) or lacking:
        found.append(f'{name}: title {shown!r}, and above all {top!r}, without {lacking}')
    for width in WIDTHS:
        wider = browser.wider(width)
        if not isinstance(wider, (int, float)) or wider > 0:
            found.append(f'{name}: at {width} pixels the page is wider than the window by {wider}')
    return found


def waited(until):
    """Waits until something holds, at most as long as a scene may take."""
    deadline = time.monotonic() + LIMIT
    while not until() and time.monotonic() < deadline:
        time.sleep(0.1)


def states(program, browser, folder):
    """What is wrong with the page in the states of one service, one after another."""
    night, found = Night(program, folder), []
    try:
        night.send('C', 2)
        wait_status(night.service, 'destination ARCHIVE waiting 0 inflight 0 delivered 2 ')
        found += looked(browser, night, 'all well', 'OK', 'All is well')
        night.service.ask('hold ARCHIVE')
        found += looked(browser, night, 'held', 'LOOK', 'ARCHIVE', 'is held')
        night.service.ask('release ARCHIVE')
        night.send('A', 1)
        began = time.monotonic()
        night.send('B', 1)
        wait_status(night.service, 'destination PACS waiting 0 inflight 0 delivered 0 failed 1 ')
        found += looked(browser, night, 'rejected', 'LOOK', 'PACS', 'a message failed')
        time.sleep(max(0, began + 12 - time.monotonic()))
        found += looked(browser, night, 'down', 'LOOK', 'LAB', "can't be reached", f'127.0.0.1:{night.dead}')
        night.service.ask('stop')
        time.sleep(0.3)
        found += looked(browser, night, 'draining', 'LOOK', 'The service is stopping')
        time.sleep(max(0, began + 62 - time.monotonic()))
        found += looked(browser, night, 'down for a minute', 'ACT', 'LAB', "can't be reached")
    finally:
        night.end()
    return found


def paused(program, browser, folder):
    """What is wrong with the page where a channel is paused: a small book, of which LAB may owe a half."""
    night, found = Night(program, folder, '--events', '3000'), []
    try:
        sending = [message(b'%d' % at) for at in range(40)]
        threading.Thread(target=exchange, args=(night.ports[0], sending), daemon=True).start()
        waited(lambda: any('paused' in line for line in night.service.ask('status') or []))
        found += looked(browser, night, 'paused', 'ACT', 'Channel A is paused')
    finally:
        night.end()
    return found


def main():
    program, found = os.path.abspath(sys.argv[1] if len(sys.argv) > 1 else PROGRAM), faint()
    path = next(filter(None, map(shutil.which, BROWSERS)), None)
    if not path:
        print('the page in a browser: skipped, since no Chromium is installed')
        print('\n'.join(found) or 'contrasts: well')
        return 1 if found else 0
    with tempfile.TemporaryDirectory() as folder:
        for name in ('browser', 'states', 'paused'):
            os.mkdir(os.path.join(folder, name))
        browser = Browser(path, os.path.join(folder, 'browser'))
        try:
            for scene in (states, paused):
                found += scene(program, browser, os.path.join(folder, scene.__name__))
        finally:
            browser.end()
    print('\n'.join(found) or 'the page in a browser: well')
    return 1 if found else 0


if __name__ == '__main__':
    sys.exit(main())
