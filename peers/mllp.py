"""MLLP over loopback in plain Python 3: blocks, fields, a sender, and destinations whose answers a test chooses."""
import random
import socket
import threading
import time

START, END = b'\x0b', b'\x1c\r'

# What a destination may do in place of an answer: send nothing, hang up, or send without end for ENDLESS seconds.
SILENCE, HANG_UP, NO_END = None, 'hang up', 'no end'
ENDLESS = 4.0


def block(text):
    """The text as an MLLP block (MLLP Release 1)."""
    return START + text + END


def blocks(connection):
    """Yields the text of each block received on a connection, until its end."""
    held = b''
    while piece := connection.recv(65_536):
        held += piece
        while (end := held.find(END)) >= 0:
            start = held.find(START)
            if 0 <= start < end:
                yield held[start + 1:end]
            held = held[end + 2:]


def field(text, segment, number):
    """The field with this number of the first segment of that name, empty if there is none. MSH-1 is the separator itself."""
    for line in text.split(b'\r'):
        if line[:3] == segment:
            fields = line.split(b'|')
            index = number - (segment == b'MSH')
            return fields[index] if index < len(fields) else b''
    return b''


def message(control_id, ward=b'I', patient=b'77^^^H', more=b'AL|NE', sender=b'REG', kind=b'ADT^A01^ADT_A01', version=b'2.5.1'):
    """A message. Unless `more` says otherwise, its MSH-15 and MSH-16 request an accept acknowledgment only (HL7 v2.5.1, 2.9.3)."""
    return (b'MSH|^~\\&|' + sender + b'|HOSP|ENG|HUB|20231114221300||' + kind + b'|' + control_id + b'|P|' + version
            + b'|||' + more + b'\rPID|1||' + patient + b'\rPV1|1|' + ward + b'\r')


def answer(text, code):
    """A destination's acknowledgment of a message."""
    control_id = field(text, b'MSH', 10)
    return b'MSH|^~\\&|PEER|X|ENG|HUB|20231114221300||ACK|' + control_id + b'|P|2.5.1\rMSA|' + code + b'|' + control_id + b'\r'


class Destination:
    """A listener that keeps each text that it receives and answers it. `respond` is a function of the text and of how often
    that text was received before. It returns an acknowledgment code, bytes that are sent as they are, or one of the three
    constants above. Unless `up`, connections are refused until `open` is called."""

    def __init__(self, respond, port=0, up=True, slice_size=0):
        self.respond, self.slice_size = respond, slice_size
        self.received, self.closed = [], False
        self._seen, self._lock = {}, threading.Lock()
        self._listener, self._thread = socket.socket(), None
        self._listener.setsockopt(socket.SOL_SOCKET, socket.SO_REUSEADDR, 1)
        self._listener.bind(('127.0.0.1', port or free_ports(1)[0]))
        self.port = self._listener.getsockname()[1]
        if up:
            self.open()

    def open(self):
        self._listener.listen(16)
        self._thread = threading.Thread(target=self._listen, daemon=True)
        self._thread.start()

    def _listen(self):
        while not self.closed:
            try:
                connection, _ = self._listener.accept()
            except OSError:
                return
            connection.setsockopt(socket.IPPROTO_TCP, socket.TCP_NODELAY, 1)
            threading.Thread(target=self._talk, args=(connection,), daemon=True).start()

    def _talk(self, connection):
        with connection:
            try:
                for text in blocks(connection):
                    with self._lock:
                        before = self._seen.get(text, 0)
                        self._seen[text] = before + 1
                        self.received.append(text)
                    if not self._answer(connection, text, self.respond(text, before)):
                        return
            except OSError:
                return

    def _answer(self, connection, text, response):
        """Sends the response to a text, and returns whether the connection stays open."""
        if response is SILENCE:
            return True
        if response == HANG_UP:
            return False
        if response == NO_END:
            connection.sendall(START)
            until = time.monotonic() + ENDLESS
            while not self.closed and time.monotonic() < until:
                connection.sendall(b'no end in sight ')
            return False
        reply = response if len(response) > 2 else block(answer(text, response))
        step = self.slice_size or len(reply)
        for at in range(0, len(reply), step):
            connection.sendall(reply[at:at + step])
        return True

    def close(self):
        """Ends the wait for connections before closing the listener. If the descriptor were closed during the wait, the wait
        could resume on whatever has that descriptor number by then, which may be the next destination's listener."""
        self.closed = True
        if self._thread:
            self._listener.shutdown(socket.SHUT_RDWR)
            self._thread.join(10)
        self._listener.close()


class Sender(threading.Thread):
    """Sends texts on one connection, with at most `in_flight` of them unacknowledged at a time. Keeps the acknowledgments
    received, the time just before each text was sent, and the time at which its acknowledgment was received. It can send other
    bytes before and after the blocks, send everything in slices, and end the connection by a reset."""

    def __init__(self, port, texts, in_flight=1, slice_size=0, before=b'', after=b'', resets=False):
        super().__init__(daemon=True)
        self.port, self.texts, self.in_flight, self.slice_size = port, texts, in_flight, slice_size
        self.before, self.after, self.resets = before, after, resets
        self.replies, self.sent, self.answered, self.fault = [], [], [], None

    def run(self):
        try:
            with socket.create_connection(('127.0.0.1', self.port), timeout=90) as connection:
                connection.setsockopt(socket.IPPROTO_TCP, socket.TCP_NODELAY, 1)
                self._talk(connection)
                if self.resets:
                    connection.setsockopt(socket.SOL_SOCKET, socket.SO_LINGER, b'\1\0\0\0\0\0\0\0')
        except OSError as error:
            self.fault = error

    def _talk(self, connection):
        coming = blocks(connection)
        connection.sendall(self.before)
        for number, text in enumerate(self.texts):
            self.sent.append(time.monotonic())
            self._send(connection, block(text))
            if number + 1 >= self.in_flight:
                self._read(coming)
        while len(self.replies) < len(self.texts):
            self._read(coming)
        connection.sendall(self.after)

    def _read(self, coming):
        reply = next(coming, None)
        if reply is None:
            raise OSError(f'the connection ended after {len(self.replies)} acknowledgments')
        self.replies.append(reply)
        self.answered.append(time.monotonic())

    def _send(self, connection, data):
        step = self.slice_size or len(data)
        for at in range(0, len(data), step):
            connection.sendall(data[at:at + step])


_assigned, _assigning = set(), threading.Lock()


def _is_assigned(port):
    """Whether `free_ports` has returned this port already; from now on it has."""
    with _assigning:
        was_assigned = port in _assigned
        _assigned.add(port)
    return was_assigned


def free_ports(count):
    """Loopback ports that nothing listens on, below the range that the system assigns to outgoing connections; none of them
    twice. A port is tried by connecting to it and not by binding it: a program that another thread starts at that moment
    would inherit the bound socket, and hold the port until it runs."""
    ports = []
    while len(ports) < count:
        port = random.randrange(10_000, 32_000)
        if _is_assigned(port):
            continue
        with socket.socket() as probe:
            if probe.connect_ex(('127.0.0.1', port)):
                ports.append(port)
    return ports
