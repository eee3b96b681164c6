"""What benches say to a lobby over HTTP and its WebSocket: by blocking calls (Line, and Guest, who hears answers
alone), as a player who comes back and keeps what was said (Person), in an asyncio program (Browser), one request
(fetch), and the figures of /health."""

import asyncio
import base64
import hashlib
import os
import re
import time

from lib.net import connect, to_end

TEXT, CLOSE, PING, PONG = 1, 8, 9, 10


class Gone(Exception):
    """The connection is gone, or the lobby's to the server."""


def milliseconds():
    """Unix time."""
    return int(time.time() * 1000)


def token_of(name):
    """The token that a player of a bench has."""
    return hashlib.sha256(('token of ' + name).encode()).hexdigest()[:32]


def handshake(host):
    """What opens a WebSocket."""
    key = base64.b64encode(os.urandom(16)).decode()
    return ('GET /ws HTTP/1.1\r\nHost: %s\r\nOrigin: http://%s\r\nConnection: Upgrade\r\nUpgrade: websocket\r\n'
            'Sec-WebSocket-Version: 13\r\nSec-WebSocket-Key: %s\r\n\r\n' % (host, host, key)).encode()


def frame(kind, payload):
    """A frame of a client, of at most 125 bytes, or of at most 65,535 where it is a text."""
    mask = os.urandom(4)
    body = bytes(byte ^ mask[place & 3] for place, byte in enumerate(payload))
    size = bytes((128 | len(payload),)) if len(payload) < 126 else bytes((254,)) + len(payload).to_bytes(2, 'big')
    return bytes((128 | kind,)) + size + mask + body


def taken_frame(data):
    """Takes the first frame out of what has come: its kind and its payload without a mask; none where it is not all
    there."""
    if len(data) < 2:
        return None
    size, at = data[1] & 127, 2
    if size >= 126:
        at = 4 if size == 126 else 10
        size = int.from_bytes(data[2:at], 'big')
    start = at + (4 if data[1] & 128 else 0)
    if len(data) < start + size:
        return None
    kind, payload = data[0] & 15, bytes(data[start:start + size])
    if mask := data[at:start]:
        payload = bytes(byte ^ mask[place & 3] for place, byte in enumerate(payload))
    del data[:start + size]
    return kind, payload


class Line:
    """A browser's socket, by blocking calls: to a port of this machine, or to a host and a port."""

    def __init__(self, to, timeout=None):
        host = to if isinstance(to, tuple) else ('127.0.0.1', to)
        self.begin(connect(host, timeout), handshake('%s:%d' % host))

    def begin(self, line, request):
        """Says over a connection what opens a WebSocket; `head` is what is answered."""
        self.socket, self.data = line, bytearray()
        line.sendall(request)
        while b'\r\n\r\n' not in self.data:
            self.more()
        self.head, _, self.data = self.data.partition(b'\r\n\r\n')

    def close(self):
        self.socket.close()

    def more(self):
        some = self.socket.recv(65536)
        if not some:
            raise Gone
        self.data += some

    def hear(self):
        """The next message of text."""
        while True:
            while (taken := taken_frame(self.data)) is None:
                self.more()
            kind, payload = taken
            if kind == TEXT:
                return payload.decode()
            if kind == CLOSE:
                raise Gone
            if kind == PING:
                self.socket.sendall(frame(PONG, payload))

    def send(self, line):
        self.socket.sendall(frame(TEXT, line.encode()))


# How a message begins that is no answer, of one who is not told of the table.
NOTICES = ('told ', 'server ', 'clocks ', 'decided ', 'log ')


class Guest(Line):
    """A browser that hears answers alone, with a token, or with none, who may only log in; it rests before each line so
    long, in seconds."""

    def __init__(self, port, token=None, timeout=20, rest=0.0):
        super().__init__(port, timeout)
        self.rest = rest
        self.hear()
        if token and not self.ask('login ' + token).startswith('ok login '):
            raise Gone

    def ask(self, line):
        """The answer to a line, without the last line feed."""
        time.sleep(self.rest)
        self.send(line)
        while True:
            text = self.hear()
            if not text.startswith(NOTICES):
                return text.rstrip('\n')

    def open(self, line='open white 300 2'):
        """The number of a game that is opened."""
        return self.ask(line).split()[2]

    def rows(self):
        """The games of the table."""
        return [row.split() for row in self.ask('list').splitlines()[1:]]


class Person:
    """A player's connection to a lobby, by blocking calls, who comes back where it is gone, with all acts that were
    said from it: each its line, its answer, where that was not lost on the way, the moments at which it was sent and
    answered, and both in Unix time. Its token is `token_of(NAME)`. `port_of` answers the lobby's port."""

    patience, timeout = 90, 15      # seconds: for coming back, and for one message

    def __init__(self, port_of, name):
        self.port_of, self.name, self.line, self.has_server = port_of, name, None, False
        # (whether the server that the lobby has is that which was lost last)
        self.acts, self.is_lost = [], False

    def connect(self):
        """Comes back, as often as that takes, until the lobby has its server."""
        until = time.monotonic() + self.patience
        while time.monotonic() < until:
            try:
                if self.line:
                    self.line.close()
                self.has_server = self.is_lost = False
                self.line = Line(self.port_of(), self.timeout)
                self.wait_for_the_server()
                if self.say('login ' + token_of(self.name)).startswith('ok login '):
                    return
            except (OSError, Gone):
                pass
            time.sleep(0.05)
        raise SystemExit('the lobby does not come back')

    def wait_for_the_server(self):
        while not self.has_server:
            self.hear()

    def hear(self):
        """The next message of text."""
        text = self.line.hear()
        if text.startswith('server '):
            self.has_server = text.startswith('server here\n')
        return text

    def again(self):
        """Waits for the lobby's server, or comes back to the lobby. It tells whether the connection is another."""
        if self.is_lost:
            self.is_lost = False
            try:
                time.sleep(0.1)
                self.wait_for_the_server()
                return False
            except (OSError, Gone):
                pass
        self.connect()
        return True

    def say(self, line):
        """The answer to a line; it stays below the lobby's limit of messages."""
        time.sleep(0.05)
        self.line.send(line)
        while (answer := self.hear()).startswith(NOTICES):
            pass
        if answer.startswith(('lost', 'no 36 ')):
            self.is_lost = True
            raise Gone(answer.rstrip('\n'))
        return answer

    def act(self, line):
        """The answer to an act; none where it was lost on the way."""
        sent, sent_at, gone = time.monotonic(), milliseconds(), None
        try:
            answer = self.say(line).rstrip('\n')
        except (OSError, Gone) as why:
            # (what was refused without a server was not lost)
            gone, answer = why, str(why) if str(why).startswith('no 36 ') else None
        self.acts.append((line, answer, sent, time.monotonic(), sent_at, milliseconds()))
        if gone:
            self.again()
            return None
        return answer.split()

    def read(self, line):
        """The answer to a line that changes nothing."""
        while True:
            try:
                return self.say(line)
            except (OSError, Gone):
                self.again()

    def rows(self):
        """The games of the table."""
        return [row.split() for row in self.read('list').splitlines()[1:]]


class Browser(asyncio.Protocol):
    """One browser's connection in an asyncio program. `opened` is done at the lobby's first message; answers stand in a
    queue, behind them None once the connection is gone; `told` and `server` are called with notices, where they are
    set."""

    def __init__(self, host):
        self.host, self.data, self.is_open = host, bytearray(), False
        self.opened = asyncio.get_running_loop().create_future()
        self.answers = asyncio.Queue()
        self.is_gone, self.told, self.server, self.gone = False, None, None, None

    def connection_made(self, transport):
        self.transport = transport
        transport.write(handshake(self.host))

    def data_received(self, data):
        self.data += data
        if not self.is_open:
            end = self.data.find(b'\r\n\r\n')
            if end < 0:
                return
            assert self.data.startswith(b'HTTP/1.1 101'), self.data[:60]
            del self.data[:end + 4]
            self.is_open = True
        while (taken := taken_frame(self.data)) is not None:
            kind, payload = taken
            if kind == PING:
                self.transport.write(frame(PONG, payload))
            elif kind == TEXT:
                self.hear(payload.decode())

    def connection_lost(self, why):
        self.is_gone = True
        if not self.opened.done():
            self.opened.set_exception(ConnectionError('not let in'))
        self.answers.put_nowait(None)
        if self.gone:
            self.gone()

    def hear(self, text):
        if text.startswith('server '):
            if self.server:
                self.server(text)
            if not self.opened.done():
                self.opened.set_result(None)
        elif text.startswith('told '):
            if self.told:
                self.told(text)
        else:
            self.answers.put_nowait(text)

    def say(self, line):
        self.transport.write(frame(TEXT, line.encode()))

    async def ask(self, line):
        if self.is_gone:
            raise Gone
        self.say(line)
        answer = await self.answers.get()
        if answer is None:
            raise Gone
        return answer


async def come(make, port):
    """A Browser, or what else `make` makes of it, once it is connected."""
    return (await asyncio.get_running_loop().create_connection(make, '127.0.0.1', port))[1]


def status_of(port, request):
    """The status of the answer to this."""
    with connect(port, 20) as line:
        line.sendall(request)
        return line.recv(4096)[9:12].decode()


def fetch(port, path, method='GET', more='', timeout=60):
    """The status, the fields in small letters, and the body. More fields are lines that end in CRLF."""
    with connect(port, timeout) as line:
        line.sendall(('%s %s HTTP/1.1\r\nHost: 127.0.0.1:%d\r\n%sConnection: close\r\n\r\n' %
                      (method, path, port, more)).encode())
        data = to_end(line)[0]
    head, _, body = data.partition(b'\r\n\r\n')
    first, *rows = head.decode().split('\r\n')
    fields = {}
    for row in rows:
        name, _, value = row.partition(': ')
        fields.setdefault(name.lower(), []).append(value)
    return int(first.split()[1]), fields, body


NAME = r'[a-zA-Z_:][a-zA-Z0-9_:]*'
SAMPLE = re.compile(r'^(%s)(?:\{(.*)\})? (\S+)$' % NAME)
LABEL = re.compile(r'([a-zA-Z_][a-zA-Z0-9_]*)="((?:[^"\\\n]|\\["\\n])*)"(?:,|$)')


def figures(text):
    """The samples of a text in Prometheus' format, by name and labels, and the kinds of the figures. What breaks the
    description raises ValueError: each figure has one HELP and one TYPE in front of its samples, which stand together;
    each sample is a figure's, or of a histogram one of its `_bucket`, `_sum` and `_count`; no two are the same."""
    if not text.endswith('\n'):
        raise ValueError('the last line has no end')
    samples, kinds, helped, current = {}, {}, set(), None
    for row in text[:-1].split('\n'):
        if row.startswith('# HELP '):
            current = row.split(' ', 3)[2]
            if current in helped:
                raise ValueError('two HELP of ' + current)
            helped.add(current)
        elif row.startswith('# TYPE '):
            name, kind = row.split(' ')[2:]
            if name != current or name in kinds or kind not in ('counter', 'gauge', 'histogram', 'summary', 'untyped'):
                raise ValueError(row)
            kinds[name] = kind
        else:
            found = SAMPLE.match(row)
            if not found:
                raise ValueError(row)
            name, labels, value = found.groups()
            own = [current + end for end in ('_bucket', '_sum', '_count')] if kinds[current] == 'histogram' else [
                current]
            if name not in own:
                raise ValueError(row)
            pairs = tuple(LABEL.findall(labels or ''))
            if ''.join('%s="%s",' % pair for pair in pairs).rstrip(',') != (labels or ''):
                raise ValueError(row)
            if (name, pairs) in samples:
                raise ValueError('twice: ' + row)
            samples[name, pairs] = float(value.replace('+Inf', 'inf'))
    return samples, kinds


def of(samples, name, **labels):
    """A lobby's figure; -1 where it is not told."""
    return samples.get(('chess_lobby_' + name, tuple(labels.items())), -1)
