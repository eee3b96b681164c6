"""Connections that show no token, and do all that a lobby lets them do, in a process of their own: for
bench/speed/lobby, and for bench/night/watchers those who look at games. `-m lib.strangers PORT KIND COUNT` prints
`ready`, and once standard input ends how many rounds they made, in how many seconds, and how often who looked was
answered by which status. With tokens behind that so many of each log in by it first."""

import asyncio
import collections
import contextlib
import json
import random
import socket
import sys
import time

from lib.program import module
from lib.web import PING, TEXT, frame, handshake

LOOKED_AT = 20                  # the games that are looked at, by their numbers
ASKED = ('pgn 1', 'line 1', 'watch 1', 'list', 'lobby', 'players') * 3


class Stranger:
    """A connection that does what its kind does, round by round, and comes again where it is closed. A kind is a word
    below, or the path of a file."""

    rounds = 0
    statuses = collections.Counter()

    def __init__(self, port, kind, token):
        self.port, self.kind, self.token, self.loop = port, kind, token, asyncio.get_running_loop()
        self.host = '127.0.0.1:%d' % port

    async def send(self, data):
        await self.loop.sock_sendall(self.line, data)

    async def hear(self):
        data = await self.loop.sock_recv(self.line, 1 << 16)
        if not data:
            raise ConnectionError
        return data

    async def listen(self):
        while True:
            await self.hear()

    async def say(self, *lines):
        await self.send(b''.join(frame(TEXT, line.encode()) for line in lines))
        await self.hear()
        Stranger.rounds += len(lines)

    async def open_socket(self):
        await self.send(handshake(self.host))
        await self.hear()
        if self.token:
            await self.say('login ' + self.token)

    async def heads(self):
        """A head that has no end, a byte at a time."""
        for byte in b'GET / HTTP/1.1\r\nHost: %s\r\nX: %s' % (self.host.encode(), b'x' * 4000):
            await self.send(bytes((byte,)))
            Stranger.rounds += 1

    async def load(self, path):
        """A file, again and again over one connection."""
        while True:
            await self.send(b'GET %s HTTP/1.1\r\nHost: %s\r\n\r\n' % (path.encode(), self.host.encode()))
            head, _, body = (await self.hear()).partition(b'\r\n\r\n')
            left = int(head.lower().split(b'content-length: ')[1].split(b'\r\n')[0]) - len(body)
            while left > 0:
                left -= len(await self.hear())
            Stranger.rounds += 1

    async def looks(self):
        """Looks at a game, a second apart or as late as is told, as a spectator's page does: by one connection as long
        as that stays open. Who comes and is closed without an answer is counted too."""
        tag, path, is_new = '', '/games/%d.json' % random.randint(1, LOOKED_AT), True
        while True:
            known = 'If-None-Match: %s\r\n' % tag if tag else ''
            try:
                await self.send(('GET %s HTTP/1.1\r\nHost: %s\r\n%s\r\n' % (path, self.host, known)).encode())
                head, _, body = (await self.hear()).partition(b'\r\n\r\n')
            except OSError:
                Stranger.statuses['none'] += is_new
                raise
            first, *rows = head.decode().lower().split('\r\n')
            fields = dict(row.split(': ', 1) for row in rows)
            left = int(fields.get('content-length', 0)) - len(body)
            while left > 0:
                left -= len(await self.hear())
            status, again = first.split()[1], int(fields.get('retry-after', 1))
            Stranger.statuses[status if again == 1 else '%s after %d s' % (status, again)] += 1
            Stranger.rounds += 1
            tag, is_new = fields.get('etag', ''), False
            if fields.get('connection') == 'close':
                self.line.close()
                return await asyncio.sleep(again)
            await asyncio.sleep(again)

    async def churn(self):
        """A socket that is opened and closed."""
        await self.open_socket()
        Stranger.rounds += 1

    async def waits(self):
        """A socket by which nothing is said until it is closed."""
        await self.churn()
        await self.listen()

    async def logins(self):
        """Tokens that nobody has, until it is closed for them."""
        await self.open_socket()
        while True:
            await self.say('login ' + '0' * 32)

    async def asks(self):
        """18 questions at once, and 20 in a second; without a token they are refused."""
        await self.open_socket()
        while True:
            await self.say(*ASKED)
            with contextlib.suppress(asyncio.TimeoutError):
                await asyncio.wait_for(self.listen(), 0.9)

    async def unpairs(self):
        """Takes back what is not offered, as fast as it is told anything: each time all at the table are told."""
        await self.open_socket()
        await self.say('lobby')
        while True:
            await self.say('unpair p0')

    async def pings(self):
        """Pings, as many as the socket takes."""
        await self.open_socket()
        while True:
            await self.send(frame(PING, b'') * 150)
            await self.hear()
            Stranger.rounds += 150

    async def run(self):
        await asyncio.sleep(random.random() if self.kind == 'looks' else 0)
        while True:
            self.line = socket.socket()
            self.line.setblocking(False)
            self.line.setsockopt(socket.IPPROTO_TCP, socket.TCP_NODELAY, 1)
            with contextlib.suppress(OSError, IndexError):
                await self.loop.sock_connect(self.line, ('127.0.0.1', self.port))
                await (self.load(self.kind) if self.kind[0] == '/' else getattr(self, self.kind)())
            self.line.close()
            await asyncio.sleep(0.001)


async def do(port, kind, count, *tokens):
    """So many connections of a kind, or so many by each of these tokens, until standard input ends."""
    tasks = [asyncio.create_task(Stranger(port, kind, token).run()) for token in tokens or [''] for _ in range(count)]
    print('ready', flush=True)
    began = time.monotonic()
    await asyncio.to_thread(sys.stdin.read)
    print('%d %.1f %s' % (Stranger.rounds, time.monotonic() - began, json.dumps(Stranger.statuses)), flush=True)
    for task in tasks:
        task.cancel()


class Crowd:
    """So many who do this, or so many by each of these tokens, in a process of their own."""

    def __init__(self, port, kind, count, *tokens):
        self.process = module('lib.strangers', port, kind, count, *tokens)
        self.process.stdout.readline()

    def end(self):
        """How many rounds they made a second; `statuses` is how often they were answered by which."""
        self.process.stdin.close()
        rounds, seconds, statuses = self.process.stdout.readline().split(' ', 2)
        self.process.wait()
        self.statuses = json.loads(statuses)
        return int(rounds) / float(seconds)


if __name__ == '__main__':
    to, kind, count, *tokens = sys.argv[1:]
    asyncio.run(do(int(to), kind, int(count), *tokens))
