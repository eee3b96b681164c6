"""The program on a journal, and players of a served table: for bench/crash/powercut and bench/crash/failed-sync.

The players play random games, and each answer is compared with the plain model's. For each act that was answered they
call `note`. """

import collections
import hashlib
import os
import selectors
import subprocess

from lib import disk
from lib.model import rules as model
from lib.model.rules import Table, coordinate, legal_moves, other
from lib.net import connect
from lib.program import Wrong, run, wrong_if
from lib.server import FOR_EVER, Server, fault_of, limits_of, reads_of

PATIENCE = 60                   # seconds after which an answer does not come


# ------------------------------------------------------------------- what is shown

def with_sans_kept(san):
    """SANs are made once for each position."""
    def made(p, move):
        known = p.__dict__.setdefault('sans', {})
        if move not in known:
            known[move] = san(p, move)
        return known[move]
    return made


model.san = with_sans_kept(model.san)


def still(line):
    """A line of an answer, without what goes on with the clock."""
    if line.startswith('ok show '):
        fields = line.split(' ')
        if fields[9 + 1] == '*' and fields[4] != '-' and fields[3] != '-':
            fields[7 if fields[6] == 'w' else 8] = '?'
        return ' '.join(fields)
    return line


def digest(lines):
    return hashlib.sha1('\n'.join(map(still, lines)).encode()).hexdigest()


# ------------------------------------------------------------------- the program

class Chess:
    """The program under test, on one journal."""

    def __init__(self, journal, environment=None):
        self.journal, self.how = journal, {'env': dict(os.environ, **(environment or {}))}

    def work(self, word, *more, given=''):
        """The status, what it wrote, and its fault or all that it told."""
        done = run('chess_server', word, '--journal', self.journal, *map(str, more), input=given, timeout=PATIENCE,
                   **self.how)
        return done.returncode, done.stdout, fault_of(done.stderr) or done.stderr.strip()

    def limits(self, word, limits):
        return self.work(word, *limits_of(*limits))

    def reads(self, last):
        return self.work('run', given=''.join(line + '\n' for line in reads_of(range(1, last + 1))))

    def serve(self):
        server = Server(self.journal, *FOR_EVER, stderr=subprocess.PIPE, preexec_fn=disk.die_with_parent, **self.how)
        if server.port is None:
            raise Wrong('serve does not start: %s' % server.process.stderr.read())
        return server


# ------------------------------------------------------------------- players


class Player:
    """A connection with a name, and the acts whose answers have not come."""

    def __init__(self, port, name):
        self.name, self.rest, self.waiting = name, b'', collections.deque()
        self.connection = connect(port, PATIENCE)
        self.connection.sendall(b'name %s\n' % name.encode())
        wrong_if(self.connection.recv(4096) != b'ok name %s\n' % name.encode(), 'no name %s' % name)

    def lines(self):
        """The lines that have come."""
        data = self.connection.recv(65536)
        wrong_if(not data, 'the server has closed the connection of %s' % self.name)
        *lines, self.rest = (self.rest + data).split(b'\n')
        return [line.decode() for line in lines]


class Seat:
    """One game at a time of two players, with one act under way at most; `table` is the model's table of that game."""

    def __init__(self, players, plies, r):
        self.players, self.plies, self.r = players, plies, r
        self.number, self.table, self.wanted, self.opener = None, None, None, None

    def take(self, number, game, greatest):
        """A game that stands on the table already."""
        self.number = number
        self.table = Table(1, self.plies)
        self.table.games, self.table.last, self.table.greatest = {number: game}, number, greatest

    def next_act(self):
        """A player and the line that is to be sent; `wanted` is its answer."""
        if self.number is None or self.number not in self.table.games:
            player = self.r.choice(self.players)
            times = self.r.choice(['86400', '40/86400:3600'])
            self.number, self.wanted, self.opener = None, None, player.name
            return player, 'open %s %s %d' % (self.r.choice(['white', 'black']), times, self.r.choice([0, 2, 60]))
        fields = self.table.games[self.number].fields()
        name, line = self.act(fields)
        self.wanted = self.table.command(self.table.greatest, name, line)[0]
        return next(player for player in self.players if player.name == name), line

    def act(self, f):
        number, chance = self.number, self.r.random()
        seated = [name for name in f.seats.values() if name]
        if f.joined is None:
            joiner = next(player.name for player in self.players if player.name != seated[0])
            return joiner, 'join %d' % number
        if f.ending is not None:
            return self.r.choice(seated), 'drop %d' % number
        mover, rival = f.seats[f.side], f.seats[other(f.side)]
        if f.ply >= self.plies or chance < 0.01:
            return mover, 'resign %d' % number
        if f.offers[other(f.side)] and chance < 0.4:
            return mover, '%s %d' % ('decline' if chance < 0.3 else 'accept', number)
        if chance < 0.06:
            return self.r.choice([mover, rival]), 'offer %d' % number
        move = self.r.choice(legal_moves(f.present))
        text = model.san(f.present, move) if chance < 0.3 else coordinate(move)
        if chance < 0.08:
            return mover, 'claim %d %d three%s' % (number, f.ply, ' ' + text if chance < 0.07 else '')
        if chance < 0.12:
            return self.r.choice([mover, rival]), 'move %d %d a1a1' % (number, f.ply + (chance < 0.1))
        return mover, 'move %d %d %s' % (number, f.ply, text)

    def answered(self, line, answer):
        """Whether the answer is one to an entry."""
        if self.wanted is None:
            wrong_if(not answer.startswith('ok open '), '%r for an answer to %r' % (answer, line))
            self.number = int(answer.split()[-1])
            self.table = Table(1, self.plies)
            self.table.last = self.number - 1
            self.table.command(0, self.opener, line)
            return True
        wrong_if(answer != self.wanted, '%r is answered by %r, and not by %r' % (line, answer, self.wanted))
        return answer.startswith('ok ')


class Play:
    """Games of so many pairs of players, each with so many games at a time, at a server on a port."""

    def __init__(self, port, pairs, games, table, r, note):
        self.note, self.r, self.acked = note, r, 0
        self.players = [[Player(port, '%s%d' % (side, pair)) for side in 'wb'] for pair in range(pairs)]
        self.seats = [Seat(self.players[at % pairs], table.plies_limit, r) for at in range(games)]
        self.ready = selectors.DefaultSelector()
        for player in sum(self.players, []):
            self.ready.register(player.connection, selectors.EVENT_READ, player)
        self.go_on(table, pairs)

    def go_on(self, table, pairs):
        """Gives each game of the table to a seat of its pair."""
        free = collections.defaultdict(list)
        for at, seat in enumerate(self.seats):
            free[at % pairs].append(seat)
        for number, game in table.games.items():
            name = next(name for name in game.fields().seats.values() if name)
            if name[0] in 'wb' and name[1:].isdigit() and free[int(name[1:])]:
                free[int(name[1:])].pop().take(number, game, table.greatest)

    def send(self, seat):
        player, line = seat.next_act()
        player.waiting.append((seat, line))
        player.connection.sendall(line.encode() + b'\n')

    def play(self, acts, drained):
        """Until so many acts are answered; then, where it is to be drained, until none is under way."""
        for seat in self.seats:
            self.send(seat)
        while self.acked < acts or drained and any(player.waiting for pair in self.players for player in pair):
            found = self.ready.select(PATIENCE)
            wrong_if(not found, 'no answer in %d seconds' % PATIENCE)
            for key, _ in found:
                for answer in key.data.lines():
                    seat, line = key.data.waiting.popleft()
                    if seat.answered(line, answer):
                        self.acked += 1
                        self.note(seat.number, line, answer)
                    if self.acked < acts:
                        self.send(seat)

    def close(self):
        self.ready.close()
        for player in sum(self.players, []):
            player.connection.close()


def pairs_of(table):
    """How many pairs a table's games have at least."""
    names = [name for game in table.games.values() for name in game.fields().seats.values() if name]
    return 1 + max((int(name[1:]) for name in names if name[1:].isdigit()), default=-1)

