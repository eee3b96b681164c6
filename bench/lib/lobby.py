"""A lobby before a game's server, and ways between that bring about what goes wrong."""

import contextlib
import hashlib
import os
import queue
import signal
import subprocess
import threading
import time

from lib.net import Door, connect, cut
from lib.program import PAGE, Closing, Wrong, begin, end, path_of, put
from lib.server import Server
from lib.web import TEXT, taken_frame, token_of

ACTS = (b'open ', b'join ', b'move ', b'offer ', b'accept ', b'decline ', b'resign ', b'claim ', b'flag ', b'drop ')
# Who plays in most benches.
ANN, BOB, EVE = ('ann', 'player', 'Ann Lee'), ('bob', 'player', 'Bob'), ('eve', 'arbiter', 'Eve Moss')


def people(*rows):
    """Rows of a name, a role and a full name, with the token that each of a bench has."""
    return [(name, role, token_of(name), full) for name, role, full in rows]


def players(names):
    return people(*((name, 'player', 'Player ' + name[1:]) for name in names))


def sum_of(token):
    return hashlib.sha256(token.encode()).hexdigest()


def put_players(path, rows):
    """Writes a players' file: rows of a name, a role, a token and a full name."""
    put(path, ''.join('%s %s %s %s\n' % (name, role, sum_of(token), full) for name, role, token, full in rows))


class Lobby(Closing):
    """`chess-club lobby` over a players' file, before a server at a port, at a port of its own that it keeps. It may be
    killed and begun again, also before another server."""

    def __init__(self, club, server_port, *words, errors=subprocess.DEVNULL, port=0, program=None):
        self.club, self.server_port, self.words, self.errors, self.port = club, server_port, words, errors, port
        self.program = program or path_of('chess_club')
        self.start()

    def start(self):
        words = [self.program, 'lobby', '--players', self.club, '--server', '127.0.0.1:%d' % self.server_port,
                 '--port', str(self.port), *(() if '--page' in self.words else ('--page', PAGE)), *self.words]
        for _ in range(50 if self.port > 80 else 1):
            self.process = subprocess.Popen(words, stdout=subprocess.PIPE, stderr=self.errors, text=True)
            self.address = self.process.stdout.readline().strip()
            if self.address:
                break
            self.process.wait()
            time.sleep(0.1)
        else:
            raise Wrong('the lobby does not begin')
        self.port = int(self.address.rstrip('/').rsplit(':', 1)[1]) if self.address.count(':') > 1 else self.port

    def before(self, server_port):
        """Starts before another server."""
        self.server_port = server_port
        self.start()

    def kill(self):
        end(self.process)

    close = kill


class Relay:
    """Passes lines on between the lobby and the server, as long as it is not told otherwise:

    lose     the next act reaches the server, and the connection breaks before its answer
    drop     the connection breaks before the next act reaches the server
    behind   the next act is answered, and the connection breaks before it is answered how the game stands then"""

    def __init__(self, server):
        self.server, self.fault, self.delay = server, None, 0
        # (the lobby also asks the server for its games, by connections of its own)
        self.pairs = []
        self.door = Door(self.taken)

    @property
    def port(self):
        return self.door.port

    def taken(self, lobby):
        try:
            server = connect(self.server.port)
        except OSError:
            return lobby.close()
        self.pairs.append((lobby, server))
        late = queue.Queue()
        for target, given in ((self.lines_on, (lobby, server)), (self.answers_on, (server, late)),
                              (self.late_on, (late, lobby, server))):
            threading.Thread(target=target, args=given, daemon=True).start()
        return None

    def cut(self, pair):
        cut(*pair)
        if pair in self.pairs:
            self.pairs.remove(pair)

    def hang_up(self):
        """Nobody is there any more."""
        self.door.close()
        for pair in list(self.pairs):
            self.cut(pair)

    def lines_on(self, lobby, server):
        with contextlib.suppress(OSError):
            for line in lobby.makefile('rb'):
                fault = self.fault if line.startswith(ACTS) else None
                if fault == 'behind':
                    self.fault = 'show'
                elif self.fault == 'show' and line.startswith(b'show '):
                    self.fault = None
                    # (the lines of an act come in one piece, and its answer is to be on the way)
                    time.sleep(0.3)
                    return self.hang_up()
                if fault == 'drop':
                    self.fault = None
                    return self.hang_up()
                if fault == 'lose':
                    self.fault = None
                    self.muted = True
                    server.sendall(line)
                    time.sleep(0.3)
                    return self.hang_up()
                server.sendall(line)
        return self.cut((lobby, server))

    def answers_on(self, server, late):
        self.muted = False
        with contextlib.suppress(OSError):
            while some := server.recv(65536):
                if not self.muted:
                    late.put((time.monotonic() + self.delay, some))
        late.put((0, b''))

    def late_on(self, late, lobby, server):
        with contextlib.suppress(OSError):
            while True:
                moment, some = late.get()
                time.sleep(max(0, moment - time.monotonic()))
                if not some:
                    return self.cut((lobby, server))
                lobby.sendall(some)


class Programs(Lobby):
    """Server and lobby, and a relay between the two where `has_relay`, over the players of these rows, or over the
    `club.players` that is in the folder. The lobby keeps a log, without which nobody is an arbiter, where `has_log`.
    Where `has_live`, `chess-club live` writes the files of the games beside them, which the lobby serves to who
    watches. Words of `control` bring about what goes wrong, those of Relay and these:

    gone     the server is killed
    here     it is started again, over its journal
    slow MS  each answer of the server comes MS milliseconds late
    silent   the lobby stands still, and its connections stay open
    beside WHITE BLACK   a game is opened and joined on the server, past the lobby
    off G    a game that is over is taken off the table there, as by who keeps games"""

    def __init__(self, folder, rows=None, *words, has_relay=False, has_log=True, has_live=False, games=1024, plies=600,
                 **how):
        self.folder, club = folder, os.path.join(folder, 'club.players')
        if rows:
            put_players(club, rows)
        self.log = words[words.index('--log') + 1] if '--log' in words else os.path.join(folder, 'lobby.log')
        if has_log and '--log' not in words:
            words += ('--log', self.log)
        stops = ('--clock', 'serving') if '--stopped' in words else ()
        self.server = Server(os.path.join(folder, 'club.journal'), *stops, games=games, plies=plies)
        self.relay = Relay(self.server) if has_relay else None
        watched = os.path.join(folder, 'games')
        words += ('--games-files', watched) if has_live else ()
        super().__init__(club, (self.relay or self.server).port, *words, **how)
        self.live = begin('chess_club', 'live', '--server', '127.0.0.1:%d' % self.server.port, '--file',
                          os.path.join(folder, 'evening.pgn'), '--games', watched, '--players', club, '--log', self.log,
                          '--every', '1') if has_live else None

    def control(self, word):
        word, *words = word.split()
        if word == 'gone':
            self.relay.hang_up()
            self.server.kill()
        elif word == 'here':
            if self.server.process.poll() is not None:
                self.server.start()
            if not self.relay.door.is_open:
                self.relay.door.open(self.relay.port)
        elif word in ('lose', 'drop', 'behind'):
            self.relay.fault = word
        elif word == 'silent':
            self.process.send_signal(signal.SIGSTOP)
        elif word == 'slow':
            self.relay.delay = int(words[0]) / 1000
        elif word == 'beside':
            with self.server.session() as past:
                past.game(*words, 'open white 300 2')
        elif word == 'off':
            with self.server.session() as past:
                past.by(past.say('show ' + words[0]).split()[3], 'drop ' + words[0])

    def end_games(self):
        """Past the lobby the games that go on are resigned, and those that wait and all but the last twelve that are
        over are taken off."""
        with self.server.session() as past:
            rows = past.rows()
            for number, white, black, _, result in rows:
                if result == '*':
                    past.by(black if white == '-' else white, ('drop ' if '-' in (white, black) else 'resign ')
                            + number)
            for number, white, _, _, _ in [row for row in rows if row[4] != '*'][:-12]:
                past.by(white, 'drop ' + number)

    def crowd(self, count):
        """Running games of two moves, eight of them of ann and bob; the first one's number."""
        with self.server.session() as past:
            numbers = []
            for place in range(count):
                pair = ('ann', 'bob') if place < 8 else ('cid', 'dee')
                numbers.append(past.game(*pair, 'open white 5400 30'))
                past.moves(numbers[-1], ['e4', 'e5'], pair)
        return numbers[0]

    def stop(self):
        self.kill()
        if self.live:
            end(self.live)
        if self.relay:
            self.relay.hang_up()
        self.server.kill()

    close = stop


# ------------------------------------------------------------------- ways that kill at a line

class Tap:
    """A way to the server that kills a process, `run`, at a line, the one of this number or the first with this front:
    before it goes out, before its answer comes, right after, or behind a call once it has gone out (untaken)."""

    def __init__(self, port, line, when, call=None):
        self.to, self.line, self.when, self.call = port, line, when, call
        self.seen, self.run, self.has_killed = 0, None, False
        self.door = Door(self.taken)
        self.port = self.door.port

    def close(self):
        self.door.close()

    def kill(self):
        self.has_killed = True
        # (a line may come before it is said who is killed)
        while self.run is None:
            time.sleep(0.001)
        self.run.kill()
        self.run.wait()

    def is_at(self, text):
        """Whether it is this line, which counts."""
        self.seen += 1
        return self.seen == self.line or isinstance(self.line, bytes) and text.startswith(self.line)

    def sent(self, far, text, is_here):
        """Whether a line has gone out, and nobody was killed for it."""
        if is_here and self.when == 'before':
            self.kill()
            return False
        if is_here and self.when == 'untaken':
            self.call()
        far.sendall(text)
        if is_here and self.when == 'untaken':
            time.sleep(0.5)
            self.kill()
            return False
        return True

    def told(self, near, text, is_here):
        """Whether an answer has come, and nobody was killed for it."""
        if is_here and self.when == 'unheard':
            self.kill()
            return False
        # (whoever hears it may end before it is killed)
        self.has_killed = self.has_killed or is_here and self.when == 'heard'
        near.sendall(text)
        if is_here and self.when == 'heard':
            self.kill()
            return False
        return True

    def taken(self, near):
        with contextlib.suppress(OSError), near, connect(self.to) as far:
            try:
                self.pass_on(near.makefile('rb'), near, far, far.makefile('rb'))
            finally:
                # (a thread may read from either)
                cut(near, far)

    def pass_on(self, lines, near, far, answers):
        for line in lines:
            is_here = self.is_at(line)
            if not self.sent(far, line, is_here):
                return
            answer = answers.readline()
            words = answer.split()
            behind = int(words[-1]) if words[:2] in ([b'ok', b'list'], [b'ok', b'pgn']) else 0
            if not self.told(near, answer + b''.join(answers.readline() for _ in range(behind)), is_here):
                return


class LobbyTap(Tap):
    """The same as Tap on the way to a lobby: what counts are messages over its WebSocket."""

    is_here = False

    def pass_on(self, lines, near, far, answers):
        def head(file):
            rows = []
            while rows[-1:] != [b'\r\n']:
                rows.append(file.readline())
                # (who is killed, or turned away, ends here)
                if not rows[-1]:
                    raise OSError
            return b''.join(rows)

        # (a lobby takes its own address alone)
        own, its = (b'127.0.0.1:%d' % port for port in (self.port, self.to))
        far.sendall(head(lines).replace(own, its))
        near.sendall(head(answers))
        threading.Thread(target=self.answers_on, args=(near, answers), daemon=True).start()
        for kind, payload, whole in frames(lines):
            if kind == TEXT:
                self.is_here = self.is_at(payload)
            if not self.sent(far, whole, kind == TEXT and self.is_here):
                return

    def answers_on(self, near, answers):
        with contextlib.suppress(OSError, ValueError):
            for kind, payload, whole in frames(answers):
                if not self.told(near, whole, self.is_here and kind == TEXT
                                 and payload.startswith((b'ok ', b'no ', b'lost'))):
                    break
            cut(near)


def frames(file):
    """The frames of a WebSocket: of each its kind, its payload without the mask, and its bytes as they came."""
    come = bytearray()
    while some := file.read1(65536):
        come += some
        while (before := bytes(come)) and (taken := taken_frame(come)):
            yield *taken, before[:len(before) - len(come)]
