"""A game's server and its journal: words on a journal, `run` line by line, `serve`, and sessions with it."""

import subprocess
import time

from lib.net import connect, to_end
from lib.program import PATIENCE, Closing, begin, end, fault_of, memory, run, used, wrong_if

# Moves of a long game: between those of pawns no position comes a fifth time.
QUIET = [text for file in 'abcdeh' for low, high in ('36', '45')
         for text in (file + low, file + high, *('Nf3', 'Nf6', 'Ng1', 'Ng8') * 3)]
# `serve` goes on so many turns, which is for ever.
FOR_EVER = ('--turns', '4294967295')


# ------------------------------------------------------------------- words on a journal

def call(*words, given='', **how):
    """The status of a word, what it wrote, and its fault."""
    done = run('chess_server', *words, input=given, **how)
    return done.returncode, done.stdout, fault_of(done.stderr)


def reads_of(numbers):
    """Lines that ask for all that a table tells of these games."""
    return ['list'] + ['%s %d' % (word, number) for number in numbers for word in ('show', 'fen', 'pgn')]


def play(journal, *lines, **how):
    return call('run', '--journal', journal, given=''.join(line + '\n' for line in lines), **how)


def limits_of(games, plies):
    return ['--games', str(games), '--plies', str(plies)]


def make(journal, games, plies=60):
    """A new journal."""
    done = run('chess_server', 'format', '--journal', journal, *limits_of(games, plies))
    wrong_if(done.returncode, 'no journal can be made at %s: %s' % (journal, done.stderr))
    return journal


def game_lines(number, texts, white='ann', black='bob', times='86400 60'):
    """The lines of a game that is opened, joined and played: its number has to be this."""
    lines = ['name ' + white, 'open white ' + times, 'name ' + black, 'join %d' % number]
    for ply, text in enumerate(texts):
        lines += ['name ' + (white, black)[ply % 2], 'move %d %d %s' % (number, ply, text)]
    return lines


def fill(journal, games, plies, lines):
    """A new journal in which these lines are said, of which none may be refused; what was answered."""
    make(journal, games, plies)
    status, said, _ = call('run', '--journal', journal, given='\n'.join(lines) + '\n')
    wrong_if(status or '\nno ' in '\n' + said, 'the table was not filled: %r' % said[-200:])
    return said


class Running:
    """`run` on a journal, which is sent line after line."""

    def __init__(self, journal, **how):
        self.program = begin('chess_server', 'run', '--journal', journal, stdin=subprocess.PIPE, stderr=subprocess.PIPE,
                             **how)

    def ask(self, line):
        """The first line of the answer; empty where it has ended."""
        try:
            self.program.stdin.write(line + '\n')
            self.program.stdin.flush()
        except BrokenPipeError:
            return ''
        return self.program.stdout.readline().rstrip('\n')

    def end(self):
        """Its status and its fault, once nothing more comes."""
        status, told = self.told()
        return status, fault_of(told)

    def told(self):
        """Its status and all that it told, once nothing more comes."""
        told = self.program.communicate(timeout=PATIENCE)[1]
        return self.program.returncode, told


# ------------------------------------------------------------------- sessions

class Session(Closing):
    """A client of a server, by blocking calls."""

    def __init__(self, to, timeout=None, name=None):
        self.connect(to, timeout)
        wrong_if(name and self.say('name ' + name) != 'ok name ' + name, 'no session of %s' % name)

    def connect(self, to, timeout=None):
        self.socket, self.rest = connect(to, timeout), bytearray()

    def close(self):
        self.socket.close()

    def send(self, *lines):
        self.socket.sendall(''.join(line + '\n' for line in lines).encode())

    def line(self):
        """The next line; empty where the connection has ended."""
        while (at := self.rest.find(b'\n')) < 0:
            more = self.socket.recv(65536)
            if not more:
                return ''
            self.rest += more
        line = self.rest[:at].decode()
        del self.rest[:at + 1]
        return line

    def answer(self):
        """The next answer, as its lines."""
        lines = [self.line()]
        words = lines[0].split()
        behind = int(words[-1]) if words[:2] in (['ok', 'list'], ['ok', 'pgn']) else 0
        return lines + [self.line() for _ in range(behind)]

    def ask(self, line):
        """The lines of the answer."""
        self.send(line)
        return self.answer()

    def say(self, line):
        """The first line of the answer."""
        return self.ask(line)[0]

    def by(self, name, line):
        self.say('name ' + name)
        return self.say(line)

    def open(self, name, line='open white 300 2'):
        """The number of a game that somebody opens."""
        return int(self.by(name, line).split()[2])

    def game(self, white, black, line='open white 300 0'):
        """The number of a game of two players."""
        number = self.open(white, line)
        self.by(black, 'join %d' % number)
        return number

    def moves(self, number, texts, names, start=0):
        """Moves of two players, the one whose turn it is first."""
        for ply, text in enumerate(texts):
            answer = self.by(names[ply % 2], 'move %d %d %s' % (number, start + ply, text))
            wrong_if(not answer.startswith('ok move'), 'a move of game %d: %s' % (number, answer))

    def fen(self, number):
        return self.say('fen %d' % number).split(' ', 3)[3]

    def rows(self):
        """The games of the table."""
        return [line.split() for line in self.ask('list')[1:]]

    def numbers(self):
        return {int(row[0]) for row in self.rows()}

    def times(self, number):
        tag = next(line for line in self.ask('pgn %d' % number) if line.startswith('[TimeControl '))
        return tag.split('"')[1]

    def to_end(self):
        """All that comes until the connection ends, or nothing comes for its timeout."""
        return bytes(self.rest) + to_end(self.socket)[0]


# ------------------------------------------------------------------- a server

class Server(Closing):
    """`serve` over a journal, which is made where `games` are told. It is reached by a port of its own that it keeps,
    or by the socket that its words name; `said` is its first line. It may be killed and begun again. `line` is a
    session of the bench's own with it."""

    def __init__(self, journal, *words, games=0, plies=60, **how):
        self.journal, self.words, self.how = journal, words, how
        self.port, self.path, self.own = 0, None, None
        if games:
            make(journal, games, plies)
        self.start()

    def start(self):
        door = () if '--socket' in self.words else ('--port', str(self.port))
        for _ in range(50 if self.port else 1):
            self.process = begin('chess_server', 'serve', '--journal', self.journal, *door, *self.words, **self.how)
            self.said = self.process.stdout.readline()
            if self.said:
                break
            # (the port of one that was killed may be taken still)
            self.process.wait()
            time.sleep(0.1)
        kind, *told = self.said.split() or ['']
        self.port = int(told[0]) if kind == 'port' else None
        self.path = told[0] if kind == 'socket' else None
        return self

    @property
    def to(self):
        return self.path or self.port

    def kill(self):
        if self.own:
            self.own.close()
            self.own = None
        end(self.process)

    close = kill

    def session(self, timeout=None, name=None):
        wrong_if(self.to is None, 'serve does not start')
        return Session(self.to, timeout, name)

    @property
    def line(self):
        self.own = self.own or self.session()
        return self.own

    def used(self):
        return used(self.process.pid)

    def memory(self, what='VmRSS'):
        return memory(self.process.pid, what)
