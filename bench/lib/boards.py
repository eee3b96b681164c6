"""Who goes on while servers come and go: players at boards over a lobby's WebSocket, and witnesses at a server's own
socket. Each act that was answered is to be there from then on."""

import contextlib
import threading
import time

from lib.program import Wrong
from lib.server import Session
from lib.web import Person

TEXTS = 'e4 e5 Nf3 Nc6 Bb5 a6 Ba4 Nf6 O-O Be7'.split()
PATIENCE = 240                  # seconds, within which a lobby has to come back


class Thread:
    """What goes on in a thread of its own until it is over; `opened` has of each game that it opened the moments at
    which that was sent and answered, and the game."""

    def __init__(self):
        self.opened, self.is_over = [], False
        self.thread = threading.Thread(target=self.go, daemon=True)
        self.thread.start()

    def end(self):
        self.is_over = True
        self.thread.join(PATIENCE)

    def note(self, sent, answer):
        if answer[:2] == ['ok', 'open']:
            self.opened.append((sent, time.time(), int(answer[2])))
        return answer


class Witness(Thread):
    """Says acts to the server that listens at a path, as long as one does and it is not to be quiet: opens a game and
    drops it. `path_of` answers the path."""

    def __init__(self, name, path_of):
        self.name, self.path_of, self.dropped, self.is_quiet = name, path_of, set(), False
        super().__init__()

    def go(self):
        while not self.is_over:
            # (what ends a session, or keeps one from being begun, is nothing that is looked at here)
            with contextlib.suppress(OSError, ValueError, IndexError, TypeError, Wrong):
                with Session(self.path_of(), 8, self.name) as line:
                    for row in line.rows():
                        if row[1] == self.name:
                            line.say('drop ' + row[0])
                    while not self.is_over:
                        if not self.is_quiet:
                            self.act(line)
                        time.sleep(0.1)
            time.sleep(0.2)

    def act(self, line):
        game = self.note(time.time(), line.say('open white 300 0').split())[2]
        if line.say('drop ' + game) == 'ok drop ' + game:
            self.dropped.add(int(game))


class Player(Person):
    patience, timeout = PATIENCE, 3


class Board(Thread):
    """Two players, w and b of a place, who play game after game at a lobby that `port_of` answers; each look at a game
    is compared with what was answered. `ends` has how games ended; the moment of each act that was taken goes into
    `answered`, and what is not as it should be into `wrong`."""

    times, rest = '3600 0', 0.1     # of their games; seconds after an act

    def __init__(self, port_of, place, dice, answered, wrong):
        self.dice, self.answered, self.wrong, self.ends = dice, answered, wrong, {}
        self.seats = [Player(port_of, '%s%d' % (colour, place)) for colour in 'wb']
        super().__init__()

    def go(self):
        try:
            for seat in self.seats:
                seat.connect()
            while not self.is_over:
                self.play(self.waiting(), self.dice.randrange(2, len(TEXTS) + 1))
        except BaseException as why:  # noqa: B902
            self.wrong.append('%s: %r' % (self.seats[0].name, why))

    def act(self, seat, line):
        """Whether an act was taken and answered."""
        sent, answer = time.time(), seat.act(line)
        is_taken = bool(answer) and answer[0] == 'ok'
        if is_taken:
            self.answered.append(time.time())
            self.note(sent, answer)
        time.sleep(self.rest)
        return is_taken

    def waiting(self):
        """A game that waits for its second player."""
        white = self.seats[0]
        while True:
            for row in white.rows():
                if row[1] == white.name and row[2] == '-':
                    return int(row[0])
            self.act(white, 'open white ' + self.times)

    def move(self, game, ply):
        """Whether a move is taken."""
        return self.act(self.seats[ply % 2], 'move %d %d %s' % (game, ply, TEXTS[ply]))

    def play(self, game, length):
        """They move, and who is to move then resigns."""
        made, is_joined, is_ended = 0, False, False
        while not is_ended:
            words = self.seats[0].read('show %d' % game).split()
            # (keep may have taken it off the table, where the answer to its end was lost)
            if words[0] == 'no' and made == length:
                break
            if words[0] == 'no' or int(words[5]) < made or is_joined and words[4] == '-':
                raise Wrong('game %d is %s, and %d moves were answered' % (game, words, made))
            ply = made = int(words[5])
            if words[10] != '*':
                break
            if words[4] == '-':
                is_joined = self.act(self.seats[1], 'join %d' % game)
            elif ply < length:
                made += self.move(game, ply)
            else:
                is_ended = self.act(self.seats[ply % 2], 'resign %d' % game)
        self.ends[game] = (TEXTS[:length], ('0-1', '1-0')[length % 2])
