"""Random, mutated and valid lines for one table, session by session, and the plain model's answers to them.

Most lines cost the model little: they have no form, or are refused. A few go on with games as fuzz.py does. All lines
of a session have one moment, since the program's clock stands still in a run (program.py). """

from collections import Counter

from lib.model.fuzz import BAD_LINES, BAD_STARTS, PLAYERS, STARTS, Fuzz, pick
from lib.model.rules import INITIAL_FEN, LAST_MOMENT, texts

WORDS = ['name', 'open', 'join', 'move', 'offer', 'accept', 'decline', 'resign', 'claim', 'flag', 'drop', 'show', 'fen',
         'pgn', 'list', 'help', 'quit', 'bye', 'ok', 'no', 'serve', 'format']
NUMBERS = ['', '00', '01', '007', '-0', '-1', '+1', '+0', '1.0', '1,0', '1e3', '0x1', '1_0', '1 ', ' 1', '1\t', '\x001',
           '1\0', '\xb9', '\xb2', '256', '65536', '4294967295', '4294967296', '4294967297', '8589934593', '9' * 10,
           '9' * 20, '18446744073709551615', '18446744073709551616', '18446744073709551617', '1' * 100, '0' * 100,
           '99999999999999999999999999999999999999999', 'NaN', 'one', '\x7f', '--1', '1-', '4294967295 ', '42949672950']
TIMES = ['300', '1', '86400', '0', '86401', '1/60:30', '255/86400:86400', '256/60:30', '0/60:30', '1/0:30', '1/60:0',
         '1/86401:30', '1/60:86401', '1//60:30', '1/60::30', '1/60:30:', '/', ':', '/:', '1/60', '60:30', '1:60/30',
         '01/60:30', '1/060:30', '1/60:030', '+1/60:30', '1/-60:30', '1/60:3 0', '4294967296/60:30',
         '1/4294967296:30', '1/60:4294967296', '4294967295/4294967295:4294967295']
COLOURS = ['white', 'black', 'White', 'BLACK', 'w', 'b', 'white ', 'whit', 'blackk', '', 'grey', 'black\0', 'white\xa0']
NAMES = ['ann', 'bob', 'a' * 16, 'a' * 17, '_', '0', 'Z9_z', 'a-b', 'a b', '', '\xe9', 'ann\0', 'ann\r', '"', '\\', '-']
MARKS = ' \t\r\0\x01\x0b\x1b\x1f!"/0129:@AZ[`az{~\x7f\x80\x9f\xa0\xb2\xc3\xe9\xff'
BREAKS = [' ', ' ', ' ', ' ', ' ', '  ', '\t', '', '\r', '\x0b', '\xa0', '\0', ',']
ENDS = ['', '', '', '', ' ', '\r', '\r\r', ' \r', '\t', '\0', '\x0c', '\x1a', ';', '\xff']
LOW = bytes(b % 32 for b in range(256)).replace(b'\n', b'\r')
PRINTABLE = bytes(33 + b % 94 for b in range(256))
HIGH = bytes(128 + b % 128 for b in range(256))
NO_FEED = bytes(11 if b == 10 else b for b in range(256))


def key_of(answer):
    """By what an answer is counted."""
    fields = answer[0].split(' ')
    if fields[0] == 'no':
        return ' '.join(fields[:3])
    if 'wrong' in fields[:4]:
        return 'ok claim wrong'
    if fields[0] == 'fallen' or fields[-1].count('.') and fields[1] in ('move', 'accept', 'resign', 'claim'):
        return ' '.join([fields[0] if fields[0] == 'fallen' else 'ok ' + fields[1]] + fields[-2:])
    return ' '.join(fields[:2])


class Lines(Fuzz):
    """A table's lines: begin_session, then fill; `said` has (name before it, line) and `wanted` the answers."""

    def __init__(self, seed, games, plies):
        super().__init__(seed, 10 ** 18, games, plies, True)
        self.counts = Counter()
        self.near = None                # the game of which moves are spelt wrongly just now, and how often still
        self.ambiguous = None           # so many entries there are whose greatest moment is not known for sure
        self.good = self.now            # the last moment that was none too great
        self.begin_session()

    def begin_session(self, busy=False):
        """Another run; a busy one has more of the lines that go on with games."""
        self.name, self.said, self.wanted = None, [], []
        self.kinds = KINDS + [('game', 12)] if busy else KINDS

    def fill(self, count):
        while len(self.said) < count:
            self.step()

    # ---- what Fuzz asks for

    def moment(self, f=None, read=False):
        return self.now

    def send(self, at, who, line):
        if who is not None and who != self.name:
            self.say('name ' + who)
        return self.say(line)

    def say(self, line):
        answer = self.t.command(self.now, self.name, line)
        self.said.append((self.name, line))
        self.wanted.append('\n'.join(answer) + '\n')
        if answer[0].startswith('ok name '):
            self.name = answer[0][8:]
        self.counts[key_of(answer)] += 1
        if answer[0][0] == 'o' or self.r.random() < 0.02:
            self.inputs.append('0 - %s\n' % line)
            if len(self.inputs) > 800:
                del self.inputs[:400]
        return answer

    # ---- moments

    def pass_time(self):
        """Another moment, for the next session."""
        r = self.r
        if self.now > LAST_MOMENT:
            self.now = self.good
        self.good = self.now
        least = self.now if self.ambiguous == self.t.entries else 0
        x = r.random()
        falls = self.flag_falls() if x < 0.2 else None
        if falls is not None:
            self.now = max(self.t.greatest, min(LAST_MOMENT, falls + r.choice([-1, -1, 0, 1])))
        elif x < 0.24:
            self.now = max(0, self.now - r.choice([1, 10, 5000, 10 ** 6, 10 ** 13]))
        elif x < 0.25:
            self.now = r.choice([LAST_MOMENT + 1, 2 ** 62 + 1, 2 ** 63 - 1])
        elif x < 0.252:
            self.now = LAST_MOMENT
        elif x < 0.26:
            self.now = min(LAST_MOMENT, self.now + r.choice([10 ** 8, 10 ** 10, 10 ** 14]))
        else:
            self.now = min(LAST_MOMENT, self.now + r.choice([0, 0, 1, 3, 20, 200, 700, 5000]))
        self.now = max(least, self.now)

    def flag_falls(self):
        """The moment at which the flag of some running game falls, where that is near."""
        standing = [game.fields() for game in self.t.games.values()]
        running = [f for f in standing if f.joined is not None and f.ending is None]
        if not running:
            return None
        f = self.r.choice(running)
        falls = f.since + f.held[f.side]
        return falls if falls - self.t.greatest < 10 ** 7 else None

    # ---- one line

    def step(self):
        kind = pick(self.r, self.kinds)
        if kind == 'game':
            super().step()
        elif kind == 'move':
            self.near_moves()
        elif kind == 'turn':
            self.turn()
        else:
            self.say(getattr(self, kind)())

    def noise(self):
        """Bytes of no meaning."""
        r = self.r
        alphabet = r.choice([NO_FEED, NO_FEED, LOW, PRINTABLE, HIGH])
        return r.randbytes(r.choice([0, 1, 2, 5, 12, 40, 254, 255])).translate(alphabet).decode('latin-1')

    def known(self):
        return self.r.choice(BAD_LINES)

    def built(self):
        """A word and fields, well or badly chosen, with something between and behind."""
        r = self.r
        word = r.choice(WORDS)
        if r.random() < 0.08:
            word = r.choice([word.upper(), word.title(), word[:-1], word + word[-1], word[1:], ' ' + word])
        if word == 'name':
            fields = [r.choice(NAMES)]
        elif word == 'open':
            fields = [r.choice(COLOURS[:2] + COLOURS), r.choice(TIMES), self.number()]
            fields += r.choice([[], [], [], [self.start()]])
        elif word in ('move', 'claim'):
            fields = [self.number(), self.number()] + r.choice([[], ['e4'], ['three'], ['fifty', 'e4'], ['Three']])
        else:
            fields = [] if word == 'list' else [self.number()]
        if r.random() < 0.05:
            fields.insert(r.randint(0, len(fields)), self.number())
        if r.random() < 0.8:
            return (' '.join([word] + fields) + r.choice(ENDS))[:255]
        return (''.join(field + r.choice(BREAKS) for field in [word] + fields) + r.choice(ENDS))[:255]

    def number(self):
        r = self.r
        if r.random() < 0.3:
            return r.choice(NUMBERS)
        return str(r.choice([0, 1, 2, 3, self.t.last, self.t.last, self.t.last + 1, r.randint(0, self.t.last + 1)]))

    def start(self):
        r = self.r
        if r.random() < 0.3:
            return r.choice(BAD_STARTS)
        fen = r.choice(STARTS).format(h=r.choice([0, 99, 149]))
        return fen if r.random() < 0.1 else self.mutate(fen)

    def opening(self):
        """An opening from a position that is mostly near to a valid one."""
        fen = self.start()
        return ('open white 3600 0 ' + (self.bitten(fen) if self.r.random() < 0.3 else fen))[:255]

    def bitten(self, line):
        """A line with a few of its bytes changed."""
        r = self.r
        for _ in range(r.choice([1, 1, 1, 2, 4])):
            k = r.randint(0, len(line))
            x = r.random()
            byte = r.choice(MARKS)
            if x < 0.35:
                line = line[:k] + byte + line[k + 1:]
            elif x < 0.55:
                line = line[:k] + byte + line[k:]
            elif x < 0.7:
                line = line[:k] + line[k + 1:]
            elif x < 0.8 and k < len(line):
                changed = ord(line[k]) ^ 1 << r.randrange(8)
                line = line[:k] + (chr(changed) if changed != 10 else '') + line[k + 1:]
            elif x < 0.9:
                line = line[:k] + line[k:].encode('latin-1').swapcase().decode('latin-1')
            else:
                line = line[:k] + line[max(0, k - r.randint(1, 9)):]
        return line[:255]

    def mutated(self):
        line = self.r.choice(self.inputs).split(' ', 2)[2][:-1] if self.inputs else 'list'
        return self.bitten(line)

    def valid(self):
        """A line that had an answer before, once more."""
        return self.r.choice(self.inputs).split(' ', 2)[2][:-1] if self.inputs else 'list'

    def long(self):
        """A line of 250 to 255 bytes."""
        r = self.r
        line = r.choice(['move %s 0 ' % self.number(), 'claim %s 0 three ' % self.number(), 'claim 1 0 fifty ', 'name ',
                         'list', 'show ', 'show 1 ', 'open white 300 0 ', 'open black 1/60:30 0 ' + INITIAL_FEN, ''])
        fill = r.choice(['x', 'e4', '0', '1', ' ', '\r', '\0', '\xff', 'K', '/'])
        line = (line + fill * 255)[:r.choice([250, 253, 254, 254, 255, 255])]
        return line[:-1] + '\r' if r.random() < 0.2 else line

    def running(self):
        """A game that goes on, and what stands in it."""
        if self.near is None or self.near not in self.t.games or self.r.random() < 0.02:
            self.near = self.r.choice(sorted(self.t.games)) if self.t.games else None
        if self.near is None:
            return None
        f = self.t.games[self.near].fields()
        return f if f.joined is not None and f.ending is None else None

    def near_moves(self):
        """Texts near to those of legal moves, by the player who is on move."""
        f, r = self.running(), self.r
        if f is None:
            self.near = None
            self.say(self.built())
            return
        number, named = self.near, list(texts(f.present))
        for _ in range(r.choice([1, 5, 20])):
            text = self.mutate(r.choice(named)) if r.random() < 0.7 else self.bitten(r.choice(named))
            if text in named and r.random() < 0.7:
                text += r.choice('+#!=QKx?')
            claim = 'claim %d %d %s ' % (number, f.ply, r.choice(['three', 'fifty']))
            line = 'move %d %d ' % (number, f.ply) if r.random() < 0.8 else claim
            answer = self.send(self.now, f.seats[f.side], (line + text)[:255])
            if answer[0][0] != 'n':
                break

    def turn(self):
        """Any act of a game by anybody."""
        r = self.r
        word = r.choice(['offer', 'accept', 'decline', 'resign', 'flag', 'drop', 'join', 'show', 'fen'])
        if word in ('resign', 'accept') and r.random() < 0.8:
            word = 'offer'
        number = r.choice(sorted(self.t.games)) if self.t.games and r.random() < 0.8 else self.number()
        self.send(self.now, r.choice(PLAYERS), '%s %s' % (word, number))


KINDS = [('noise', 12), ('known', 8), ('built', 26), ('mutated', 22), ('valid', 2), ('long', 5), ('opening', 5),
         ('move', 4), ('turn', 4), ('game', 3)]
