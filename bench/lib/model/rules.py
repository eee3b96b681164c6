"""A plain and slow model of the chess game server's table of games.

Written from the rules in words alone, by somebody who had not seen the code or its definitions;
`bench/correct/differential` compares the two. Positions are maps from squares (file, rank) to (colour, kind); a game is
the list of its entries, and every field of it is read off that whole list.

    t = Table(games_limit, plies_limit)
    t.command(at, who, line) -> list of answer lines

`at` is an int, `who` a name or None, `line` a str of the bytes before the line feed (latin-1: one character a byte)."""

import functools
import re

# --------------------------------------------------------------------- squares

WHITE, BLACK = 'w', 'b'
FILES = 'abcdefgh'
SQUARES = [(f, r) for r in range(1, 9) for f in range(1, 9)]


def other(colour):
    return BLACK if colour == WHITE else WHITE


def square_name(sq):
    return FILES[sq[0] - 1] + str(sq[1])


def square_of(text):
    """The square that a text names, or None."""
    if len(text) == 2 and text[0] in FILES and text[1] in '12345678':
        return (FILES.index(text[0]) + 1, int(text[1]))
    return None


def up(colour):
    """The direction in which the pawns of a colour go."""
    return 1 if colour == WHITE else -1


# --------------------------------------------------------------------- attacks

def sign(n):
    return (n > 0) - (n < 0)


def way(man, a, b):
    """The squares that must be empty for a man on a to attack b, or None where it never does."""
    colour, kind = man
    df, dr = b[0] - a[0], b[1] - a[1]
    if kind == 'P':
        return () if abs(df) == 1 and dr == up(colour) else None
    if kind == 'N':
        return () if (abs(df), abs(dr)) in ((1, 2), (2, 1)) else None
    if kind == 'K':
        return () if max(abs(df), abs(dr)) == 1 else None
    straight = (df == 0) != (dr == 0)
    diagonal = df != 0 and abs(df) == abs(dr)
    if not (straight and kind in 'RQ' or diagonal and kind in 'BQ'):
        return None
    sf, sr = sign(df), sign(dr)
    return tuple((a[0] + i * sf, a[1] + i * sr) for i in range(1, max(abs(df), abs(dr))))


# kept for speed: man -> a -> b -> way(man, a, b), where that isn't None
WAYS = {(colour, kind): {a: {b: way((colour, kind), a, b) for b in SQUARES
                             if way((colour, kind), a, b) is not None}
                         for a in SQUARES}
        for colour in (WHITE, BLACK) for kind in 'KQRBNP'}


def attacks(men, a, b):
    """Whether the man on a attacks b."""
    between = WAYS[men[a]][a].get(b)
    return between is not None and men.keys().isdisjoint(between)


def attacked(men, sq, by):
    """Whether some man of colour `by` attacks sq."""
    return any(man[0] == by and sq in WAYS[man][a] and attacks(men, a, sq) for a, man in men.items())


def king_of(men, colour):
    return next((sq for sq, man in men.items() if man == (colour, 'K')), None)


# ------------------------------------------------------------------- positions

# right -> (king's home, rook's home, colour)
RIGHTS = {
    'K': ((5, 1), (8, 1), WHITE),
    'Q': ((5, 1), (1, 1), WHITE),
    'k': ((5, 8), (8, 8), BLACK),
    'q': ((5, 8), (1, 8), BLACK),
}


class Position:
    """A placement, the side to move, rights, a target or None, two counters."""

    def __init__(self, men, side, rights, target, half, full):
        self.men, self.side = men, side         # map: square -> (colour, kind)
        self.rights, self.target = rights, target       # frozenset of letters of KQkq
        self.half, self.full = half, full
        self.worked = None      # kept for speed alone

    def whole(self):
        """All six fields, to compare positions field by field."""
        return (frozenset(self.men.items()), self.side, self.rights, self.target, self.half, self.full)


WORKED = {}                     # placement, side, rights and target -> what was worked out of them
MOST_WORKED = 6000


def worked_out(work):
    """Of a position what this function says, kept for speed alone: it is the same whatever the counters."""
    def once(p):
        if p.worked is None:
            key = p.whole()[:4]
            if key not in WORKED and len(WORKED) >= MOST_WORKED:
                WORKED.clear()
            p.worked = WORKED.setdefault(key, {})
        if work not in p.worked:
            p.worked[work] = work(p)
        return p.worked[work]
    return once


def valid(p):
    men = p.men
    for colour in (WHITE, BLACK):
        mine = [man for man in men.values() if man[0] == colour]
        if mine.count((colour, 'K')) != 1 or len(mine) > 16:
            return False
    if any(kind == 'P' and sq[1] in (1, 8) for sq, (_, kind) in men.items()):
        return False
    if attacked(men, king_of(men, other(p.side)), p.side):
        return False
    for right in p.rights:
        king, rook, colour = RIGHTS[right]
        if men.get(king) != (colour, 'K') or men.get(rook) != (colour, 'R'):
            return False
    if p.target is not None:
        (f, r), d = p.target, up(p.side)
        if r != (6 if p.side == WHITE else 3) or men.get((f, r - d)) != (other(p.side), 'P'):
            return False
        if p.target in men or (f, r + d) in men:
            return False
    return 0 <= p.half <= 65535 and 1 <= p.full <= 65535


# ------------------------------------------------------------------ candidates
# A move is (from, to, promotion), promotion being None or one of Q R B N.

def pawn_reaches(p, a):
    """Where a pawn on a goes, and where it takes."""
    men, d, home = p.men, up(p.side), 2 if p.side == WHITE else 7
    one, two = (a[0], a[1] + d), (a[0], a[1] + 2 * d)
    reached = [] if one in men else [one] if a[1] != home or two in men else [one, two]
    beside = [(f, a[1] + d) for f in (a[0] - 1, a[0] + 1) if 1 <= f <= 8]
    return reached + [b for b in beside if b == p.target or b in men and men[b][0] != p.side]


def candidates(p):
    men, side = p.men, p.side
    found = []
    for a in SQUARES:
        man = men.get(a)
        if man is None or man[0] != side:
            continue
        if man[1] == 'P':
            for b in pawn_reaches(p, a):
                found += [(a, b, became) for became in ('QRBN' if b[1] == (8 if side == WHITE else 1) else (None,))]
        else:
            found += [(a, b, None) for b in WAYS[man][a] if attacks(men, a, b) and men.get(b, ' ')[0] != side]
    for right in 'KQkq':
        king, rook, colour = RIGHTS[right]
        if right not in p.rights or colour != side:
            continue
        d = sign(rook[0] - king[0])
        between = [(f, king[1]) for f in range(min(king[0], rook[0]) + 1, max(king[0], rook[0]))]
        path = [(king[0] + i * d, king[1]) for i in (0, 1, 2)]
        if not any(sq in men for sq in between) and not any(attacked(men, sq, other(side)) for sq in path):
            found.append((king, path[2], None))
    return found


def is_castling(p, m):
    return p.men[m[0]][1] == 'K' and abs(m[1][0] - m[0][0]) == 2


def is_en_passant(p, m):
    return (p.men[m[0]][1] == 'P' and m[0][0] != m[1][0] and m[1] not in p.men)


# ------------------------------------------------------------------------ next

def following(p, m):
    a, b, became = m
    men = dict(p.men)
    colour, kind = men[a]
    captured = b in men
    if is_en_passant(p, m):
        captured = True
        del men[(b[0], a[1])]
    castling = is_castling(p, m)
    del men[a]
    men[b] = (colour, became or kind)
    if castling:
        d = sign(b[0] - a[0])
        del men[(8 if d > 0 else 1, a[1])]
        men[(a[0] + d, a[1])] = (colour, 'R')
    rights = frozenset(right for right in p.rights if a not in RIGHTS[right][:2] and b not in RIGHTS[right][:2])
    target = None
    if kind == 'P' and abs(b[1] - a[1]) == 2:
        target = (a[0], (a[1] + b[1]) // 2)
    half = 0 if kind == 'P' or captured else p.half + 1
    full = p.full + 1 if p.side == BLACK else p.full
    return Position(men, other(p.side), rights, target, half, full)


# ----------------------------------------------------------------------- legal

def leaves_king(p, m):
    """Whether the king of who moves is attacked then."""
    men = following(p, m).men
    return attacked(men, king_of(men, p.side), other(p.side))


@worked_out
def legal_moves(p):
    return [m for m in candidates(p) if not leaves_king(p, m)]


def in_check(p):
    return attacked(p.men, king_of(p.men, p.side), other(p.side))


def perft(p, depth):
    if depth == 0:
        return 1
    return sum(perft(following(p, m), depth - 1) for m in legal_moves(p))


# -------------------------------------------------------------------- sameness

@worked_out
def same_key(p):
    """Equal exactly for same positions (9.2)."""
    passing = frozenset(m for m in legal_moves(p) if is_en_passant(p, m)) if p.target is not None else frozenset()
    return p.side, p.rights, frozenset(p.men.items()), passing


def times(p, line):
    key = same_key(p)
    return sum(1 for q in line if same_key(q) == key)


def quiet(line):
    return line[-1].half


# --------------------------------------------------------------------- endings

WIN = {WHITE: '1-0', BLACK: '0-1'}
DRAW = '1/2-1/2'


def listed_dead(p):
    rest = [(sq, kind) for sq, (_, kind) in p.men.items() if kind != 'K']
    if all(kind == 'B' for _, kind in rest):
        return len({(sq[0] + sq[1]) % 2 for sq, _ in rest}) <= 1
    return len(rest) == 1 and rest[0][1] == 'N'


def ending_of_line(line):
    """For the list of positions after a move: (result, article) or None."""
    p = line[-1]
    if not legal_moves(p):
        if in_check(p):
            return (WIN[other(p.side)], '5.1.1')
        return (DRAW, '5.2.1')
    if listed_dead(p):
        return (DRAW, '5.2.2')
    if times(p, line) >= 5:
        return (DRAW, '9.6.1')
    if quiet(line) >= 150:
        return (DRAW, '9.6.2')
    return None


def ending_of_flag(p):
    """The flag of the side to move has fallen."""
    winner = other(p.side)
    if [man for man in p.men.values() if man[0] == winner] == [(winner, 'K')]:
        return (DRAW, '6.9')
    return (WIN[winner], '6.9')


# ------------------------------------------------------------------------- SAN

def coordinate(m):
    return square_name(m[0]) + square_name(m[1]) + (m[2] or '').lower()


def bare_san(p, m):
    """The SAN without its suffix."""
    a, b, became = m
    kind = p.men[a][1]
    if is_castling(p, m):
        return 'O-O' if b[0] > a[0] else 'O-O-O'
    if kind == 'P':
        taking = FILES[a[0] - 1] + 'x' if a[0] != b[0] else ''
        return taking + square_name(b) + ('=' + became if became else '')
    rivals = [n[0] for n in legal_moves(p) if n[1] == b and n[0] != a and p.men[n[0]][1] == kind]
    apart = ''
    if rivals:
        if all(sq[0] != a[0] for sq in rivals):
            apart = FILES[a[0] - 1]
        elif all(sq[1] != a[1] for sq in rivals):
            apart = str(a[1])
        else:
            apart = square_name(a)
    return kind + apart + ('x' if b in p.men else '') + square_name(b)


def suffix(p, m):
    q = following(p, m)
    if not in_check(q):
        return ''
    return '+' if legal_moves(q) else '#'


def san(p, m):
    return bare_san(p, m) + suffix(p, m)


@worked_out
def texts(p):
    """Map: every text that names a legal move -> that move."""
    found = {}
    for m in legal_moves(p):
        for text in dict.fromkeys((san(p, m), bare_san(p, m), coordinate(m))):
            assert text not in found, (fen_write(p), text)
            found[text] = m
    return found


def reads(p, text):
    return texts(p).get(text)


# ------------------------------------------------------------------------- FEN

LETTER = {(WHITE, k): k for k in 'KQRBNP'}
LETTER.update({(BLACK, k): k.lower() for k in 'KQRBNP'})
MAN = {letter: man for man, letter in LETTER.items()}


def fen_write(p):
    ranks = [''.join(LETTER.get(p.men.get((f, r)), '1') for f in range(1, 9)) for r in range(8, 0, -1)]
    return ' '.join([
        re.sub('1+', lambda run: str(len(run[0])), '/'.join(ranks)), p.side,
        ''.join(c for c in 'KQkq' if c in p.rights) or '-', square_name(p.target) if p.target else '-',
        str(p.half), str(p.full)])


FEN = re.compile('([KQRBNPkqrbnp1-8/]+) ([wb]) (-|K?Q?k?q?) (-|[a-h][1-8]) (0|[1-9][0-9]*) (0|[1-9][0-9]*)')


def fen_read(text):
    """The valid position whose text this is, or None."""
    found = FEN.fullmatch(text)
    if found is None or found[3] == '' or re.search('[1-8][1-8]', found[1]):
        return None
    ranks = re.sub('[1-8]', lambda run: ' ' * int(run[0]), found[1]).split('/')
    if [len(rank) for rank in ranks] != [8] * 8:
        return None
    men = {(f, r): MAN[letter] for r, rank in zip(range(8, 0, -1), ranks)
           for f, letter in enumerate(rank, 1) if letter != ' '}
    p = Position(men, found[2], frozenset(found[3]) - {'-'}, square_of(found[4]), int(found[5]), int(found[6]))
    return p if valid(p) else None


INITIAL_FEN = 'rnbqkbnr/pppppppp/8/8/8/8/PPPPPPPP/RNBQKBNR w KQkq - 0 1'
INITIAL = fen_read(INITIAL_FEN)


# --------------------------------------------------------------------- entries

class Entry:
    """kind: open join move offer accept decline resign claim fallen drop; and ended, by no act that is known."""

    given = {WHITE: 0, BLACK: 0}        # of an opening: the milliseconds that are held besides what the entries sum to

    def __init__(self, kind, game, at, **more):
        self.kind, self.game, self.at = kind, game, at          # (the effective moment)
        # open: who, colour, initial, increment, period, start;  join: who
        # move: move;  offer, accept, decline, resign: side
        # claim: side, fifty, move (or None);  ended: ending
        self.__dict__.update(more)


def claim_is_right(line, fifty, move):
    """Judged in the line, with the stated move added if there is one."""
    if move is not None:
        line = line + [following(line[-1], move)]
    if fifty:
        return quiet(line) >= 100
    return times(line[-1], line) >= 3


class Game:
    """The list of one game's entries, and its fields read off that list."""

    def __init__(self, opened):
        self.entries = [opened]
        self.known = {}         # kept for speed: (count of moves, move) -> position,
        self.judged = {}        # index of a claim -> right or wrong,
        self.seen = None        # the fields for the entries so far

    def copy(self):
        made = Game(None)
        made.entries, made.known, made.judged = self.entries[:], self.known.copy(), self.judged.copy()
        made.seen = self.seen
        return made

    def add(self, entry):
        self.entries.append(entry)
        self.seen = None

    def fields(self):
        if self.seen is None:
            self.seen = Fields(self)
        return self.seen


class Fields:
    """The fields of one game, from the whole list of its entries."""

    def __init__(self, game):
        entries = game.entries
        opened = entries[0]
        self.opened = opened
        self.start = opened.start
        joins = [e for e in entries if e.kind == 'join']
        self.joined = joins[0].at if joins else None
        self.seats = {opened.colour: opened.who, other(opened.colour): joins[0].who if joins else None}

        # the line, its moves, and which claims were right
        self.line = [self.start]
        self.moves = []         # (index of the entry, its moment, mover, move)
        self.right = {}         # index of a claim -> right or wrong
        for i, e in enumerate(entries):
            if e.kind == 'claim':
                if i not in game.judged:
                    game.judged[i] = claim_is_right(self.line, e.fifty, e.move)
                self.right[i] = game.judged[i]
            if e.kind == 'move' or (e.kind == 'claim' and e.move is not None and not self.right[i]):
                p = self.line[-1]
                n = (len(self.moves), e.move)
                if n not in game.known:
                    game.known[n] = following(p, e.move)
                self.moves.append((i, e.at, p.side, e.move))
                self.line.append(game.known[n])
        self.ply = len(self.moves)
        self.present = self.line[-1]
        self.side = self.present.side

        # the ending: no entry follows the one that ends a game (number 6),
        # so only the last can be it
        i, last = len(entries) - 1, entries[-1]
        self.ending = self.ending_by(i, last)
        self.ended_at = last.at if self.ending else None

        # offers and claims
        runs = self.joined is not None and self.ending is None
        self.offers = {s: runs and self.offer_stands(entries, s) for s in (WHITE, BLACK)}
        claims = [i for i, e in enumerate(entries) if e.kind == 'claim']
        last_move = self.moves[-1][0] if self.moves else -1
        self.claimed = runs and any(i > last_move for i in claims)

        # times, by sums
        self.since = self.moves[-1][1] if self.moves else self.joined
        self.held = {s: self.time_held(entries, s) for s in (WHITE, BLACK)}

    def ending_by(self, i, last):
        if last.kind == 'accept':
            return (DRAW, '5.2.3')
        if last.kind == 'resign':
            return (WIN[other(last.side)], '5.1.2')
        if last.kind == 'ended':
            return last.ending
        if last.kind == 'fallen':
            return ending_of_flag(self.present)
        if last.kind == 'claim' and self.right[i]:
            return (DRAW, '9.3' if last.fifty else '9.2')
        return ending_of_line(self.line) if self.moves and self.moves[-1][0] == i else None

    def offer_stands(self, entries, side):
        made = [i for i, e in enumerate(entries) if e.kind == 'offer' and e.side == side or e.kind == 'claim'
                and e.side == side and not self.right[i]]
        if not made:
            return False
        since = made[-1]
        is_declined = any(e.kind == 'decline' and e.side != side for e in entries[since + 1:])
        return not is_declined and not any(i > since and mover != side for i, _, mover, _ in self.moves)

    def time_held(self, entries, side):
        o = self.opened
        own = [k for k, (_, _, mover, _) in enumerate(self.moves) if mover == side]
        held = 1000 * o.initial + o.given[side]
        held += 1000 * o.increment * len(own)
        held += 120000 * len([i for i, e in enumerate(entries) if e.kind == 'claim' and e.side != side
                              and not self.right[i]])
        if o.period is not None and len(own) >= o.period[0]:
            held += 1000 * o.period[1]
        for k in own:
            began = self.moves[k - 1][1] if k > 0 else self.joined
            held -= self.moves[k][1] - began
        return held

    def turn(self, at):
        """The length of the running turn at a moment."""
        return at - self.since

    def fallen(self, at):
        return self.turn(at) >= self.held[self.side]

    def left(self, side, at):
        if self.joined is None:
            return 1000 * self.opened.initial
        if self.ending is not None:
            at = self.ended_at
        if side != self.side:
            return max(0, self.held[side])
        return max(0, self.held[side] - self.turn(at))

    def seat_of(self, who):
        return next((colour for colour in (WHITE, BLACK) if self.seats[colour] == who), None)

    def result(self):
        return self.ending[0] if self.ending else '*'


# ------------------------------------------------------------------------- PGN

def pgn(f):
    o, article = f.opened, f.ending and f.ending[1]
    is_other = f.start.whole() != INITIAL.whole()
    plus = '+%d' % o.increment if o.increment else ''
    control = '%d%s' % (o.initial, plus)
    if o.period is not None:
        control = '%d/%s:%d%s' % (o.period[0], control, o.period[1], plus)
    tags = (('Event', '?'), ('Site', '?'), ('Date', '????.??.??'), ('Round', '?'), ('White', f.seats[WHITE] or '?'),
            ('Black', f.seats[BLACK] or '?'), ('Result', f.result()), ('Article', article),
            ('FEN', is_other and fen_write(f.start)), ('SetUp', is_other and '1'),
            ('Termination', {None: 'unterminated', '6.9': 'time forfeit'}.get(article, 'normal')),
            ('TimeControl', control))
    tokens = []
    for k, (_, _, mover, m) in enumerate(f.moves):
        p = f.line[k]
        if mover == WHITE:
            tokens.append('%d.' % p.full)
        elif k == 0:
            tokens.append('%d...' % p.full)
        tokens.append(san(p, m))
    tokens.append(f.result())
    return ['[%s "%s"]' % tag for tag in tags if tag[1]] + [''] + in_lines(tokens) + ['']


def in_lines(tokens):
    """Movetext: the tokens in lines of at most 79 characters, of which each takes as many as fit."""
    lines, text = [], ''
    for token in tokens:
        if text and len(text) + 1 + len(token) > 79:
            lines.append(text)
            text = ''
        text = text + ' ' + token if text else token
    return lines + [text]


# ------------------------------------------------------------------- the lines

TOP = 4294967295
LAST_MOMENT = 4611686018427387903
READS = ('show', 'fen', 'pgn', 'list')

# What stands in a field; what is not named is a number.
FIELDS = {'name': '[A-Za-z0-9_]{1,16}', 'colour': 'white|black', 'fen': '[\x20-\x7e]+', 'text': '[\x21-\x7e]+',
          'test': 'three|fifty'}
FORMS = [re.compile(re.sub(r'<(\w+)>', lambda field: '(?P<%s>%s)' % (
    field[1], FIELDS.get(field[1], '0|[1-9][0-9]{0,9}')), form)) for form in (
        'name <name>', 'open <colour> (?:<initial>|<moves>/<first>:<second>) <increment>(?: <fen>)?',
        'move <game> <ply> <text>', 'claim <game> <ply> <test>(?: <text>)?', 'list',
        '(?:join|offer|accept|decline|resign|flag|drop|show|fen|pgn) <game>')]


def parse(line):
    """(word, map of its fields), or None where the line has none of the forms."""
    found = next((found for found in (form.fullmatch(line) for form in FORMS) if found), None)
    if found is None:
        return None
    f = {field: text if text is None or field in FIELDS else int(text) for field, text in found.groupdict().items()}
    if any(isinstance(number, int) and number > TOP for number in f.values()):
        return None
    word = line.split(' ')[0]
    if word == 'open':
        f['period'] = None if f['moves'] is None else (f['moves'], f['second'])
        f['initial'] = f['initial'] if f['first'] is None else f['first']
    elif word == 'claim':
        f['fifty'] = f['test'] == 'fifty'
    return word, f


NAMES = ['', 'BadLine', 'NoName', 'NoGame', 'NotSeated', 'NotStarted', 'Over', 'WrongPly', 'NotYourMove', 'BadMove',
         'OfferStands', 'NoOffer', 'TooEarly', 'AlreadyClaimed', 'FlagUp', 'Taken', 'SamePlayer', 'BadFen', 'BadTime',
         'TooManyGames', 'TooLong', 'NotOver', 'NoMemory', 'BadMoment', 'Finished']


class Refused(Exception):
    def __init__(self, number, ply=None):
        self.number = number
        self.line = 'no %d %s%s' % (number, NAMES[number], '' if ply is None else ' %d' % ply)


def refuse_if(holds, number, ply=None):
    if holds:
        raise Refused(number, ply)


class Fallen(Exception):
    """A flag had fallen, which is the answer."""


class Table:
    def __init__(self, games_limit, plies_limit):
        self.games_limit, self.plies_limit = games_limit, plies_limit
        self.games = {}         # number -> Game, of those opened and not dropped
        self.greatest = 0       # the greatest moment of all entries
        self.last = 0           # the last number given
        self.entries = 0        # the count of all entries

    def copy(self):
        """The same table, which goes its own way."""
        made = type(self)(self.games_limit, self.plies_limit)
        made.greatest, made.last, made.entries = self.greatest, self.last, self.entries
        made.games = {number: game.copy() for number, game in self.games.items()}
        return made

    # ---- one command

    def command(self, at, who, line):
        assert len(line) <= 255 and '\n' not in line
        if line.endswith('\r'):
            line = line[:-1]
        try:
            parsed = parse(line)
            refuse_if(parsed is None, 1)
            refuse_if(at > LAST_MOMENT, 23)
            word, f = parsed
            if word == 'name':
                return ['ok name ' + f['name']]
            refuse_if(who is None and word not in READS, 2)
            at = max(at, self.greatest)
            return getattr(self, word)(at, who, f)
        except Refused as refused:
            return [refused.line]
        except Fallen as fallen:
            return [str(fallen)]

    # ---- what the acts share

    def enter(self, entry):
        self.greatest = max(self.greatest, entry.at)
        self.entries += 1
        if entry.kind == 'open':
            self.last = entry.game
            self.games[entry.game] = Game(entry)
        elif entry.kind == 'drop':
            del self.games[entry.game]
        else:
            self.games[entry.game].add(entry)

    def fields(self, f):
        """Check 3."""
        refuse_if(f['game'] not in self.games, 3)
        return self.games[f['game']].fields()

    def end(self, number):
        """END, after the entry."""
        ending = self.games[number].fields().ending
        return ' %s %s' % ending if ending else ''

    def running(self, at, who, f):
        """Checks 3, 4, 5, 6, fallen: fields and the player's side."""
        g = self.fields(f)
        side = g.seat_of(who)
        refuse_if(side is None, 4)
        refuse_if(g.joined is None, 5)
        refuse_if(g.ending is not None, 6)
        if g.fallen(at):
            number = f['game']
            self.enter(Entry('fallen', number, at))
            raise Fallen('fallen %d%s' % (number, self.end(number)))
        return g, side

    def on_move(self, at, who, f):
        """The same, and checks 7 and 8."""
        g, side = self.running(at, who, f)
        refuse_if(f['ply'] != g.ply, 7, g.ply)
        refuse_if(side != g.side, 8)
        return g, side

    def read(self, g, f):
        """Checks 20 and 9: the move that a text means."""
        refuse_if(f['ply'] == self.plies_limit, 20)
        m = reads(g.present, f['text'])
        refuse_if(m is None, 9)
        return m

    # ---- the acts

    def open(self, at, who, f):
        period = f['period']
        refuse_if(not (1 <= f['initial'] <= 86400 and 0 <= f['increment'] <= 60), 18)
        refuse_if(period is not None and not (1 <= period[0] <= 255 and 1 <= period[1] <= 86400), 18)
        start = INITIAL
        if f['fen'] is not None:
            start = fen_read(f['fen'])
            refuse_if(start is None or start.full > 9999, 17)
        refuse_if(not legal_moves(start) or listed_dead(start) or start.half >= 150, 24)
        refuse_if(len(self.games) >= self.games_limit or self.last == TOP, 19)
        number = self.last + 1
        self.enter(Entry('open', number, at, who=who, colour=WHITE if f['colour'] == 'white' else BLACK,
                         initial=f['initial'], increment=f['increment'], period=period, start=start))
        return ['ok open %d' % number]

    def join(self, at, who, f):
        g = self.fields(f)
        refuse_if(g.joined is not None, 15)
        refuse_if(g.seat_of(who) is not None, 16)
        self.enter(Entry('join', f['game'], at, who=who))
        colour = 'black' if g.opened.colour == WHITE else 'white'
        return ['ok join %d %s' % (f['game'], colour)]

    def move(self, at, who, f):
        g, _ = self.on_move(at, who, f)
        m = self.read(g, f)
        self.enter(Entry('move', f['game'], at, move=m))
        return ['ok move %d %d %s%s' % (f['game'], g.ply + 1, san(g.present, m), self.end(f['game']))]

    def plain(self, word, at, who, f):
        """An act that names the game alone."""
        g, side = self.running(at, who, f)
        refuse_if(word == 'offer' and (g.offers[WHITE] or g.offers[BLACK]), 10)
        refuse_if(word in ('accept', 'decline') and not g.offers[other(side)], 11)
        refuse_if(word == 'accept' and g.ply < 2, 12)
        self.enter(Entry(word, f['game'], at, side=side))
        return ['ok %s %d%s' % (word, f['game'], self.end(f['game']))]

    offer, accept = functools.partialmethod(plain, 'offer'), functools.partialmethod(plain, 'accept')
    decline, resign = functools.partialmethod(plain, 'decline'), functools.partialmethod(plain, 'resign')

    def claim(self, at, who, f):
        g, side = self.on_move(at, who, f)
        refuse_if(g.claimed, 13)
        m = self.read(g, f) if f['text'] is not None else None
        number = f['game']
        self.enter(Entry('claim', number, at, side=side, fifty=f['fifty'], move=m))
        after = self.games[number].fields()
        index = len(self.games[number].entries) - 1
        if after.right[index]:
            return ['ok claim %d%s' % (number, self.end(number))]
        if m is None:
            return ['ok claim %d wrong' % number]
        return ['ok claim %d wrong %d %s%s' % (number, g.ply + 1, san(g.present, m), self.end(number))]

    def flag(self, at, who, f):
        self.running(at, who, f)
        raise Refused(14)

    def drop(self, at, who, f):
        g = self.fields(f)
        refuse_if(g.seat_of(who) is None, 4)
        refuse_if(g.joined is not None and g.ending is None, 21)
        self.enter(Entry('drop', f['game'], at))
        return ['ok drop %d' % f['game']]

    # ---- the reads

    def show(self, at, who, f):
        g = self.fields(f)
        offers = ''.join(s for s in (WHITE, BLACK) if g.offers[s]) or '-'
        return ['ok show %d %s %s %d %s %d %d %s %s %s' % (
            f['game'], g.seats[WHITE] or '-', g.seats[BLACK] or '-', g.ply, g.side, g.left(WHITE, at),
            g.left(BLACK, at), offers, g.result(), g.ending[1] if g.ending else '-')]

    def fen(self, at, who, f):
        g = self.fields(f)
        return ['ok fen %d %s' % (f['game'], fen_write(g.present))]

    def pgn(self, at, who, f):
        lines = pgn(self.fields(f))
        return ['ok pgn %d %d' % (f['game'], len(lines))] + lines

    def list(self, at, who, f):
        lines = ['ok list %d' % len(self.games)]
        for number in sorted(self.games):
            g = self.games[number].fields()
            lines.append('%d %s %s %d %s' % (number, g.seats[WHITE] or '-', g.seats[BLACK] or '-', g.ply, g.result()))
        return lines


def split_input(text):
    """`MOMENT WHO LINE` -> (moment, who or None, line)."""
    moment, who, line = text.split(' ', 2)
    return int(moment), None if who == '-' else who, line
