"""Who plays whom in a league's night, and what is not as usual there."""
import collections

from lib.program import wrong_if

# By round, or by the last one where there are fewer, games that end by what the arbiter does; and the byes asked for.
KINDS = {1: ['white away', 'no mate on time'], 2: ['adjourned'], 3: ['nobody'],
         4: ['black away', 'no mate resigned']}
ASKED = {2: 'HFZ', 3: 'H'}


def due(of_rounds, number, rounds):
    """What is due in a round, of so many."""
    return [one for at, ones in of_rounds.items() if min(at, rounds) == number for one in ones]


def pairs_of(rest, met):
    """Pairs from the top, nobody against one whom he has met; none where that cannot be."""
    if not rest:
        return []
    for place in range(1, len(rest)):
        if rest[place] not in met[rest[0]]:
            tail = pairs_of(rest[1:place] + rest[place + 1:], met)
            if tail is not None:
                return [(rest[0], rest[place])] + tail
    return None


class Swiss:
    """A Swiss, as an arbiter may pair who has no program for it: by points, nobody twice against the same opponent,
    colours in turn where that can be. A player enters late for the second round, and another for the third, who then
    has half a point for the round before; one leaves after the third."""

    teams = False

    def __init__(self, given, dice):
        self.rounds, self.count, self.dice = given.rounds, 2 * given.boards, dice
        self.met, self.had_bye, self.colours = collections.defaultdict(set), set(), collections.defaultdict(list)

    def players(self):
        """Of each player the name, the full name and particulars of his own."""
        fronts = ('', 'Ünal ', 'Bo "Bob" \\ Jr. ')
        for place in range(self.count):
            front = fronts[place % 3] * (place % 8 if place % 3 == 1 else 1)
            yield f'p{place}', f'{front}Player {place}', {}

    async def before(self, number, night):
        """Who comes and goes before a round."""
        if number == 1:
            self.here = list(night.full)
        elif number == 2:
            night.add_player('late', 'Lately Come')
            # (a lobby that runs reads the file a second or two later)
            await night.desk.sees('late')
            self.here.append('late')
        elif number == 3:
            await night.desk.add_player('later', 'Later Come')
            night.add_bye(2, 'later', 'H')
            self.here.append('later')
        elif number == 4:
            self.here.remove(self.here[self.count // 2])

    def pair(self, number, points):
        """Boards of White, Black and the kind of the game, where it is told, and byes of a player and a sign."""
        order = sorted(self.here, key=lambda name: -points[name])
        signs = due(ASKED, number, self.rounds)
        byes = list(zip(self.dice.sample(order, len(signs)), signs))
        order = [name for name in order if name not in dict(byes)]
        if len(order) % 2:
            last = [name for name in order if name not in self.had_bye][-1]
            order.remove(last)
            self.had_bye.add(last)
            byes.append((last, ''))
        pairs = pairs_of(order, self.met)
        wrong_if(pairs is None, 'there are too few players for so many rounds')
        kinds = due(KINDS, number, self.rounds)
        kinds = self.dice.sample(kinds + [''] * (len(pairs) - len(kinds)), len(pairs))
        return [(*self.seated(*pair), kind) for pair, kind in zip(pairs, kinds)], byes

    def seated(self, one, other):
        def wish(name):
            had = self.colours[name]
            return sum(1 if colour == 'w' else -1 for colour in had), had[-1:] == ['w']
        white, black = (one, other) if wish(one) <= wish(other) else (other, one)
        for name, opponent, colour in ((white, black, 'w'), (black, white, 'b')):
            self.met[name].add(opponent)
            self.colours[name].append(colour)
        return white, black


class League:
    """A league, in which each team meets each. The team that is named first in a match has White at its odd boards. In
    the second round a team lacks its last player, in the fourth a reserve plays from then on, and in the fifth a team
    does not come."""

    teams = True

    def __init__(self, given, dice):
        self.rounds, self.count, self.size, self.dice = given.rounds, given.teams, given.boards_of_team, dice
        self.own = [[f't{team}b{board}' for board in range(1, self.size + 1)] for team in range(self.count)]

    def players(self):
        order = [(team, board) for team in range(self.count) for board in range(1, self.size + 1)]
        self.dice.shuffle(order)
        for team, board in [*order, (0, self.size + 1)]:
            yield f't{team}b{board}', f'Team {team} Board {board}', {
                'team': f'Ünal {team} of the Riverside' if team % 2 else f'Leeds {team}', 'board': str(board)}

    async def before(self, number, _night):
        if number == min(4, self.rounds):
            self.own[0][self.size // 2] = f't0b{self.size + 1}'

    def matches(self, number):
        """The teams that meet in a round, by turns around the first; who meets None has a bye."""
        ring = [*range(self.count), *([None] if self.count % 2 else [])]
        turn = (number - 1) % (len(ring) - 1)
        order = [ring[0], *ring[1 + turn:], *ring[1:1 + turn]]
        half = len(order) // 2
        pairs = list(zip(order[:half], order[:half - 1:-1]))
        return [pair[::-1] if (number + at) % 2 else pair for at, pair in enumerate(pairs)]

    def pair(self, number, _points):
        boards, byes = [], []
        kinds = due(KINDS, number, self.rounds)
        for at, (home, away) in enumerate(self.matches(number)):
            if None in (home, away):
                byes += [(name, 'F') for name in self.own[away if home is None else home]]
                continue
            for place, pair in enumerate(zip(self.own[home], self.own[away])):
                if number == min(2, self.rounds) and at == 0 and place + 1 == self.size:
                    byes.append((pair[1], 'F'))
                    continue
                pair = pair if place % 2 == 0 else pair[::-1]
                kind = kinds.pop() if kinds and place == at % self.size else ''
                if number == 5 and at == 0:
                    kind = 'white away' if place % 2 == 0 else 'black away'
                boards.append((*pair, kind))
        return boards, byes
