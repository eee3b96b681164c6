"""Standings of players and teams by the articles of FIDE's Handbook, C.07 (Tie-Break Regulations, in force from 1
August 2024), reckoned over pairs of players, by one who knows nothing of the program."""
import itertools
from fractions import Fraction

HALF = Fraction(1, 2)
BYES = {"U": Fraction(1), "F": Fraction(1), "H": HALF, "Z": Fraction(0)}
# What each side has by a result, and its sign in a report and the crosstable. `=/=` is a match drawn by forfeits.
RESULTS = {"1-0": (1, 0, "1", "0"), "0-1": (0, 1, "0", "1"), "1/2-1/2": (HALF, HALF, "=", "="),
           "1/2-0": (HALF, 0, "=", "0"), "0-1/2": (0, HALF, "0", "="), "0-0": (0, 0, "0", "0"),
           "+/-": (1, 0, "+", "-"), "-/+": (0, 1, "-", "+"), "-/-": (0, 0, "-", "-"), "*": (0, 0, " ", " "),
           "=/=": (HALF, HALF, "=", "="), "W/L": (1, 0, "W", "L"), "L/W": (0, 1, "L", "W"),
           "D/D": (HALF, HALF, "D", "D")}
FORFEITS = ("+/-", "-/+", "-/-", "=/=")


class Tournament:
    """Rounds of boards `(white, black, result)`, players by numbers from 0 on; of a bye `(player, None, sign)`. Where
    each meets each forfeits are games (15), section 16 does not hold, and a round adds nothing where nobody was met."""

    def __init__(self, count, rounds, each=False):
        self.players, self.each = range(count), each
        self.rounds = [self.of_round(boards) for boards in rounds]

    def of_round(self, boards):
        """What each player has in a round: the opponent, the points, whether it was played and is over, whether it was
        left unplayed by the player's own will, and whether it is a bye that was asked for."""
        told = {one: (None, Fraction(0), False, True, True) for one in self.players}
        for white, black, result in boards:
            if black is None:
                asked = result in "HZ"
                told[white] = (None, BYES[result], False, asked, asked)
                continue
            first, second, one, other = RESULTS[result]
            for player, opponent, points, sign in ((white, black, first, one), (black, white, second, other)):
                played = self.each or result not in FORFEITS
                told[player] = (opponent if played else None, Fraction(points), played and result != "*",
                                not played and sign == "-", False)
        return told

    def points(self, player):
        return sum(told[player][1] for told in self.rounds)

    def for_opponents(self, player):
        """16.3: the last byes that were asked for count as draws, where the player was there for no round behind."""
        if self.each:
            return self.points(player)
        total, gone = Fraction(0), True
        for told in reversed(self.rounds):
            _, points, _, voluntary, asked = told[player]
            total += HALF if asked and gone else points
            gone = gone and voluntary
        return total

    def parts(self, player):
        """16.4: what each round adds, with the player's points and whether it was left unplayed by will; a dummy where
        it was not played."""
        return [(self.points(player) if opponent is None else self.for_opponents(opponent), points, will)
                for told in self.rounds for opponent, points, _, will, _ in [told[player]]
                if opponent is not None or not self.each]

    def buchholz(self, player):
        return sum(part for part, _, _ in self.parts(player))

    def cut(self, player):
        """16.5: the least of the rounds that were left unplayed by will is cut first."""
        parts = self.parts(player)
        return self.buchholz(player) - min([part for part, _, will in parts if will] or [part for part, _, _ in parts],
                                           default=0)

    def berger(self, player):
        return sum(part * points for part, points, _ in self.parts(player))

    def wins(self, player):
        """7.1: with or without playing, by what each round was worth."""
        return sum(told[player][1] == 1 for told in self.rounds)

    def board_points(self, _player):
        return 0

    def met(self, one, other):
        """What a player scored in the games against another that were played and are over."""
        return [told[one][1] for told in self.rounds if told[one][0] == other and told[one][2]]

    def encounter(self, group):
        """6: groups in the place of one, in their order."""
        if len(group) < 2:
            return [group]
        won = {one: sum(sum(self.met(one, other)) for other in group if other != one) for one in group}
        missing = [(one, other) for one, other in itertools.combinations(group, 2) if not self.met(one, other)]
        if not missing:
            parts = [[one for one in group if won[one] == score] for score in sorted(set(won.values()), reverse=True)]
        else:
            parts, rest = [], list(group)
            while rest:
                sure = [one for one in rest if all(won[one] > won[other] + sum(other in pair for pair in missing)
                                                   for other in rest if other != one)]
                if not sure:
                    break
                parts.append(sure)
                rest = [one for one in rest if one not in sure]
            if rest:
                parts.append(rest)
        if len(parts) == 1:
            return parts
        return [again for part in parts for again in self.encounter(part)]

    def order(self, names):
        """The groups of who stays tied, in their order, and each player's values."""
        values = {one: [] for one in self.players}
        by_points = sorted({self.points(one) for one in self.players}, reverse=True)
        groups = [[one for one in self.players if self.points(one) == score] for score in by_points]
        value = {"BP": self.board_points, "BHC1": self.cut, "BH": self.buchholz, "SB": self.berger, "WIN": self.wins}
        for name in names:
            for group in groups:
                for one in group:
                    values[one].append(value[name](one) if name in value else sum(
                        sum(self.met(one, other)) for other in group if other != one))
            if name == "DE":
                groups = [part for group in groups for part in self.encounter(group)]
            else:
                groups = [[one for one in group if value[name](one) == score] for group in groups
                          for score in sorted({value[name](one) for one in group}, reverse=True)]
        return groups, values


class League(Tournament):
    """A tournament of teams: its games are the matches, of which a win is worth two points."""

    def __init__(self, teams, rounds, numbers, each=False):
        self.teams, count = teams, 1 + max(teams)
        self.points_in = [[self.points_of(boards, team) for team in range(count)] for boards in rounds]
        self.matches = [self.matches_of(at, [board for _, board in sorted(zip(numbers[at], boards))])
                        for at, boards in enumerate(rounds)]
        super().__init__(count, self.matches, each)

    def points_of(self, boards, team):
        """What a team's players have in a round."""
        told = [(white, BYES[result] if black is None else RESULTS[result][0]) for white, black, result in boards]
        told += [(black, RESULTS[result][1]) for _, black, result in boards if black is not None]
        return sum(points for player, points in told if self.teams[player] == team)

    def matches_of(self, at, boards):
        """The matches of a round, each named after the team that has White at its first board, or, as colours
        alternate, would have it where players alone have the boards before; and the byes of teams that have none, each
        of the first player with one."""
        results, byes, alone = {}, {}, []
        for white, black, result in boards:
            one = self.teams[white]
            if black is None:
                byes.setdefault(one, result)
                alone.append(one)
                continue
            pair = (one, self.teams[black])
            if not {pair, pair[::-1]} & set(results):
                results[pair[::-1] if sum(team in pair for team in alone) % 2 else pair] = []
            results[pair if pair in results else pair[::-1]].append(result)
        met = {team for pair in results for team in pair}
        return ([(*pair, self.result_of(*(self.points_in[at][team] for team in pair), told))
                 for pair, told in results.items()]
                + [(team, None, sign) for team, sign in byes.items() if team not in met])

    @staticmethod
    def result_of(ours, theirs, results):
        if "*" in results:
            return "*"
        forfeit = all(result in FORFEITS for result in results)
        if ours == theirs:
            return (("1/2-1/2", "=/=") if ours else ("0-0", "-/-"))[forfeit]
        return (("1-0", "+/-") if ours > theirs else ("0-1", "-/+"))[forfeit]

    def board_points(self, team):
        return sum(points[team] for points in self.points_in)


# ---- as rows

def player_text(name, value):
    return f"{float(value):.2f}" if name == "SB" else str(value) if name == "WIN" else f"{float(value):.1f}"


def team_text(name, value):
    """Of matches: points are counted two a match, and their products four."""
    return f"{float(value):.1f}" if name == "BP" else str(int(value * {"SB": 4, "WIN": 1}.get(name, 2)))


def placed(tournament, names, called, text=player_text):
    """The rows of standings by these tie-breaks; `called` tells what a player is called."""
    groups, values = tournament.order(names)
    rows, place = [], 1
    for group in groups:
        for one in sorted(group):
            told = [text(name, value) for name, value in zip(names, values[one])]
            rows.append([str(place), str(one + 1), called(one), text("points", tournament.points(one)), *told])
        place += len(group)
    return rows


def crosstable(rows, rounds, behind=lambda at, one: ""):
    """The rows of the crosstable, in the order of these rows of standings."""
    line = {int(row[1]) - 1: str(at) for at, row in enumerate(rows, 1)}
    told = []
    for at, row in enumerate(rows, 1):
        player, cells = int(row[1]) - 1, []
        for place, boards in enumerate(rounds):
            cell = "Z"
            for white, black, result in boards:
                if black is None:
                    cell = result if white == player else cell
                elif player in (white, black):
                    other, colour = (black, "w") if player == white else (white, "b")
                    sign = RESULTS[result][2 if player == white else 3]
                    cell = line[other] + colour + sign
            cells.append(cell + behind(place, player))
        told.append([str(at), row[2], *cells, row[3]])
    return told
