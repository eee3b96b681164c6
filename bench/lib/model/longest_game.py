"""A game of thousands of moves: pawns go one square at a time and take one another, each as late as the rule of 75
moves lets it, and between these moves the knights go about. (No game has 20,000 moves: with all 16 pawns at their last
square and all men taken it is over after some 17,700.)"""
from collections import Counter

STEPS = [(a, b) for a in (-2, -1, 1, 2) for b in (-2, -1, 1, 2) if abs(a) != abs(b)]
FILES = 'abcdefgh'
# The half moves since a pawn moved, after which one moves again: 150 would end the game.
MOST = 148


def pawn_moves():
    """The moves of the pawns: the side, and from and to."""
    for file in FILES:
        yield from [(0, file + '2', file + '3'), (1, file + '7', file + '6'),
                    (0, file + '3', file + '4'), (1, file + '6', file + '5')]
    # Each second file's pawn takes its neighbour, and pawns go on to where they give no check.
    for taker, taken, first in (('a', 'b', '67'), ('c', 'd', '6'), ('e', 'f', '6'), ('g', 'h', '67')):
        yield 0, taker + '4', taken + '5'
        yield from [(1, taker + a, taker + b) for a, b in ('54', '43', '32')]
        rank = '5'
        for to in first:
            yield 0, taken + rank, taken + to
            rank = to
        rank = '4'
        for to in '56'[:len(first)]:
            yield 0, taken + rank, taken + to
            rank = to


def reached(square, ranks):
    """Where a knight can go from a square, on these ranks."""
    file, rank = FILES.index(square[0]), int(square[1])
    return [FILES[file + a] + str(rank + b) for a, b in STEPS if 0 <= file + a < 8 and str(rank + b) in ranks]


def longest_game():
    """The texts of its moves, from the initial position."""
    men = {file + rank for file in FILES for rank in '1278'}
    knights = [['b1', 'g1'], ['b8', 'g8']]
    texts, side, since, seen = [], 0, 0, Counter()
    moves = list(pawn_moves())
    while moves or since < MOST:
        mover, origin, target = moves[0] if moves else (None, None, None)
        if moves and since >= MOST and side == mover:
            texts.append(target if origin[0] == target[0] else origin[0] + 'x' + target)
            men.remove(origin)
            men.add(target)
            moves, since, seen = moves[1:], 0, Counter()
        else:
            place, to = least_seen(knights, side, men, seen, target if since > MOST // 2 else None)
            texts.append('N' + told(*knights[side][::1 - 2 * place], to) + to)
            men.remove(knights[side][place])
            men.add(to)
            knights[side][place] = to
            since += 1
            seen[key(knights, side)] += 1
        side = 1 - side
    return texts


def told(origin, other, to):
    """What tells a knight from the other, where both can go there."""
    if to not in reached(other, '12345678'):
        return ''
    return origin[1] if origin[0] == other[0] else origin[0]


def key(knights, side):
    return tuple(sorted(knights[0])), tuple(sorted(knights[1])), side


def least_seen(knights, side, men, seen, wanted):
    """A knight's move to a position that came least often so far, and away from a square that a pawn wants."""
    found = []
    for place in (0, 1):
        for to in reached(knights[side][place], ('1234', '5678')[side]):
            if to in men:
                continue
            after = [list(pair) for pair in knights]
            after[side][place] = to
            found.append((wanted in after[side], seen[key(after, side)], place, to))
    return min(found)[2:]
