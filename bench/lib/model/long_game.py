"""A long game that does not end, of moves that the plain model finds legal."""
import random
from lib.model.rules import ending_of_line, fen_read, following, legal_moves, san

START = 'rnbqkbnr/pppppppp/8/8/8/8/PPPPPPPP/RNBQKBNR w KQkq - 0 1'


def game(seed, many):
    # quiet moves of pieces, and now and then one of a pawn, so that neither men nor the game come to an end
    random.seed(seed)
    line, texts = [fen_read(START)], []
    while len(texts) < many:
        p = line[-1]
        moves = sorted(legal_moves(p), key=str)
        random.shuffle(moves)
        wants_pawn = p.half > 120
        moves.sort(key=lambda m: ('x' in san(p, m), (p.men[m[0]][1] == 'P') != wants_pawn))
        for move in moves:
            after = line + [following(p, move)]
            if ending_of_line(after) is None:
                texts.append(san(p, move))
                line = after
                break
        else:
            return None
    return texts


def long_game(many):
    """The texts of so many moves from the initial position, none of which ends the game."""
    seed = 1
    while (texts := game(seed, many)) is None:
        seed += 1
    return texts
