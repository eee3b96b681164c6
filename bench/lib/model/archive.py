"""The PGNs of an archive, by docs/use/NIGHT.md, "The texts": `Archive.play` gives what test_desk is to write of a line
of an archive."""

import sys
from lib.model.rules import in_lines
from lib.night import ROSTER, escaped, short_clock

HEADING = [name for name in ROSTER if name != 'Result']


def tag_told(line, heading):
    """A tag's line, with what the heading has in the place of its value."""
    name = line[1:].split(' ')[0]
    return f'[{name} "{escaped(heading[name])}"]' if name in heading else line


def tokens_told(tokens, clocks):
    """The tokens of moves with what the clocks showed behind them, and the number of Black's move behind that."""
    told, number, clocks = [], None, iter(clocks)
    for token in tokens:
        is_move = token[0].isalpha()
        if token.endswith('.'):
            number = token.rstrip('.')
        if is_move and told[-1].startswith('{'):
            told.append(number + '...')
        told.append(token)
        clock = next(clocks, None) if is_move else None
        if clock is not None:
            told.append('{[%%clk %s]}' % short_clock(clock))
    return told


def archived(pgn, heading, clocks):
    """The lines of a game's PGN in the archive, by those of the server's. A clock that is not known is None."""
    tags, moves = pgn[:pgn.index('')], pgn[pgn.index(''):]
    tokens = tokens_told(' '.join(moves).split(), clocks)
    return [tag_told(line, heading) for line in tags] + [''] + in_lines(tokens) + ['']


class Archive:
    def __init__(self):
        self.heading, self.clocks = dict.fromkeys(HEADING, ''), []

    def play(self, line):
        yield f'% {line}'
        word, _, given = line.partition(' ')
        name, _, value = given.partition(' ')
        if word == 'tag' and name.capitalize() in self.heading:
            self.heading[name.capitalize()] = value
        elif word == 'clocks':
            self.clocks = [None if clock == '-' else int(clock) for clock in given.split()]
        elif word == 'pgn':
            yield from archived(given.split('|')[:-1], self.heading, self.clocks)
            self.clocks = []
        else:
            sys.exit(f'no such line: {line}')
