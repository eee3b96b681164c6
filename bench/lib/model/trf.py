"""What `chess-club trf` writes, by docs/use/NIGHT.md, "A round": `told` has the report of a tournament by the words
`trf --players FILE --archive FILE --rounds CSV,GAMES ..`, also with `--particulars FILE` and `--round-date DAY ..`. Of
its other words there is no model."""

import argparse
import csv
from lib.night import OPTIONS, game_in, games_in, lines_behind, read_notes, read_particulars, report_beside, unescaped
from lib.program import Wrong, wrong_if

FRONT = b'{"game":'
MOST_BEHIND = 4194304


def games_of(path):
    """The games of an archive, with what stands behind its lines: a line that lacks its line feed alone is a game's,
    and the beginning of one is none."""
    lines, behind = lines_behind(path)
    games = [game_in(line) for line in lines]
    if behind:
        try:
            games.append(game_in(behind.decode()))
        except ValueError:
            look_at_torn(behind)
    wrong_if(len(dict(games)) < len(games), 'the archive has a game twice')
    return games


def look_at_torn(behind):
    """What is not whole has to begin as a line does, as far as it goes, and to hide no other line."""
    is_begun = all(byte in (wanted, 0) for byte, wanted in zip(behind, FRONT))
    if not is_begun or FRONT in behind[1:] or len(behind) > MOST_BEHIND:
        raise Wrong('something else stands behind the lines of the archive')


def players_in(path):
    """The full names of a players' file by the names (docs/use/CLUB.md, "Players"), of players alone, in its order."""
    with open(path, encoding='utf-8', newline='\n') as file:
        lines = [line for line in file.read().split('\n') if line and not line.startswith('#')]
    rows = [line.split(' ', 3) for line in lines]
    return {name: full for name, role, _, full in rows if role == 'player'}


def pairings_in(path):
    """The rows of a round's pairings, without the header and empty lines."""
    with open(path, encoding='utf-8', newline='') as file:
        rows = [row for row in csv.reader(file) if row]
    return [(int(row[0]), *row[1:]) for row in rows[1:]]


def outcome(pgn, seats, full):
    """What came of a board's game, by its PGN, as points_of has it; `seats` are the names of White and Black."""
    tags, moves, result = games_in(pgn)[0]
    for colour, name in zip(('White', 'Black'), seats):
        if unescaped(tags[colour]) not in (name, full[name]):
            raise Wrong(f'the game of {seats} has {tags[colour]} as {colour}')
    is_played = len(moves) >= 2 or 'FEN' in tags
    return result, 'board' if is_played else 'forfeit' if tags['Article'] == '6.9' else 'short'


def round_of(files, games, full):
    """The rows of a round, and by board what was played there."""
    pairings, notes = files.split(',')
    rows, noted, played = pairings_in(pairings), read_notes(notes), {}
    for board, white, black, *_ in rows:
        stage, game = noted.get(board, ('opening', None))
        is_known = stage != 'opening' and game in games
        played[board] = outcome(games[game], (white, black), full) if is_known else ('*', None)
    return rows, played


def words_of(given):
    words = argparse.ArgumentParser()
    words.add_argument('word', choices=['trf'])
    words.add_argument('--players', required=True)
    words.add_argument('--archive', required=True)
    words.add_argument('--rounds', action='append', required=True)
    words.add_argument('--all-rounds')
    words.add_argument('--particulars')
    words.add_argument('--round-date', action='append', default=[])
    for option in OPTIONS.values():
        words.add_argument('--' + option, default='')
    return words.parse_args(given)


def told(words, lines):
    """The lines of the report, with the ranks of these lines where they may be."""
    given = words_of(words)
    full, games = players_in(given.players), dict(games_of(given.archive))
    known = read_particulars(given.particulars) if given.particulars else {}
    rounds = [round_of(files, games, full) for files in given.rounds]
    return report_beside(lines, vars(given), full, rounds, known, given.round_date)
