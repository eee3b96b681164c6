"""Scenes of bench/browser/page: a round's pairings, the standings and the crosstable, of players and of teams, as
/round.json has them."""

import csv
import json
import os
import re
import runpy

from evening import in_languages, is_in
from lib.program import TOP, put, run
from readable import well_on_screens

NAMES = (('ann', 'Ann Lee'), ('bob', 'Bob <b>Stone</b> & Sons'), ('cid', 'Cid Okonkwo'), ('dee', 'Dee van der Meer'),
         ('fay', 'Wilhelmina Featherstonehaugh-Cholmondeley'))
FIRST = [{'board': 1, 'white': 1, 'black': 2, 'result': '1-0', 'game': 4000000001},
         {'board': 2, 'white': 3, 'black': 4, 'result': '1/2-1/2'}, {'board': 3, 'white': 5, 'bye': 'U', 'result': '1'}]
PLACES = ((1, '1.5', '0.0', '2.0', '2.0', '2.25'), (4, '0.0', '0.0', '2.5', '2.5', '0.00'), (3, '0.5', '0.0', '1.5',
          '1.5', '0.75'), (2, '1.5', '0.0', '1.0', '1.0', '1.00'), (5, '0.0', '0.0', '0.0', '1.0', '0.00'))


def round_told(game):
    """A tournament in its second round, of which this game is the first board's."""
    second = [{'board': 1, 'white': 4, 'black': 1, 'result': '*', 'game': int(game)},
              {'board': 2, 'white': 2, 'black': 5, 'result': '+/-'},
              {'board': 3, 'white': 3, 'bye': 'H', 'result': '1/2'}]
    players = [{'name': name, 'full': full, 'place': place, 'points': points, 'values': values}
               for (name, full), (place, points, *values) in zip(NAMES, PLACES)]
    return {'event': 'Club <i>Cup</i>', 'rounds': [FIRST, second], 'breaks': ['DE', 'BHC1', 'BH', 'SB'],
            'players': players}


def serves(hall, text):
    """The lobby serves this as the round; its file, which a lobby may be a second behind."""
    put(hall.lobby.round, text)
    served = '''const done = arguments[0]; fetch('round.json', { cache: 'no-store' }).then((told) => told.text())
        .then(done, () => done('?'))'''
    hall.sue.until(lambda: hall.sue.driver.execute_async_script(served) == text, 'the round is served')


def cells(person, css):
    return person.run('''return [...document.querySelectorAll(arguments[0] + ' tr')]
        .map((row) => [...row.children].map((cell) => cell.textContent))''', css)


def the_round(hall):
    """Everybody sees the round's pairings, with the way to each game, the standings and the crosstable; earlier rounds
    too; and a game says which board of which round it is. Where nothing is served there is no round."""
    number, ann, _, sue = hall.begin(minutes='20')
    serves(hall, '')
    sue.goes('round').reads('#round-none', 'There is no round here.').lacks('#round-boards', 'and no table')
    sue.lacks('#to-round', 'nor a way to it')
    serves(hall, json.dumps(round_told(number)))
    sue.goes('').goes('round').shows('#round-title', 'Round 2', 'the newest round')
    sue.reads('#round-event', 'Club <i>Cup</i>')
    dee, lee, bob, fay, cid = NAMES[3][1], NAMES[0][1], NAMES[1][1], NAMES[4][1], NAMES[2][1]
    sue.until(lambda: cells(sue, '#round-boards') == [['1', dee, 'goes on', lee], ['2', bob, '+ –', fay],
                                                      ['3', cid, 'bye', '']], 'its boards')
    sue.until(lambda: cells(sue, '#round-standings') == [
        ['1', lee, '1½', '0', '2', '2', '2.25'], ['2', dee, '1½', '0', '1', '1', '1'],
        ['3', cid, '½', '0', '1½', '1½', '0.75'], ['4', bob, '0', '0', '2½', '2½', '0'],
        ['5', fay, '0', '0', '0', '1', '0']], 'by places: %s' % cells(sue, '#round-standings'))
    sue.until(lambda: cells(sue, '#round-cross') == [
        ['1', lee, '4w1', '2b*'], ['2', dee, '3b½', '1w*'], ['3', cid, '2w½', '½'], ['4', bob, '1b0', '5w+'],
        ['5', fay, '1', '4b–']], 'who met whom: %s' % cells(sue, '#round-cross'))
    well_on_screens(sue, 'the round')
    sue.click('#round-others a').shows('#round-title', 'Round 1', 'an earlier round')
    sue.until(lambda: cells(sue, '#round-boards')[0] == ['1', lee, '1–0', bob], 'its boards')
    sue.click('#to-round').shows('#round-title', 'Round 2', 'the newest again')
    for css in ('#round-boards', '#round-standings', '#round-cross'):
        href = sue.run('return document.querySelector(arguments[0]).getAttribute("href")', css + ' a')
        sue.is_so(href in ('#/player/ann', '#/player/dee'), 'names are ways to the games of a player: ' + href)
    sue.click('#round-boards .result a').shows('#game-board', 'Round 2, board 1', 'the game says so')
    ann.reload().shows('#game-board', 'Round 2, board 1', 'to its player too')
    ann.goes('').reload().finds('#to-round', 'the way to it, at the table too')
    for person in (ann, sue):
        person.is_quiet()
    serves(hall, '')


def the_round_in_every_language(hall):
    """The round in each language, on every screen."""
    sue = hall.sit('sue')[2]
    serves(hall, json.dumps(round_told(4000000002)))
    for language in in_languages(sue):
        sue.goes('round').reload().finds('#round-boards td', 'the round in ' + language)
        is_in(language, sue, 'the round')
    serves(hall, '')


LEEDS, HOVE, YORK = 'Leeds & Co', 'Hove <i>II</i>', 'York "A", first'
MEMBERS = (('ann', LEEDS), ('bob', LEEDS), ('cid', HOVE), ('dee', HOVE), ('fay', YORK), ('gus', YORK))
# Three rounds of three teams by two boards: White, Black and the result, of a bye its sign. Of the last match a board
# has no result so far.
LEAGUE = ((('ann', 'cid', '1-0'), ('dee', 'bob', '1/2-1/2'), ('fay', '', 'U'), ('gus', '', 'U')),
          (('cid', 'fay', '+/-'), ('gus', 'dee', '-/+'), ('ann', '', 'H'), ('bob', '', 'Z')),
          (('fay', 'ann', '0-1'), ('bob', 'gus', '*'), ('cid', '', 'U'), ('dee', '', 'U')))


def decision(board, white, black, result):
    """A line by which an arbiter has decided a board."""
    return json.dumps({'at': 1, 'board': board, 'result': result, 'white': white, 'black': black, 'article': '',
                       'arbiter': 'Eve', 'reason': 'so'}, separators=(',', ':')) + '\n'


class League:
    """The files of a league's rounds, and what `chess-club standings` says of them."""

    def __init__(self, folder):
        os.makedirs(folder)
        at = lambda name: os.path.join(folder, name)
        full = dict(NAMES)
        put(at('club.players'), ''.join('%s player %064x %s\n' % (name, place, full.get(name, name.title()))
                                        for place, (name, _) in enumerate(MEMBERS)))
        put(at('club.jsonl'), '')
        with open(at('particulars.csv'), 'w', encoding='utf-8', newline='') as file:
            csv.writer(file, lineterminator='\n').writerows((('name', 'team'), *MEMBERS))
        self.words = ['--players', at('club.players'), '--archive', at('club.jsonl'), '--particulars',
                      at('particulars.csv'), '--name', 'League']
        for number, boards in enumerate(LEAGUE, 1):
            files = [at('round%d.%s' % (number, kind)) for kind in ('csv', 'games', 'decisions')]
            rows = ['%d,%s,%s,%s,' % (board, white, black, '300' if black else result)
                    for board, (white, black, result) in enumerate(boards, 1)]
            put(files[0], '\n'.join(('board,white,black,times,start', *rows, '')))
            put(files[1], '')
            put(files[2], ''.join(decision(board, *row) for board, row in enumerate(boards, 1) if row[1] and row[2] != '*'))
            self.words += ['--rounds', ','.join(files)]

    def told(self, *more):
        done = run('chess_club', 'standings', *self.words, *more)
        assert done.returncode == 0, done.stderr
        return done.stdout

    def rows(self, *more):
        return list(csv.reader(self.told('--teams', *more).splitlines()))[1:]


def as_shown(points):
    """`2½` of `2.5`, as a page has it."""
    whole, _, part = points.partition('.')
    half = '½' if part in ('5', '50') else ''
    return points if part.strip('0') and not half else half if half and whole == '0' else whole + half


def as_crossed(sign):
    """`3w 2½` of `3w1:2.5`, `bye 2` of `U:2.0`, and `3b*` of a match that goes on: what a cell begins with."""
    line, colour, result, points = re.fullmatch(r'(\d*)([wbUFHZ])(.?):(.*)', sign).groups()
    return 'bye ' + as_shown(points) if not line else line + colour + ('*' if result == ' ' else ' ' + as_shown(points))


def shows_teams(person, league, front):
    """The tables whose ids begin so have the same numbers as the program's own."""
    wanted = [[place, name, *map(as_shown, points)] for place, _, name, *points in league.rows()]
    person.until(lambda: cells(person, '#%s-standings' % front) == wanted,
                 'standings: %s, wanted %s' % (cells(person, '#%s-standings' % front), wanted))
    crossed = [[line, name, *map(as_crossed, signs)] for line, name, *signs, _ in league.rows('--form', 'crosstable')]
    found = cells(person, '#%s-cross' % front)
    person.is_so([[cell.split('–')[0] for cell in row] for row in found] == crossed,
                 'the crosstable: %s, wanted %s' % (found, crossed))
    person.is_so('1w 1½–½' in found[1] and '2b ½–1½' in found[0], 'with both teams’ board points: %s' % found)
    heads = cells(person, 'thead:has(#%s-breaks)' % front)[0]
    person.is_so(heads[:4] == ['Place', 'Team', 'Match points', 'Board points'], 'what the columns are: %s' % heads)


def the_teams(hall):
    """A league of teams: a round's matches, the standings by match and board points, and the crosstable, with the
    numbers of `chess-club standings --teams`, beside those of the players as `evening` has them written, and alone."""
    sue, league = hall.sit('sue')[2], League(os.path.join(hall.folder, 'league'))
    with_teams = runpy.run_path(os.path.join(TOP, 'tools', 'evening'))['with_teams']
    players, teams = league.told('--form', 'json'), league.told('--teams', '--form', 'json')
    serves(hall, with_teams(players, teams))
    sue.goes('round').shows('#round-title', 'Round 3', 'the newest round')
    shows_teams(sue, league, 'teams')
    sue.until(lambda: cells(sue, '#teams-boards') == [['1', HOVE, 'bye', ''], ['2', YORK, 'not over', LEEDS]],
              'its matches: %s' % cells(sue, '#teams-boards'))
    sue.is_so(cells(sue, '#round-boards')[0] == ['1', NAMES[4][1], '0–1', NAMES[0][1]], 'and its boards')
    sue.click('#round-others a:nth-child(2)').shows('#round-title', 'Round 2', 'the round before')
    sue.until(lambda: cells(sue, '#teams-boards') == [['1', LEEDS, 'bye', ''], ['2', HOVE, '2–0', YORK]], 'its matches')
    well_on_screens(sue, 'teams')
    for language in in_languages(sue):
        sue.goes('round').reload().finds('#teams-boards td', 'teams in ' + language)
        is_in(language, sue, 'teams')
    serves(hall, teams)
    sue.reload().goes('round').shows('#round-title', 'Round 3', 'of teams alone')
    sue.lacks('#teams-boards', 'in one table each')
    shows_teams(sue, league, 'round')
    serves(hall, with_teams(players, ''))
    sue.reload().finds('#round-boards td', 'of players alone').lacks('#teams-boards', 'no teams').is_quiet()
    serves(hall, '')


ROUND = (the_round, the_round_in_every_language, the_teams)
