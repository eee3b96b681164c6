"""Scenes of bench/browser/page: games that are over and were kept, as /kept.pgn has them."""

import json
import os
import time

from evening import FOOLS, in_languages, is_in
from lib.program import put
from readable import keys_go_round, on_screens, reads_well, well_on_screens
from round import round_told, serves

ANN, BOB, ZOE = 'Ann Lee', 'Bob <b>Stone</b> & Sons', 'Zoë "Zed" O\\Brien'
MATE = '1. f3 {[%clk 0:04:59]} 1... e5 {[%clk 0:04:58]} 2. g4 {[%clk 0:04:51]} 2... Qh4# {[%clk 0:04:47]} 0-1'
DRAWN = '1. e4 e5 2. Nf3 Nc6 1/2-1/2'
NOBODY = 4000000000                  # above all games of a table
# Number, White, Black, date, result, article, moves: the one that was kept last first.
KEPT = ((NOBODY + 4, ZOE, ANN, '2026.11.28', '1-0', '5.1.2', '1. d4 d5 2. c4 1-0'),
        (NOBODY + 3, ANN, BOB, '2026.11.27', '0-1', '5.1.1', MATE),
        (NOBODY + 2, BOB, ANN, '2026.11.27', '1/2-1/2', '5.2.3', DRAWN),
        (NOBODY + 1, ANN, 'cid', '????.??.??', '1-0', '6.9', '1. e4 e5 1-0'))
NUMBERS = [str(row[0]) for row in KEPT]


def kept_pgn(number, white, black, date, result, article, moves):
    tag = lambda name, value: '[%s "%s"]' % (name, str(value).replace('\\', '\\\\').replace('"', '\\"'))
    rows = (('Event', 'Club <i>evening</i>'), ('Site', '?'), ('Date', date), ('Round', '?'), ('White', white),
            ('Black', black), ('Result', result), ('Article', article), ('GameId', number), ('Termination', 'normal'),
            ('TimeControl', '300+3'))
    return '\n'.join(tag(*row) for row in rows) + '\n\n' + moves + '\n\n'


def keeps(hall, rows):
    """The lobby serves these games; its file, which a lobby may be a second behind."""
    put(hall.lobby.kept, ''.join(kept_pgn(*row) for row in rows))
    served = '''const done = arguments[0]; fetch('kept.pgn', { cache: 'no-store' }).then((told) => told.text())
        .then((text) => done(text.length), () => done(-1))'''
    length = len(open(hall.lobby.kept).read()) if rows else 0
    hall.sue.until(lambda: hall.sue.driver.execute_async_script(served) == length, 'the games are served')


LISTED = '''return [...document.querySelectorAll('#finished-list .pairing')].map((e) => e.hash.split('/')[2])'''


def lists(person, numbers, what):
    return person.until(lambda: person.run(LISTED) == numbers, what)


def looks_for(person, **fields):
    """Puts values into the fields that are looked by, and empties the others."""
    person.run('''const [fields] = arguments, form = document.querySelector('#finished-form');
        for (const name of ['player', 'day', 'result']) form.elements[name].value = fields[name] || '';
        form.dispatchEvent(new Event('input'));''', fields)
    return person


def finished_games(hall):
    """All games that were kept are listed, the newest first, and looked for by player, day and result; a player has a
    page with the score; what is listed is saved as it was kept."""
    ann, _, sue = hall.sit()
    keeps(hall, KEPT)
    sue.click('.finished a[href="#/games"]').shows('#finished-title', 'Finished games', 'the list')
    lists(sue, NUMBERS, 'all of them, the newest first')
    sue.reads('#finished-count', 'Games found: 4').reads('#finished-list', ZOE, BOB, 'Nov 27, 2026')
    lists(looks_for(sue, player='stone'), NUMBERS[1:3], 'by a part of a name')
    lists(looks_for(sue, day='2026-11-28'), NUMBERS[:1], 'by the day')
    lists(looks_for(sue, result='1-0'), [NUMBERS[0], NUMBERS[3]], 'by the result')
    lists(looks_for(sue, player='ann', day='2026-11-27', result='0-1'), NUMBERS[1:2], 'by all three')
    lists(looks_for(sue, player='nobody'), [], 'none').reads('#finished-count', 'Games found: 0')
    sue.is_so(not sue.find('#finished-save').is_enabled(), 'there is nothing to save')
    lists(looks_for(sue, player='zoë'), NUMBERS[:1], 'whoever it is')
    sue.is_so(sue.text('#finished-names').endswith(ZOE), 'the way to the player’s page')
    sue.click('#finished-names a').shows('#finished-title', 'Games of ' + ZOE, 'it is that player’s')
    sue.shows('#finished-score', 'Score: 1 of 1 (1 won, 0 drawn, 0 lost)', 'with the score')
    sue.goes('player/' + ANN.replace(' ', '%20')).shows('#finished-score',
                                                        'Score: 1½ of 4 (1 won, 1 drawn, 2 lost)', 'of all games')
    well_on_screens(sue, 'a player’s games')
    sue.cdp('Browser.setDownloadBehavior', behavior='allow', downloadPath=hall.folder)
    path = os.path.join(hall.folder, 'games-Ann-Lee.pgn')
    lists(looks_for(sue, day='2026-11-27'), NUMBERS[1:3], 'of a day').click('#finished-save')
    wanted = ''.join(kept_pgn(*row) for row in KEPT[1:3])
    sue.until(lambda: os.path.exists(path) and open(path).read() == wanted, 'saved as they were kept')
    ann.click('#own-finished').shows('#finished-title', 'Games of ' + hall.lobby.full['ann'], 'one’s own')
    ann.reads('#finished-score', '1½ of 4')
    for person in (ann, sue):
        person.goes('games')
        lists(person, NUMBERS, 'all again')
        looks_for(person, player='stone')
        well_on_screens(person, 'games')
        person.is_quiet()


def decided_games(hall):
    """What an arbiter has decided counts in the list, in the score and on the game's page, as the comment of a kept game
    tells it, or the round's file."""
    sue = hall.sit('sue')[2]
    noted = '1. e4 e5\n{Eve Moss decided 1/2-1/2 (6.9): only a {knight) is left}\n0-1'
    keeps(hall, ((NOBODY + 3, ANN, BOB, '2026.11.27', '0-1', '6.9', noted),
                 (NOBODY + 2, BOB, ANN, '2026.11.27', '1-0', '5.1.2', '1. e4 e5 1-0')))
    states = lambda: sue.run('return [...document.querySelectorAll("#finished-list .state")].map((e) => e.textContent)')
    score = lambda words: sue.goes('player/' + ANN.replace(' ', '%20')).shows('#finished-score', words, 'the score')
    score('Score: ½ of 2 (0 won, 1 drawn, 1 lost)').is_so(states() == ['½–½', '1–0'], 'the list: %s' % states())
    lists(looks_for(sue, result='1/2-1/2'), NUMBERS[1:2], 'by what was decided')
    lists(looks_for(sue), NUMBERS[1:3], 'all again')
    sue.goes('game/%d' % (NOBODY + 3)).reads(
        '#outcome', '½–½  Draw by the arbiter’s decision', 'Eve Moss: 6.9, only a {knight) is left. The server says 0–1: ')
    told = round_told(NOBODY + 2)
    told['rounds'][1][0]['result'] = '0-1'
    serves(hall, json.dumps(told))
    score('Score: 1½ of 2 (1 won, 1 drawn, 0 lost)').is_so(states() == ['½–½', '0–1'], 'by the round: %s' % states())
    sue.goes('game/%d' % (NOBODY + 2)).reads('#outcome', '0–1  Black wins by the arbiter’s decision', 'The server says 1–0: ')
    sue.has('.player.black.won', 'who has won').is_quiet()
    serves(hall, '')


def games_not_counted(hall):
    """A game in which not both have moved, as one that was begun by mistake, counts in no score, and stands in brackets;
    one of a move by each counts."""
    sue = hall.sit('sue')[2]
    keeps(hall, ((NOBODY + 9, ANN, BOB, '2026.11.29', '1-0', '5.1.2', '1-0'),
                 (NOBODY + 8, BOB, ANN, '2026.11.29', '1-0', '6.9', '1. e4 {[%clk 0:04:59]} {a comment, Nf3 e5} 1-0'),
                 (NOBODY + 7, ANN, BOB, '2026.11.29', '1-0', '6.9', '1. O-O Nf6 1-0'), KEPT[0]))
    sue.goes('player/' + ANN.replace(' ', '%20')).shows(
        '#finished-score', 'Score: 1 of 2 (1 won, 0 drawn, 1 lost). Not counted, since not both had moved: 2', 'the score')
    scores = sue.run('return [...document.querySelectorAll("#finished-list .state")].map((e) => e.textContent)')
    sue.is_so(scores == ['(1–0)', '(1–0)', '1–0', '1–0'], 'the list: %s' % scores)
    reads_well(sue, 'a score without some').is_quiet()


def finished_in_every_language(hall):
    """The lists, a player's page and a kept game in each language, on every screen."""
    sue = hall.sit('sue')[2]
    keeps(hall, KEPT)
    for language in in_languages(sue):
        for view, css in (('games', '#finished-list .pairing'), ('game/' + NUMBERS[1], '#game-kept'),
                          ('player/' + ANN.replace(' ', '%20'), '#finished-score')):
            sue.goes(view).reload().finds(css, view + ' in ' + language)
            sue.until(lambda: 'Club' in sue.text('#game-kept') or len(sue.run(LISTED)) == 4, 'with its games')
            if view == 'games':
                looks_for(sue, player='ann').finds('#finished-names a', 'the way to a player')
            is_in(language, sue, view)


def a_kept_game(hall):
    """A game that has left the table is shown as before, with result, article, names, day and clocks, and looked at
    again; its PGN is the one that was kept. One that is nowhere is told as such."""
    number, ann, bob, sue = hall.begin(minutes='20')
    keeps(hall, KEPT)
    hall.play(FOOLS)
    sue.reads('#outcome', 'Black wins by checkmate', 'Article 5.1.1')
    kept = (int(number), ANN, BOB, '2026.11.29', '0-1', '5.1.1', MATE)
    keeps(hall, (kept, *KEPT))
    for person in (ann, bob, sue):
        person.goes('')
    hall.lobby.control('off ' + number)
    for person in (sue, ann):
        person.goes('game/' + number).reads('#outcome', '0–1', 'Black wins by checkmate', 'Article 5.1.1')
        person.until(lambda: person.moves() == ['f3', 'e5', 'g4', 'Qh4#'], 'its moves')
        person.shows('#game-white', ANN, 'White').shows('#game-black', BOB, 'Black')
        person.shows('#game-kept', 'Club <i>evening</i> · Nov 29, 2026', 'where and when')
        person.is_so([person.text('#%s .clock' % side) for side in ('near', 'far')] == ['4:51', '4:47'], 'the clocks')
        person.click('#first-move').until(lambda: person.men().get('e2') == 'white pawn', 'through its moves')
        person.click('#copy-pgn').reads('#shared', 'PGN is copied')
        person.is_so(person.clipboard() == kept_pgn(*kept), 'the PGN as it was kept: ' + person.clipboard())
        person.lacks('#drop', 'and nothing that could be done').lacks('#resign', 'of any kind')
    ann.finds('#again', 'but another game against the opponent')
    sue.click('#look-again').until(lambda: 'Qh4#' in sue.text('#again-moves'), 'looked at again')
    sue.reads('#again-who', ANN + ' – ' + BOB)
    for row in KEPT:
        sue.goes('game/%d' % row[0]).shows('#game-white', row[1], 'any other')
        sue.reads('#outcome', 'Article ' + row[5])
    sue.goes('game/%d' % (NOBODY + 9)).reads('#no-game-words', 'is not being played')
    hall.signs_in(sue, 'eve', 'an arbiter')
    sue.goes('arbiter').click('#adjourned-games > summary').reads('#adjourned-draws', 'Game %s: ' % NUMBERS[2], BOB)
    drawn = '#adjourned-draws [data-key="draw-%s"]' % NUMBERS[2]
    for look_up in (lambda: sue.click(drawn),
                    lambda: sue.type('#adjourned-form [name=number]', NUMBERS[2]).click('#adjourned-form button')):
        look_up()
        sue.reads('#adjourned-list', 'Looked up', ' w KQkq - 2 3', '5:00', 'behind the last move')
        sue.lacks(drawn, 'and not twice')
        sue.run('localStorage.clear()')
        sue.reload().click('#adjourned-games > summary').finds(drawn, 'another browser finds it too')
    sue.goes('game/' + number).finds('#game-kept', 'a kept game')
    for what, _, height, _ in on_screens(sue, 'a kept game'):
        sue.is_so(sue.box('#board .board')['bottom'] <= height, '%s: the board is in sight' % what)
        reads_well(sue, what)
    keys_go_round(sue, 'a kept game').is_quiet()


def many_kept_games(hall):
    """5,000 games, some ten megabytes: the newest are shown before all are read, and one is found at once."""
    moves = ' '.join('%d. Nf3 {[%%clk 1:00:00]} %d... Nf6 {[%%clk 1:00:00]} %d. Ng1 {[%%clk 1:00:00]} %d... Ng8 '
                     '{[%%clk 1:00:00]}' % (n, n, n + 1, n + 1) for n in range(1, 40, 2)) + ' 1/2-1/2'
    names = ['Player %s' % chr(65 + place) for place in range(26)]
    rows = [(NOBODY + 5000 - place, names[place % 26], names[(place * 7 + 1) % 26], '2026.%02d.%02d' % (
        12 - place // 450, 28 - place % 28), '1/2-1/2', '5.2.3', moves) for place in range(5000)]
    sue = hall.sit('sue')[2]
    keeps(hall, rows)
    begun = time.monotonic()
    sue.goes('games').until(lambda: len(sue.run(LISTED)) == 50, 'the newest are there')
    shown = time.monotonic() - begun
    sue.reads('#finished-count', 'Games found: 5000', patience=20)
    whole = time.monotonic() - begun
    sue.is_so(shown < 5 and whole < 15, 'in time: %.1f s and %.1f s' % (shown, whole))
    begun = time.monotonic()
    count = lambda: sue.text('#finished-count')
    looks_for(sue, player='player c').until(lambda: 'Games found: 5000' not in count(), 'looked for')
    sue.is_so(time.monotonic() - begun < 4, 'at once')
    sue.click('#finished-list .more button').until(lambda: len(sue.run(LISTED)) == 150, 'more of them')
    begun = time.monotonic()
    sue.goes('game/%d' % (NOBODY + 1)).reads('#outcome', 'Draw by agreement', patience=10)
    sue.is_so(time.monotonic() - begun < 10, 'the oldest one is found')
    sue.is_quiet()
    keeps(hall, ())


FINISHED = (finished_games, decided_games, games_not_counted, finished_in_every_language, a_kept_game, many_kept_games)
