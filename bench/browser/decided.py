"""Scenes of bench/browser/page: an arbiter's decision about a board, which the lobby puts to those of its round."""

import json
import os
import re
import time

from evening import in_languages, is_in
from lib.program import put
from page_lines import by_lines
from readable import well_on_screens
from round import round_told, serves

PAIRINGS = 'board,white,black,times,start\n1,ann,bob,20,\n2,cid,dee,300,\n3,fay,,U,\n'
# Black's knight never mates a king that has a queen alone.
KNIGHT = '8/8/4k3/8/8/2n5/8/4KQ2 w - - 0 1'
CHOSEN = '''const { result } = document.querySelector('#decide-form').elements; result.value = arguments[0];
    result.dispatchEvent(new Event('input', { bubbles: true }))'''
AS_PLAYED = '''const form = document.querySelector('#decide-form'); form.elements.result.value = 'as-played';
    form.dispatchEvent(new Event('input'))'''
# A sum, as a log's last line has one.
SUM = 'fb7bbecde876abfd2185952b538e06f413603fdea5cff2456fe908fa433cdf16'
KEPT = '''[Event "Club night"]
[Site "?"]
[Date "2026.11.27"]
[Round "1"]
[White "Cid Okonkwo"]
[Black "Dee van der Meer"]
[Result "1-0"]
[Article "5.1.2"]
[GameId "4000000077"]
[TimeControl "300"]

1. e4 e5 2. Nf3 1-0

'''


def decides(hall, number, told, **wanted):
    """It is decided: every page is told this, and the last line of the round's decisions says so."""
    hall.sue.click('#decide-it').loses('#decide-dialog', 'it is decided')
    for person in (hall.bob, hall.sue):
        person.reads('#decided-words', told)
        if not person.sees('#hide-decided'):
            person.click('#telling-opens')
        person.click('#hide-decided').loses('#decided', 'that is hidden')
    with open(os.path.join(hall.lobby.folder, 'round%d.decisions' % number), encoding='utf-8') as file:
        line = json.loads(file.readlines()[-1])
    hall.sue.is_so({name: line[name] for name in wanted} == wanted, 'which is put down: %s' % line)


def on_card(number, css):
    return '.desk-card:has(a[href="#/game/%s"]) %s' % (number, css)


def entered(hall, *lines):
    """What an arbiter enters for players; the answers."""
    return by_lines(hall, 'eve', *lines)


def paired(hall, white, black, times):
    """The number of the game of two whom an arbiter pairs."""
    return entered(hall, 'pair %s %s %s' % (white, black, times))[0].split(' ')[2]


def value(person, name):
    return person.run('return document.querySelector("#decide-form").elements[arguments[0]].value', name)


def shows_decided(hall, number, ended):
    """That a game is a draw by decision stands on its page, at the table and on its card, though the server says that
    Black has won."""
    bob, sue = hall.bob, hall.sue
    sue.shows(on_card(number, '.desk-state'), '½–½ Draw by the arbiter’s decision', 'the card says so')
    bob.goes('').shows('[data-key="look-%s"] .state' % number, '½–½', 'so does the table')
    bob.goes('game/' + number).reads('#outcome', '½–½  Draw by the arbiter’s decision', '6.9, Black cannot mate',
                                     'The server says 0–1: %s.' % ended)
    for side in ('white', 'black'):
        bob.shows('.player.%s .score' % side, '½', 'the score of ' + side)
    well_on_screens(bob, 'a game that was decided')
    # (no file tells it so far)
    bob.reload().reads('#outcome', '½–½  Draw by the arbiter’s decision', '6.9, Black cannot mate')
    sue.reload().shows(on_card(number, '.desk-state'), '½–½ Draw by the arbiter’s decision', 'the card anew')
    bob.reads('#defaulted-words', 'Board 2 of round 2, Bob', '+ –. Who does not come in time loses')
    bob.goes('').click('#hide-defaulted').loses('#defaulted', 'that is hidden')
    bob.reload().finds('#to-round', 'the page anew').lacks('#defaulted', 'and told no more')
    bob.shows('[data-key="look-%s"] .state' % number, '½–½', 'what was decided is')


def a_decision(hall):
    """The desk decides a board: of a game that ended by a flag, with a draw where the winner's men never mate, of one
    whose player has not come, which waits once the default time is over, and of one that has left the table; and takes a
    decision back. Where it is not put down, it says so."""
    _, bob, sue = hall.sit()
    lost, drawn = paired(hall, 'ann', 'bob', '20 0'), paired(hall, 'ann', 'bob', '20 0 ' + KNIGHT)
    entered(hall, 'as ann move %s 0 e2e4' % lost, 'as bob move %s 1 e7e5' % lost, 'as ann move %s 0 f1f2' % drawn,
            'as bob move %s 1 e6d6' % drawn)
    told = round_told(drawn)
    told['rounds'][1][0] |= {'white': 1, 'black': 2}
    told['rounds'][1].append({'board': 4, 'white': 3, 'black': 4, 'result': '*'})
    serves(hall, json.dumps(told))
    for number in (1, 2):
        put(os.path.join(hall.lobby.folder, 'round%d.csv' % number), PAIRINGS)
    hall.signs_in(sue, 'eve', 'an arbiter')
    sue.click('#to-arbiter').finds('#arbiter-desk', 'the desk')
    # (Bob's page calls the flag of the game at which it is, the first one)
    sue.finds('#waits-list [data-key="show-%s-flag"]' % drawn, 'a flag has fallen that nobody calls')
    sue.lacks(on_card(drawn, '[data-key^=decide-]'), 'while a game goes on the button is not there')
    entered(hall, 'as bob flag ' + drawn)
    sue.click(on_card(lost, '[data-key^=decide-]')).reads('#decide-title', 'game %s: Ann Lee – Bob' % lost)
    sue.reads('#decide-stands', 'The server says 0–1: Black wins on time.')
    sue.reads('#decide-law', 'By 6.9 it is a draw where Black cannot mate', 'Black has: king, queen, 2 rooks',
              'depends on the position').is_so(value(sue, 'result') == '', 'which the page does not know')
    sue.click('#decide-leave', on_card(drawn, '[data-key^=decide-]'))
    sue.reads('#decide-law', 'By 6.9 it is a draw: Black cannot mate', 'Black has: king, knight; White has: king, queen')
    sue.until(lambda: (value(sue, 'round'), value(sue, 'board'), value(sue, 'result')) == ('2', '1', '1/2-1/2'),
              'board and result are filled in')
    well_on_screens(sue, 'the decision')
    sue.type('#decide-form [name=board]', '2').reads('#decide-board', 'Board 2 of round 2 is of Bob', 'not of these two')
    sue.click('#decide-it').reads('#arbiter-dialog', 'about that board all the same', 'Board 2 of round 2 is of Bob')
    sue.click('#arbiter-dialog [value=no]').is_so(sue.sent('decide ') == [], 'nothing is decided about other players')
    sue.type('#decide-form [name=board]', '7').click('#decide-it')
    sue.reads('#decide-told', 'could not be put down').type('#decide-form [name=board]', '1')
    decides(hall, 2, 'The arbiter has decided board 1 of round 2, Ann Lee – Bob <b>Stone</b> & Sons: ½–½. Why: 6.9, Black '
            'cannot mate', board=1, result='1/2-1/2', white='ann', black='bob', article='6.9', arbiter='Eve Arbiter',
            reason='Black cannot mate by any legal moves')
    shows_decided(hall, drawn, 'Black wins on time')
    sue.click(on_card(drawn, '[data-key^=decide-]'))
    sue.reads('#decide-stands', '½–½ Draw by the arbiter’s decision: 6.9, Black cannot mate', 'The server says 0–1')
    sue.is_so(value(sue, 'article') == '', 'what was decided is not filled in again')
    sue.type('#decide-form [name=reason]', 'it was another board')
    sue.run(AS_PLAYED)
    decides(hall, 2, 'The arbiter has decided board 1 of round 2, Ann Lee – Bob <b>Stone</b> & Sons: as it was played. Why: '
            'it was another board', board=1, result='as-played')
    sue.shows(on_card(drawn, '.desk-state'), '0–1 Black wins on time', 'the server’s result counts again')
    bob.reload().shows('[data-key="look-%s"] .state' % drawn, '0–1', 'in a page anew too')
    here = paired(hall, 'ann', 'cid', '300 0')
    sue.click(on_card(here, '[data-key^=decide-]')).reads('#decide-stands', 'White has not made a move')
    sue.is_so(value(sue, 'result') == '+/-', 'White sits there').click('#decide-leave')
    absent = paired(hall, 'cid', 'dee', '300 0')
    sue.click(on_card(absent, '[data-key^=decide-]'))
    sue.reads('#decide-stands', 'White has not made a move; the clocks have run for 0 min.')
    sue.reads('#decide-law', 'By 6.7 who comes after the default time loses')
    sue.reads('#decide-board', 'look at the pairings')
    sue.is_so(value(sue, 'reason') == 'neither player came in time', 'neither is there')
    sue.is_so(value(sue, 'result') == '-/-', 'nobody has won')
    sue.reads('#decide-told', 'Fill in the board').click('#decide-leave')
    goes_on = paired(hall, 'cid', 'dee', '300 0 rnbqkbnr/pppp1ppp/8/4p3/4P3/8/PPPP1PPP/RNBQKBNR w KQkq - 0 2')
    sue.click(on_card(goes_on, '[data-key^=decide-]'))
    sue.is_so(value(sue, 'result') == '0-0', 'a game that goes on from a position was played').click('#decide-leave')
    entered(hall, 'as cid resign ' + goes_on)
    fallen = paired(hall, 'cid', 'dee', '1 0')
    sue.finds('#waits-list [data-key="show-%s-flag"]' % fallen, 'another flag has fallen')
    sue.lacks('.wait.late', 'nothing waits').type('#default-time', '1')
    sue.until(lambda: sue.sent('pgn ' + fallen), 'its times are asked for')
    time.sleep(0.5)
    sue.run('const now = performance.now.bind(performance); performance.now = () => now() + 61000')
    sue.reads('#waits-list', 'Neither player has come within the default time, 1 min')
    sue.reads('#waits-list', 'Black has not come within the default time, 1 min')
    sue.finds('#waits-list [data-key="show-%s-late"]' % fallen, 'who has not come is told behind a flag too')
    entered(hall, 'as dee flag ' + fallen)
    bob.takes(hall.lobby.tokens['cid']).click('#other-yes')
    bob.shows('#who-name', hall.lobby.full['cid'], 'who comes now')
    sue.reads('#waits-list', 'Black has come after the default time, 1 min')
    entered(hall, 'as ann resign ' + here)
    sue.reload().finds('.wait.late', 'the time is kept', patience=90)
    sue.click('#waits-list [data-key="show-%s-late"]' % absent)
    sue.until(lambda: re.search('the clocks have run for [1-9]', sue.text('#decide-stands')), 'the time is the true one')
    sue.is_so(value(sue, 'result') == '+/-', 'White has come').type('#decide-form [name=round]', '1')
    sue.type('#decide-form [name=board]', '2').type('#decide-form [name=reason]', 'Ду')
    sue.reads('#decide-told', 'These signs cannot be sent: Ду.').forget_sent().click('#decide-it')
    sue.is_so(sue.sent('decide ') == [], 'nothing is decided then')
    sue.type('#decide-form [name=reason]', 'Dee’s train, "late", cost $1')
    sue.shows('#decide-told', 'It is told so: Dee\'s train, "late", cost $1', 'how it reads')
    decides(hall, 1, 'The arbiter has decided board 2 of round 1, Cid Okonkwo – Dee van der Meer: + –. Why: 6.7, Dee\'s '
            'train, "late", cost $1', board=2, result='+/-', article='6.7', reason='Dee\'s train, "late", cost $1')
    sue.loses('.wait.late', 'the game has ended').reads(on_card(absent, '.desk-state'), 'White wins by resignation')
    runs = paired(hall, 'ann', 'dee', '300 0')
    entered(hall, 'as ann move %s 0 e2e4' % runs, 'as dee move %s 1 e7e5' % runs)
    sue.click('#decide-a-result summary')
    put(hall.lobby.kept, KEPT)
    for number, told in ((runs, 'Game %s goes on' % runs), ('4000000001', 'There is no game of this number.')):
        sue.type('#decide-find [name=number]', number).click('#decide-find button').reads('#decide-found', told)
    sue.type('#decide-board-find [name=round]', '1').type('#decide-board-find [name=board]', '9')
    sue.click('#decide-board-find button').reads('#decide-found', 'No such board was told')
    sue.type('#decide-board-find [name=board]', '3').click('#decide-board-find button')
    sue.reads('#decide-title', 'board 3 of round 1: Wilhelmina Featherstonehaugh-Cholmondeley').shows('#decide-stands', 'bye 1', 'what it is worth')
    sue.run(CHOSEN, 'H')
    sue.type('#decide-form [name=reason]', 'asked for before the round')
    decides(hall, 1, 'The arbiter has decided board 3 of round 1, Wilhelmina Featherstonehaugh-Cholmondeley: bye ½. Why: '
            'asked for before the round', board=3, result='H', white='fay', black='')
    sue.reads('#decide-boards', 'Round 2, board 4: ').click('#decide-boards button')
    sue.reads('#decide-title', 'board 4 of round 2')
    for result, why in (('0-1', 'played elsewhere'), ('-/+', 'White did not come in time'), ('as-played', '')):
        sue.run(CHOSEN, result)
        sue.is_so(value(sue, 'reason') == why, 'the reason goes with the result')
    sue.click('#decide-leave')
    sue.type('#decide-board-find [name=board]', '2').click('#decide-board-find button')
    sue.reads('#decide-title', 'board 2 of round 1: Cid Okonkwo – Dee').reads('#decide-stands', 'No game is known')
    sue.run('''document.querySelector('#decide-form').elements.result.value = '0-1' ''')
    sue.type('#decide-form [name=reason]', 'as both signed it')
    decides(hall, 1, 'The arbiter has decided board 2 of round 1, Cid Okonkwo – Dee van der Meer: 0–1. Why: as both signed '
            'it', board=2, result='0-1')
    sue.type('#decide-find [name=number]', '4000000077').click('#decide-find button')
    sue.reads('#decide-stands', 'The server says 1–0: White wins by resignation.')
    sue.is_so(value(sue, 'result') == '', 'nothing is likely there').click('#decide-leave')
    sue.run('localStorage.removeItem("default-time")')
    put(hall.lobby.kept, '')
    serves(hall, '')


def laws_told(number, **found):
    """A round's file in which the Laws ask this of a game, and that tells how far the log goes."""
    told = round_told(number)
    told['rounds'][1][0] |= {'result': '0-1', 'law': {'article': '5.1.2', 'side': 'black', 'why': '', 'line': ''} | found}
    return told | {'log': {'lines': 2406, 'sum': SUM, 'at': 1764160000123}}


def the_laws_at_the_desk(hall):
    """The desk shows what the Laws say of a result beside it: a draw by them waits, and the decision is filled in; moves
    that mate stand there, and nothing waits; what was not found out waits too. It shows how far the log goes, with the
    sum of its last line, and what is wrong with the round's files."""
    sue = hall.sit()[2]
    number = paired(hall, 'ann', 'bob', '300 0')
    entered(hall, 'as ann move %s 0 e2e4' % number, 'as bob move %s 1 e7e5' % number, 'as ann resign ' + number)
    serves(hall, json.dumps(laws_told(number, found='cannot', why='positions')))
    hall.signs_in(sue, 'eve', 'an arbiter')
    draw = 'By the Laws a draw (5.1.2): Black cannot mate by any legal moves'
    sue.click('#to-arbiter').reads(on_card(number, '.desk-law'), draw).reads('#waits-list', draw)
    sue.reads('#log-lines', 'Lines of the log: 2406').shows('#log-sum', ' '.join(re.findall('....', SUM)), 'by fours')
    well_on_screens(sue, 'what the Laws say')
    sue.click('#waits-list [data-key="show-%s-law"]' % number).reads('#decide-title', 'game %s: Ann Lee' % number)
    sue.reads('#decide-law', draw, 'Each position that can still come was looked at.')
    sue.until(lambda: [value(sue, name) for name in ('round', 'board', 'result', 'article', 'reason')] == [
        '2', '1', '1/2-1/2', '5.1.2', 'Black cannot mate by any legal moves'], 'the decision is filled in')
    sue.click('#decide-leave')
    serves(hall, json.dumps(laws_told(number, found='mates', line='Nf6 Kh1') | {'wrong': ['round2.csv: <b>', 'and more'],
        'log': {'lines': 2406, 'sum': SUM, 'at': 1764160000123, 'broken': 17}}))
    sue.reload().reads(on_card(number, '.desk-law'), 'Black can still mate (5.1.2), as by Nf6 Kh1')
    sue.lacks('#waits-list .law', 'nothing waits').reads('#log-broken', 'Line 17 of the log does not fit')
    sue.reads('#round-wrong', 'The club’s machine says of the round’s files: round2.csv: <b>; and more')
    sue.click(on_card(number, '[data-key^=decide-]')).reads('#decide-law', 'Black can still mate')
    sue.is_so(value(sue, 'result') == '', 'nothing is filled in').click('#decide-leave')
    serves(hall, json.dumps(laws_told(number, found='unknown')))
    sue.reload().reads(on_card(number, '.desk-law'), 'was not found out').reads('#waits-list', 'was not found out')
    sue.is_quiet()
    for language in in_languages(sue):
        sue.goes('arbiter').reload().finds('#log-sum', 'the desk in ' + language)
        is_in(language, sue, 'what the Laws say')
    serves(hall, '')


DECIDED = (a_decision, the_laws_at_the_desk)
