"""Scenes of bench/browser/page: who has no link watches by files that everybody may read. A small server of the bench
has them beside the page, so that each moment of a game can be made, and the server be gone."""

import contextlib
import http.server
import json
import os
import threading
import time

from evening import ELSEWHERE, LOOKS, in_languages, is_in
from finished import kept_pgn
from lib.program import PAGE
from readable import SIDEWAYS, on_screens, reads_well, well_on_screens
from round import round_told

START = 'rnbqkbnr/pppppppp/8/8/8/8/PPPPPPPP/RNBQKBNR w KQkq - 0 1'
MOVES = (('e4', 'e2e4', 'rnbqkbnr/pppppppp/8/8/4P3/8/PPPP1PPP/RNBQKBNR b KQkq - 0 1'),
         ('e5', 'e7e5', 'rnbqkbnr/pppp1ppp/8/4p3/4P3/8/PPPP1PPP/RNBQKBNR w KQkq - 0 2'),
         ('Bc4', 'f1c4', 'rnbqkbnr/pppp1ppp/8/4p3/2B1P3/8/PPPP1PPP/RNBQK1NR b KQkq - 1 2'),
         ('Nc6', 'b8c6', 'r1bqkbnr/pppp1ppp/2n5/4p3/2B1P3/8/PPPP1PPP/RNBQK1NR w KQkq - 2 3'),
         ('Qh5', 'd1h5', 'r1bqkbnr/pppp1ppp/2n5/4p2Q/2B1P3/8/PPPP1PPP/RNB1K1NR b KQkq - 3 3'),
         ('Nf6', 'g8f6', 'r1bqkb1r/pppp1ppp/2n2n2/4p2Q/2B1P3/8/PPPP1PPP/RNB1K1NR w KQkq - 4 4'),
         ('Qxf7#', 'h5f7', 'r1bqkb1r/pppp1Qpp/2n2n2/4p3/2B1P3/8/PPPP1PPP/RNB1K1NR b KQkq - 0 4'))
SANS = [san for san, _, _ in MOVES]
FULL = {'ann': 'Ann Lee', 'bob': 'Bob <b>Stone</b> & Sons', 'cid': 'Cid Okonkwo', 'dee': 'Dee van der Meer'}
TITLES, RATINGS = {'ann': 'WIM', 'dee': 'FM'}, {'ann': '2103', 'bob': '1987'}
TYPES = {'html': 'text/html', 'css': 'text/css', 'js': 'text/javascript', 'svg': 'image/svg+xml'}
POLICY = ("default-src 'none'; script-src 'self'; style-src 'self'; img-src 'self'; connect-src 'self'; "
          "base-uri 'none'; form-action 'none'; frame-ancestors 'none'")
CLOCK, SOCKETS = '.player.%s .clock', 'return window.tries.length'


class Shown:
    """The page, and beside it files that are made up: each is served by a tag of its bytes."""

    def __init__(self):
        self.games, self.files, self.asked = {}, {}, []
        self.said = {'stopped': '', 'announced': ''}
        self.is_away, self.ahead, self.later, self.slow = False, 0, 0, 0
        shown = self

        class Answers(http.server.BaseHTTPRequestHandler):
            protocol_version = 'HTTP/1.1'

            def do_GET(self):
                shown.answer(self)

            def date_time_string(self, timestamp=None):
                return super().date_time_string(time.time() + shown.ahead)

            def log_message(self, *_):
                pass

        self.server = http.server.ThreadingHTTPServer(('127.0.0.1', 0), Answers)
        self.server.daemon_threads = True
        self.address = 'http://127.0.0.1:%d/' % self.server.server_port
        threading.Thread(target=self.server.serve_forever, daemon=True).start()

    def close(self):
        self.server.shutdown()
        self.server.server_close()

    def answer(self, request):
        path, known = request.path, request.headers.get('If-None-Match')
        body = self.body(path)
        tag = '"%d"' % hash(body)
        is_later = self.later and path.startswith('/games')
        status = 503 if is_later else 404 if body is None else 304 if known == tag else 200
        self.asked.append((time.monotonic(), path, 'gone' if self.is_away else status))
        if self.is_away:
            request.close_connection = True
            return
        if path.startswith('/games'):
            time.sleep(self.slow if path == '/games.json' else 3 * self.slow)
        request.send_response(status)
        request.send_header('Content-Type', TYPES.get(path.rsplit('.', 1)[-1], 'text/html' if '.' not in path
                                                      else 'application/json'))
        request.send_header('Content-Security-Policy', POLICY)
        request.send_header('ETag', tag)
        if is_later:
            request.send_header('Retry-After', str(self.later))
        request.send_header('Content-Length', str(len(body or b'') if status == 200 else 0))
        request.end_headers()
        if status == 200:
            request.wfile.write(body)

    def body(self, path):
        if path in self.files:
            return self.files[path].encode()
        is_board = path.startswith('/board') and '.' not in path
        name = 'index.html' if path == '/' else 'board.html' if is_board else path[1:]
        with contextlib.suppress(OSError):
            with open(os.path.join(PAGE, os.path.basename(name)), 'rb') as file:
                return file.read() if '/' not in name else None
        return None

    def host(self):
        """The host's time in milliseconds."""
        return int(1000 * (time.time() + self.ahead))

    def has(self, number, plies, white='ann', black='bob', **other):
        """A game stands so: by its first moves, and what is said besides."""
        side = 'white' if plies % 2 == 0 else 'black'
        names = [FULL.get(name, 'Zoe') for name in (white, black)]
        stands = {'game': number, 'white': white, 'black': black, 'names': names, 'toMove': side,
                  'running': side, 'clocks': [300000, 300000], 'check': plies == 7, 'offer': '-', 'result': '*',
                  'article': '-', 'at': self.host(), 'times': '300+2', 'plies': plies,
                  'titles': [TITLES.get(name, '') for name in (white, black)],
                  'ratings': [RATINGS.get(name, '') for name in (white, black)], **other}
        if stands['result'] != '*':
            stands['running'] = '-'
        self.games[number] = stands
        self.put()

    def says(self, stopped='', announced=''):
        """An arbiter has everybody told this."""
        self.said = {'stopped': stopped, 'announced': announced}
        for stands in self.games.values():
            side = 'white' if stands['plies'] % 2 == 0 else 'black'
            stands['running'] = '-' if stopped or stands['result'] != '*' else side
        self.put()

    def put(self):
        """Puts the files in their place."""
        for number, stands in self.games.items():
            moves = [[*move, 298000 - 1000 * ply] for ply, move in enumerate(MOVES[:stands['plies']])]
            row = {name: value for name, value in stands.items() if name not in ('plies', 'times')}
            tags = [['Round', '3'], ['Board', '2']] + [
                [colour + tag, value] for tag, values in (('Title', stands['titles']), ('Elo', stands['ratings']))
                for colour, value in zip(('White', 'Black'), values) if value]
            told = {'tags': tags, 'times': stands['times'], 'start': START, 'moves': moves}
            self.files['/games/%d.json' % number] = json.dumps({**self.said, **row, **told})
        rows = []
        for stands in self.games.values():
            san, text, fen = MOVES[stands['plies'] - 1] if stands['plies'] else ('-', '-', START)
            rows.append({**stands, 'last': san, 'lastMove': text, 'fen': fen})
        self.files['/games.json'] = json.dumps({'at': self.host(), **self.said, 'games': rows})

    def of(self, path, since=0.0):
        """When this was asked for, and the answers."""
        return [(at, status) for at, one, status in self.asked if one == path and at >= since]


def watching(scene):
    """A scene of Sue's before such a server."""
    def played(hall):
        shown = Shown()
        try:
            hall.sue.media().screen(1280, 800)
            scene(hall.sue, shown)
        finally:
            hall.sue.go('about:blank')
            shown.close()
    played.__name__, played.__doc__ = scene.__name__, scene.__doc__
    return played


def comes(sue, shown, path=''):
    """She comes without a link, to this part of the page."""
    sue.board = '#board'
    sue.go('about:blank').go(shown.address + path)
    return sue


def is_quiet(sue, *but):
    """The console says nothing, but that a file is not there, or that it was answered so."""
    complaints = [one for one in sue.complaints() if not any(status in one for status in ('404', *but))]
    sue.is_so(complaints == [], 'the console is quiet: %s' % complaints)


def seconds(text):
    minutes, rest = text.split(':')
    return 60 * int(minutes) + float(rest)


@watching
def a_game_by_files(sue, shown):
    """A game to its end without a socket: moves, clocks that run on by the host's time, an offer, the result, what was
    taken; looked at again; its PGN."""
    shown.ahead = 3600
    shown.has(7, 1, clocks=[300000, 200000], at=shown.host() - 60000)
    comes(sue, shown, '#/game/7').reads('#game-title', 'Game 7')
    sue.moved(['e4'], 'the moves so far')
    sue.is_so(all(FULL[name] in sue.shown('.game-view') for name in ('ann', 'bob')), 'who plays, as text')
    ranks = [sue.text('.player.%s .rank' % side) for side in ('white', 'black')]
    sue.is_so(ranks == ['WIM 2103', '1987'], 'with titles and ratings: %s' % ranks)
    clock = lambda: seconds(sue.text(CLOCK % 'black'))
    sue.until(lambda: 120 < clock() < 141, 'the clock goes on from the moment of the file: %s' % clock())
    first = clock()
    sue.until(lambda: clock() < first - 1, 'and is seen to run')
    sue.is_so(sue.text(CLOCK % 'white') == '5:00', 'the other stands')
    begun = time.monotonic()
    shown.has(7, 2, clocks=[300000, 150000])
    sue.moved(SANS[:2], 'a move is seen')
    sue.is_so(time.monotonic() - begun < 6, 'soon: %.1f s' % (time.monotonic() - begun))
    sue.is_so(sue.lit('.last') == {'e7', 'e5'} and 'Black: e5' in sue.said(), 'it is marked and said')
    shown.has(7, 2, clocks=[300000, 150000], offer='black')
    sue.reads('#note', FULL['bob'] + ' offers a draw')
    shown.has(7, 2, clocks=[300000, 150000])
    sue.reads('#note', FULL['ann'] + ' declines the draw')
    shown.has(7, 5)
    sue.moved(SANS[:5], 'several moves at once')
    sue.is_so(sue.men().get('h5') == 'white queen', 'and where they led')
    shown.says(stopped='the fire alarm')
    sue.reads('#clocks-stopped', 'Clocks stopped by the arbiter: the fire alarm')
    stood = clock()
    time.sleep(1.5)
    sue.is_so(clock() == stood, 'the clocks stand')
    shown.says()
    sue.loses('#clocks-stopped', 'and run again').until(lambda: clock() < stood, 'which is seen')
    shown.has(7, 6, offer='both')
    sue.reads('#note', 'offers a draw')
    shown.has(7, 7, result='1-0', article='5.1.1')
    sue.reads('#outcome', 'White wins by checkmate', 'Article 5.1.1').moved(SANS, 'to the end')
    sue.is_so(sue.lit('.check') == {'e8'}, 'the mated king is marked')
    sue.is_so('White wins by checkmate.' in sue.said(), 'the end is said')
    sue.is_so(len(sue.driver.find_elements('css selector', '.player.white .taken svg, .player.white .taken img')) > 0
              or '+1' in sue.text('.player.white .taken'), 'what was taken: ' + sue.text('.player.white .taken'))
    sue.click('#copy-pgn').reads('#shared', 'PGN is copied')
    pgn = sue.clipboard()
    sue.is_so('[White "Ann Lee"]' in pgn and '1. e4 {[%clk 0:04:58]}' in pgn and '[Board "2"]' in pgn
              and '[TimeControl "300+2"]' in pgn and pgn.rstrip().endswith('1-0'), 'its PGN: ' + pgn)
    sue.click('#look-again').until(lambda: 'Qxf7#' in sue.text('#again-moves'), 'it is looked at again')
    sue.goes('game/7').reads('#outcome', 'White wins by checkmate')
    sue.is_so(sue.run(SOCKETS) == 0 and shown.of('/ws') == [], 'no socket was opened')
    is_quiet(sue)


# From now on each text in the place of a game is noted.
GONE = """window.gone = []; new MutationObserver(() => { const place = document.querySelector('#no-game');
  if (place.checkVisibility()) gone.push(place.textContent); }).observe(document.body, { attributes: true, subtree: true,
  childList: true });"""


@watching
def the_hall_by_files(sue, shown):
    """The table and the hall read one file for all games, every two seconds; games that begin, end and go are told."""
    shown.has(7, 2)
    shown.has(8, 1, 'cid', 'dee')
    comes(sue, shown).shows('#running-count', '2', 'two games run')
    sue.is_so('300' not in sue.text('#running-list') and '5+2' in sue.text('#running-list'), 'with their times')
    ranks = 'return [...document.querySelectorAll("%s .rank")].map((e) => e.textContent.trim()).sort()'
    sue.is_so(sue.run(ranks % '#running-list') == ['', '1987', 'FM', 'WIM 2103'], 'with titles and ratings')
    sue.lacks('#waiting-games', 'nobody is told of games that wait')
    sue.has('#only-watching', 'one watches').lacks('#lost', 'nothing is lost')
    shown.has(8, 7, 'cid', 'dee', result='1-0', article='5.1.1')
    shown.has(9, 0, 'cid', 'dee')
    shown.has(6, 7, '-', '-', clocks=[None, None], result='1-0', article='5.1.1')
    sue.shows('#over-count', '1', 'one has ended').shows('#running-count', '2', 'another has begun')
    sue.goes('hall').until(lambda: sue.run('return document.querySelectorAll(".card").length') == 2, 'two boards')
    sue.is_so('WIM 2103' in sue.run(ranks % '#hall-boards'), 'with titles and ratings')
    sue.until(lambda: sorted(sue.run('return [...document.querySelectorAll(".card-last")].map((e) => e.textContent)'))
              == ['', 'e5'], 'with their last moves')
    for said in ((), ('a lamp fell', 'The next round begins at 20:00')):
        shown.says(*said)
        sue.until(lambda: sue.sees('#announced') == bool(said), 'what is told above')
        for width, height in ((1280, 800), (1024, 768)):
            sue.screen(width, height)
            sue.until(lambda: sue.box('.hall-tools')['bottom'] <= height, 'what is below the boards is in sight')
    shown.says()
    sue.screen(1280, 800)
    shown.has(7, 3)
    sue.until(lambda: 'Bc4' in sue.text('#hall-boards'), 'a move in the hall')
    sue.run(GONE)
    shown.slow, asked = 1, len(shown.of('/games.json'))
    sue.until(lambda: len(shown.of('/games.json')) > asked, 'the table is asked for').goes('game/7')
    sue.moved(SANS[:3], 'who goes to a game meanwhile sees it')
    time.sleep(2.5)
    sue.is_so(sue.run('return gone') == [], 'and no word that it is gone: %s' % sue.run('return gone'))
    shown.slow = 0
    sue.goes('hall').finds('.card', 'the hall')
    shown.has(7, 3, result='0-1', article='5.1.2')
    sue.until(lambda: '0–1 by resignation' in sue.text('#hall-boards'), 'an end in the hall')
    begun = time.monotonic()
    time.sleep(7)
    asked = [(path, status) for at, path, status in shown.asked if at >= begun and 'game' in path]
    sue.is_so(set(asked) <= {('/games.json', 304)} and 2 <= len(asked) <= 5, 'one file, every two seconds: %s' % asked)
    sue.is_so(sue.run(SOCKETS) == 0, 'no socket was opened')
    is_quiet(sue)


LAST = 'return [...document.querySelectorAll("#over-list .pairing")].map((e) => e.hash.split("/")[2])'
STATE = 'return document.querySelector(`#over-list a[href="#/game/${arguments[0]}"] .state`).textContent'


def decided(**results):
    """A round's file by which the games of these two boards have these results."""
    told = round_told(8)
    told['rounds'][0][0] |= {'game': 7, 'result': results.get('first', '*')}
    told['rounds'][1][0]['result'] = results.get('second', '*')
    return json.dumps(told)


@watching
def the_last_games(sue, shown):
    """The first page has the ten games that ended last: those on the table, and behind them those that have left it, the
    newest first, with what was decided about them; by who is looked for; and a game that leaves the table stays there."""
    noted = '1. e4 e5\n{Eve Moss decided 1/2-1/2 (6.9)}\n0-1'
    kept = [kept_pgn(number, 'Zoë Kept', FULL['bob'], '2026.11.27', '0-1', '6.9',
                     noted if number == 50 else '1. e4 e5 0-1') for number in range(51, 39, -1)]
    shown.files['/kept.pgn'] = ''.join(kept)
    shown.has(8, 7, 'cid', 'dee', result='1-0', article='5.1.1')
    shown.has(9, 7, 'ann', 'dee', result='1-0', article='5.1.1')
    comes(sue, shown).until(lambda: sue.run(LAST) == ['9', '8', *map(str, range(51, 43, -1))], 'the last ten')
    states = [sue.run(STATE, number) for number in (8, 51, 50)]
    sue.is_so(states == ['1–0', '0–1', '½–½'], 'what came of them: %s' % states)
    sue.reads('#over-list', 'Zoë Kept', FULL['bob'], 'Nov 27, 2026')
    sue.is_so(sue.text('#over-count') == '', 'no number, since these are not all')
    sue.is_so(sue.driver.title == 'Games · Chess club', 'the title')
    well_on_screens(sue, 'the last games')
    for told, *_ in on_screens(sue, 'the last games', SIDEWAYS):
        reads_well(sue, told)
    sue.type('#find', 'okon').until(lambda: sue.run(LAST) == ['8'], 'by a part of a name')
    sue.type('#find', 'zoë').until(lambda: sue.run(LAST) == [*map(str, range(51, 41, -1))], 'of the kept ones')
    sue.type('#find', '').run('document.querySelector("#find").dispatchEvent(new Event("input"))')
    kept.insert(0, kept_pgn(9, FULL['ann'], FULL['dee'], '2026.11.28', '1-0', '5.1.1', '1. e4 e5 1-0'))
    shown.files['/kept.pgn'] = ''.join(kept)
    shown.games.pop(9)
    shown.put()
    sue.until(lambda: sue.run(LAST) == ['8', '9', *map(str, range(51, 43, -1))], 'one has left the table')
    sue.click('#over-list a[href="#/game/51"]').reads('#game-title', 'Game 51').goes('')
    sue.click('.finished a[href="#/games"]').shows('#finished-title', 'Finished games', 'the way to all')
    is_quiet(sue)


@watching
def decisions_by_files(sue, shown):
    """What an arbiter has decided comes to who looks on, on the first page, in the hall, and on a screen of one game."""
    shown.has(7, 2)
    shown.has(8, 7, 'cid', 'dee', result='1-0', article='5.1.1')
    comes(sue, shown).until(lambda: sue.run(STATE, 8) == '1–0', 'what the server says')
    shown.files['/round.json'] = decided(first='1/2-1/2', second='1/2-1/2')
    sue.until(lambda: sue.run(STATE, 8) == '½–½', 'and what was decided', 90)
    sue.goes('hall').finds('.card .board', 'the hall')
    shown.has(7, 2, result='0-1', article='6.9')
    card = 'return document.querySelector(".card-last").textContent'
    sue.until(lambda: sue.run(card) == '½–½ Draw by the arbiter’s decision', 'what was decided, in the hall')
    sue.go(shown.address + 'board/7')
    sue.shows('.screen-outcome', '½–½ Draw by the arbiter’s decision', 'on a screen of one game')
    shown.files['/round.json'] = decided(first='1-0')
    sue.shows('.screen-outcome', '1–0 White wins by the arbiter’s decision', 'decided anew', 90)
    reads_well(sue, 'a screen')
    is_quiet(sue)


@watching
def the_files_away(sue, shown):
    """A server that answers no more is told, asked each five seconds, and followed again once it is back."""
    shown.has(7, 1)
    comes(sue, shown, '#/game/7').moved(['e4'], 'the game')
    shown.is_away = True
    sue.reads('#lost', 'The lobby does not answer').moved(['e4'], 'the game stays in sight')
    time.sleep(4)
    begun = time.monotonic()
    time.sleep(11)
    asked = shown.of('/games.json', begun)
    sue.is_so(1 <= len(asked) <= 4, 'it is asked each five seconds: %d' % len(asked))
    shown.is_away = False
    shown.has(7, 4)
    sue.loses('#lost', 'it is back', 15).moved(SANS[:4], 'and the game goes on')
    shown.is_away = True
    sue.finds('#lost', 'away again')
    shown.is_away = False
    sue.click('#try-now').loses('#lost', 'asked at once', 4)
    shown.has(7, 5)
    sue.moved(SANS[:5], 'and followed')
    sue.is_so(sue.run(SOCKETS) == 0, 'no socket was opened')
    is_quiet(sue)


@watching
def more_than_are_served(sue, shown):
    """Who is told to come later says so, and asks nothing until then."""
    shown.has(7, 1)
    comes(sue, shown, '#/game/7').moved(['e4'], 'the game')
    shown.later = 9
    sue.reads('#lost', 'The lobby does not answer').moved(['e4'], 'the game stays in sight')
    time.sleep(1)
    begun = time.monotonic()
    time.sleep(5)
    asked = shown.of('/games.json', begun) + shown.of('/games/7.json', begun)
    sue.is_so(not asked, 'nothing is asked meanwhile: %s' % asked)
    shown.later = 0
    shown.has(7, 4)
    sue.loses('#lost', 'it is back', 15).moved(SANS[:4], 'and the game goes on')
    is_quiet(sue, '503')


@watching
def a_hidden_tab(sue, shown):
    """A page that nobody sees asks for nothing, and looks at once when it is seen again."""
    shown.has(7, 1)
    comes(sue, shown, '#/game/7').moved(['e4'], 'the game')
    sue.run(ELSEWHERE)
    sue.run(LOOKS, True)
    time.sleep(1.5)
    begun = time.monotonic()
    shown.has(7, 2)
    time.sleep(4)
    sue.is_so([path for at, path, _ in shown.asked if at >= begun and 'game' in path] == [], 'nothing is asked for')
    sue.is_so(sue.moves() == ['e4'], 'nor shown')
    sue.run(LOOKS, False)
    sue.moved(SANS[:2], 'seen again, it is up to date')
    begun = time.monotonic()
    time.sleep(4)
    asked = shown.of('/games/7.json', begun)
    sue.is_so(2 <= len(asked) <= 6 and {status for _, status in asked} == {304}, 'each second, by its tag: %s' % asked)
    is_quiet(sue)


@watching
def a_game_not_there(sue, shown):
    """Where no files are made that is said; a game that is not there is looked for among those that were kept, and
    shown as soon as it begins; who signs in has a socket, and who forgets the link none."""
    shown.files['/kept.pgn'] = kept_pgn(5, 'Ann Lee', 'Zoe', '2026.11.28', '1-0', '5.1.2', '1. d4 d5 2. c4 1-0')
    comes(sue, shown).reads('#no-broadcast', 'chess-club live', 'only to who has a personal link')
    sue.goes('game/5').reads('#outcome', 'White wins by resignation').moved(['d4', 'd5', 'c4'], 'a game that was kept')
    sue.goes('game/9').reads('#no-game-words', 'Game 9 is not being played. It is shown here as soon as it begins.')
    reads_well(sue, 'a game that has not begun')
    shown.has(9, 0)
    sue.loses('#no-broadcast', 'files are made', 12).reads('#game-title', 'Game 9').reads('#outcome', 'White to move')
    shown.has(9, 1)
    sue.moved(['e4'], 'the game that has begun')
    sue.shows('#game-times', '5+2', 'its times').is_so(sue.text('#note') == '', 'and not that it is not there')
    sue.is_so(sue.run(SOCKETS) == 0, 'no socket so far')
    sue.takes('0' * 32).until(lambda: sue.run(SOCKETS) > 0, 'who has a link has one')
    sue.finds('#lost', 'which is not there').click('#who summary', '#forget-link')
    sue.loses('#lost', 'and without the link it is as before').goes('game/9').moved(['e4'], 'the game')
    tried = sue.run(SOCKETS)
    shown.has(9, 2)
    sue.moved(SANS[:2], 'goes on')
    time.sleep(2)
    sue.is_so(sue.run(SOCKETS) == tried, 'no socket is tried any more')
    is_quiet(sue)


@watching
def files_on_a_phone(sue, shown):
    """A game, the table and the hall on a phone, and in each language."""
    shown.has(7, 4, offer='black')
    comes(sue, shown, '#/game/7').moved(SANS[:4], 'the game')
    for view in ('game/7', '', 'hall'):
        sue.goes(view).screen(360, 740, 2, True)
        time.sleep(0.5)
        sue.is_so(sue.width() <= 360, '%s is not scrolled sideways: %d' % (view, sue.width()))
        reads_well(sue, view or 'the table')
    sue.screen(1280, 800)
    for language in in_languages(sue):
        sue.goes('game/12').reload().finds('#no-game-words', 'a game that is not there, in ' + language)
        is_in(language, sue, 'no game')


@watching
def a_screen_by_files(sue, shown):
    """A projector's screens without a socket: a game that has not begun, its moves and end; the server away and back;
    all that run."""
    sue.screen(1920, 1080)
    last = lambda: sue.text('.card-last')
    comes(sue, shown, 'board/7').reads('#no-broadcast', 'games are shown only to who has a personal link')
    shown.has(8, 1)
    sue.loses('#no-broadcast', 'files are made', 12).reads('#hall-none', 'Game 7 is not on the table')
    shown.has(7, 4)
    sue.until(lambda: last() == 'Nc6', 'a game that begins', 15)
    sue.is_so(FULL['ann'] in sue.text('.card-player.white') and sue.width() <= 1920, 'with who plays')
    shown.has(7, 5)
    sue.until(lambda: last() == 'Qh5', 'a move').reads('.screen-moves', 'Qh5')
    shown.says(announced='The next round begins at 20:00')
    sue.reads('#announced', 'The arbiter announces: The next round begins at 20:00')
    shown.says('a lamp fell', 'The next round begins at 20:00')
    sue.reads('#clocks-stopped', 'Clocks stopped by the arbiter: a lamp fell').finds('#announced', 'beside it')
    reads_well(sue, 'a screen with both')
    shown.says()
    sue.loses('#announced', 'nothing is announced any more').loses('#clocks-stopped', 'and the clocks run')
    shown.is_away = True
    sue.reads('#lost', 'The lobby does not answer')
    shown.is_away = False
    shown.has(7, 6)
    sue.loses('#lost', 'back by itself', 15).until(lambda: last() == 'Nf6', 'and the game goes on')
    shown.has(7, 7, result='1-0', article='5.1.1')
    sue.reads('.screen-outcome', '1–0 by checkmate')
    sue.go(shown.address + 'boards').until(lambda: sue.text('.card-last') == 'e4', 'all that run')
    sue.is_so(sue.run(SOCKETS) == 0 and shown.of('/ws') == [], 'no socket was opened')
    is_quiet(sue)


@watching
def an_announcement_by_files(sue, shown):
    """What an arbiter announces comes to who has no link as to players, in each view: at a game, at the table, among
    finished games, at a game that is over or not there; it is hidden there, and goes."""
    shown.has(7, 1)
    shown.has(8, 7, 'cid', 'dee', result='1-0', article='5.1.1')
    comes(sue, shown, '#/game/7').moved(['e4'], 'the game')
    sue.lacks('#announced', 'nothing is announced')
    for view in ('game/7', 'game/8', '', 'hall', 'games', 'game/9', 'again'):
        text = 'Lunch is served (%s)' % (view or 'table')
        sue.goes(view)
        shown.says(announced=text)
        sue.until(lambda: sue.text('#announced-words') == 'The arbiter announces: ' + text, 'announced at ' + view, 15)
    sue.goes('game/7').click('#hide-announced').lacks('#announced', 'it is hidden here')
    shown.says(announced='Lunch is over')
    sue.reads('#announced', 'Lunch is over')
    reads_well(sue, 'an announcement')
    shown.says()
    sue.loses('#announced', 'nothing is announced any more', 10)
    sue.is_so(sue.run(SOCKETS) == 0, 'no socket was opened')
    is_quiet(sue)


WATCHING = (a_game_by_files, the_hall_by_files, the_last_games, decisions_by_files, an_announcement_by_files,
            the_files_away, more_than_are_served, a_hidden_tab, a_game_not_there, files_on_a_phone, a_screen_by_files)
