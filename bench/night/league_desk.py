"""The arbiter of a league's night, who says what the desk sends for each button (page/README.md, "The arbiter's
desk")."""
import asyncio

from league_games import AWAY
from lib.program import wrong_if

DEFAULT_TIME = 12               # seconds, for minutes
# Who has lost by a decision, and what is decided of who has not come.
LOSERS = {'1-0': 'b', '+/-': 'b', '0-1': 'w', '-/+': 'w'}
FORFEITS = {'w': '-/+', 'b': '+/-', 'wb': '-/-'}
PAUSE = 4                       # seconds for which a game is adjourned


class Desk:
    """The desk of who has the arbiter's link."""

    def __init__(self, night):
        self.night, self.heard = night, []

    @property
    def person(self):
        return self.night.people['eve']

    async def say(self, line):
        """The answer, once there is one; what is refused without harm where it was done before may be said again."""
        answer = await self.person.read(line)
        if answer.startswith('ok ') and line.startswith(('as ', 'decide ')):
            self.heard.append((line, answer))
        return answer

    async def rows(self):
        return [row.split() for row in (await self.say('list')).split('\n')[1:]]

    async def stands(self, game):
        """The words of how a game stands: behind its number White, Black, the ply, who is to move, both clocks, offers,
        result and article."""
        answer = await self.say(f'show {game}')
        wrong_if(not answer.startswith('ok show '), f'game {game} has left the table: {answer}')
        return answer.split()[3:]

    async def add_player(self, name, full):
        answer = await self.say(f'player {name} {full}')
        wrong_if(not answer.startswith(f'ok player {name} {full} '), f'player {name}: {answer}')
        self.night.known_player(name, full, answer.split()[-1])

    async def sees(self, name):
        """Waits until the lobby has a player of the file."""
        while f'\n{name} player ' not in await self.say('players'):
            await asyncio.sleep(0.5)

    # Decisions.

    async def decide(self, number, board, result, article, reason):
        """Puts down what counts at a board of a round."""
        line = f'decide {number} {board.number} {result} {article or "-"} {reason}'
        answer = await self.say(line)
        wrong_if(answer != 'ok decide', f'{line}: {answer}')
        board.decision = None if result == 'as-played' else (result, article, reason)

    async def take_back(self, number, board):
        """A decision about another board than was meant, which is taken back."""
        await self.decide(number, board, '0-0', '11.7', 'both have talked')
        await self.decide(number, board, 'as-played', '', 'it was another board')

    # Who does not come.

    async def attend(self, number, boards):
        """Does in a round what is to be done while it goes on."""
        await asyncio.gather(*(self.absent(number, board) for board in boards if board.kind in AWAY),
                             *(self.adjourn(number, board) for board in boards if board.kind == 'adjourned'))

    async def game_of(self, board, behind=0):
        """The game of a board, once it is on the table."""
        while True:
            found = [int(row[0]) for row in await self.rows()
                     if row[1:3] == [board.white, board.black] and int(row[0]) > behind]
            if found:
                return found[0]
            await asyncio.sleep(1)

    async def absent(self, number, board):
        """Who is not connected once both clocks have run for so long has not come (6.7), or neither has."""
        game, sides = await self.game_of(board), AWAY[board.kind]
        names = {'w': board.white, 'b': board.black}
        while True:
            ply, side, *left = (await self.stands(game))[2:6]
            here = (await self.say('who')).split('\n')[1:]
            away = ''.join(one for one in 'wb' if names[one] not in here)
            ran = 2000 * board.plan.initial - sum(map(int, left)) + int(ply) * 1000 * board.plan.increment
            if ran >= 1000 * DEFAULT_TIME and away == sides:
                break
            await asyncio.sleep(1)
        who = {'w': 'White did', 'b': 'Black did', 'wb': 'neither player came in time'}[sides]
        result = FORFEITS[sides]
        await self.decide(number, board, result, '6.7', who if sides == 'wb' else who + ' not come in time')
        answer = await self.say(f'as {names[LOSERS.get(result, side)]} resign {game}')
        wrong_if(not answer.startswith(('ok resign ', 'no 6 ', 'no 3 ')), f'game {game} does not end: {answer}')

    # What is adjourned.

    async def adjourn(self, number, board):
        """Ends a game as a draw, and has it played on as another one, by the greater of both clocks; the round's file
        says then which is the board's."""
        board.first = first = await self.game_of(board)
        while int((stands := await self.stands(first))[2]) < board.plan.length:
            await asyncio.sleep(1)
        board.first_plies, board.fen = int(stands[2]), (await self.say(f'fen {first}')).split(' ', 3)[3]
        await self.close(board, first)
        await asyncio.sleep(PAUSE)
        # (a game begins with a day at most)
        seconds = min(86400, max(map(int, stands[4:6])) // 1000)
        board.times = f'{seconds}+{board.plan.increment}' if board.plan.increment else str(seconds)
        second = await self.go_on(board, first, f'{seconds} {board.plan.increment}')
        await self.night.take(number, board.number, second)

    async def close(self, board, game):
        """Enters a draw, of which Black offers; once the game is kept it may be gone."""
        while (answer := await self.say(f'show {game}')).endswith(' -'):
            offers = answer.split()[9]
            await self.say(f'as {board.white} accept {game}' if 'b' in offers else
                           f'as {board.black} decline {game}' if 'w' in offers else f'as {board.black} offer {game}')
        wrong_if(not answer.startswith('no 3 ') and not answer.endswith(' 5.2.3'), f'an adjourned game: {answer}')

    async def go_on(self, board, first, times):
        """Opens the game with which another goes on; where the answer was lost the table is looked at."""
        while True:
            await self.person.there()
            rows = [row for row in await self.rows() if row[1] == board.white and int(row[0]) > first]
            if not rows:
                await self.person.say(f'pair {board.white} {board.black} {times} {board.fen}')
                # (what a killed lobby sent the server may take later)
                await asyncio.sleep(1)
            elif rows[0][2] == '-':
                await self.say(f'as {board.black} join {rows[0][0]}')
            else:
                return int(rows[0][0])
