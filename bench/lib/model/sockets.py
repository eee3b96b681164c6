"""Plays the lines of the part `sockets` of `test_player` (see there) by the rules in words alone, on the plain model of
the table and of the sessions of a hub (hub.py): what each client is sent. A turn takes in all that the clients have
sent, answers, and closes whose connection is over (docs/client/PROTOCOL.md, "Sessions over a socket"); how much of it
comes in one turn is not told here. """

from lib.model.hub import Hub, store_of

GROUND, MOMENT, LINES = (212, 4, 60, None), 1000, 64
# Within so many turns a client has its answer.
TURNS = 1000


class Client:
    def __init__(self, letter):
        self.letter = letter
        self.sent = ''          # what the server has not read yet
        self.over = False       # it sends no more
        self.sid = None         # its session
        self.heard_at = 0       # the moment at which it came, or last sent something
        self.is_accepted = self.is_closed = False
        self.heard = []         # lines that were not told yet


class Server:
    def __init__(self, silence=0):
        self.hub = Hub(store_of(*GROUND))
        self.moment, self.silence = MOMENT, silence
        self.clients = []       # in the order in which they connected
        self.gone = []          # those that dropped the connection
        self.away = 0           # how many found no place

    def client(self, letter):
        for client in self.clients:
            if client.letter == letter:
                return client
        self.clients.append(Client(letter))
        return self.clients[-1]

    def act(self, letters, text):
        for letter in letters:
            client = self.client(letter)
            if text == '!':
                self.clients.remove(client)
                self.gone.append(client)
                client.over = True
            elif text == '-':
                client.over = True
            else:
                client.sent += text[:-1] if text.endswith('\\') else text + '\n'

    def accept(self):
        """At most one connection a turn; one too many is closed without a word."""
        for client in self.gone + self.clients:
            if not client.is_accepted:
                client.is_accepted = True
                client.heard_at = self.moment
                client.sid = self.hub.connect()
                if client.sid is None:
                    self.away += 1
                    self.close(client)
                return True
        return False

    def close(self, client):
        client.is_closed = True
        client.heard.append('end')

    def is_silent(self, client):
        """Nothing came of it for so long, and nothing waits for it."""
        return (self.silence and not client.over and not client.sent and not self.hub.sessions[client.sid].heard
                and self.moment - client.heard_at >= self.silence)

    def turn(self):
        """Whether there was anything to do."""
        worked = self.accept()
        served = [c for c in self.gone + self.clients if c.sid is not None]
        for client in [c for c in served if self.is_silent(c)]:
            served.remove(client)
            self.hub.close(client.sid)
            client.sid, worked = None, True
            self.close(client)
        for client in served:
            if client.sent:
                client.heard_at, worked = self.moment, True
            self.hub.sessions[client.sid].feed(client.sent)
            client.sent = ''
        worked |= any(self.hub.sessions[c.sid].heard for c in served)
        self.hub.turn(self.moment, LINES)
        for client in served:
            session = self.hub.sessions[client.sid]
            for answer in session.due():
                client.heard += answer
            if session.left or client.over and not session.heard:
                self.hub.close(client.sid)
                client.sid, worked = None, True
                self.close(client)
        return worked

    def told(self):
        for client in self.clients:
            yield from (f'{client.letter} {line}' for line in client.heard)
            client.heard = []


def play(lines):
    """What is printed for these lines."""
    server = Server()
    for text in lines:
        letters, _, act = text.partition(' ')
        if text == 'turns':
            while server.turn():
                pass
        if text in ('turns', 'told'):
            yield from server.told()
        elif text == 'away':
            yield f'away {server.away}'
        elif text == 'elsewhere':
            # It listens on 127.0.0.1 alone.
            yield 'elsewhere false'
        elif letters == 'turns':
            for _ in range(int(act)):
                server.turn()
        elif letters == 'moment':
            server.moment = int(act)
        elif letters == 'silence':
            server = Server(int(act))
        elif act == '?':
            for _ in range(TURNS):
                if all(server.client(letter).heard for letter in letters):
                    break
                server.turn()
            yield from server.told()
        else:
            server.act(letters, act)
