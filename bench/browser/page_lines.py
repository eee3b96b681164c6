"""What is said to a lobby past its page, by a socket of a page's own."""

RAW = '''const [address, lines, done] = arguments, answers = [];
  const socket = new WebSocket(address.replace('http', 'ws') + 'ws');
  const next = () => setTimeout(() => (answers.length < lines.length ? window.spied.call(socket, lines[answers.length])
    : (socket.close(), done(answers))), 60);
  socket.onmessage = (event) => {
    if (event.data.startsWith('server ')) next();
    else if (!event.data.startsWith('told ')) { answers.push(event.data.trim()); next(); } };'''


def by_lines(hall, name, *lines, person=None):
    """What a player, or nobody, sends past the page, by a browser (Sue's, if no other is named); the answers."""
    driver = (person or hall.sue).driver
    driver.set_script_timeout(60)
    login = ['login ' + hall.lobby.tokens[name]] if name else []
    return driver.execute_async_script(RAW, hall.lobby.address, [*login, *lines])[len(login):]


def by_files(person):
    """What /games.json tells, by which everybody watches who has no link."""
    return person.driver.execute_async_script("""const [done] = arguments; fetch('/games.json', { cache: 'no-store' })
        .then((answer) => answer.json()).then(done, () => done({}));""")


def stays(hall, *names):
    """These players are connected as long as Sue's page stays."""
    for name in names:
        hall.sue.run("""const [address, token] = arguments, socket = new WebSocket(address.replace('http', 'ws') + 'ws');
            socket.onmessage = (event) => event.data.startsWith('server ') && window.spied.call(socket, 'login ' + token);
            """, hall.lobby.address, hall.lobby.tokens[name])


def truth(hall, number):
    """How a game stands, as the server says: the fields of `show` behind the number, the position, the PGN."""
    show, fen, pgn = by_lines(hall, 'ann', 'show ' + number, 'fen ' + number, 'pgn ' + number)
    names = ('white', 'black', 'ply', 'side', 'w', 'b', 'offer', 'result', 'article')
    standing = dict(zip(names, show.split(' ')[3:]))
    clocks = {side: int(standing.pop(side)) for side in ('w', 'b')}
    return {**standing, 'fen': fen.split(' ', 3)[3], 'pgn': pgn.split('\n', 1)[1]}, clocks
