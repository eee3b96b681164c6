"""Plays the lines of the part `hub` of `test_player` (see there) by the rules in words alone, on the plain model of the
table and of a store: what each session of a hub is told, and what `run` writes. """

import re
from lib.model.reader import Fault
from lib.model.rules import LAST_MOMENT, parse
from lib.model.store import Device, Store, made_journal


def cut(data):
    """The whole lines before any that is too long, what comes after them, and whether a line is too long."""
    lines = []
    while True:
        end = data.find('\n')
        part = data if end < 0 else data[:end]
        if len(part) > 255:
            return lines, '', True
        if end < 0:
            return lines, data, False
        lines.append(part[:-1] if part.endswith('\r') else part)
        data = data[end + 1:]


def store_of(sectors, games, plies, calls):
    """A new store, on a device that serves so many calls from then on."""
    device = Device(sectors)
    journal = made_journal(device, (games, plies))
    device.arm(calls)
    return Store(journal)


class Session:
    def __init__(self):
        self.name = None
        self.heard = []         # lines that wait
        self.rest = ''          # what has come of the next
        self.long = False
        self.left = False       # was told the farewell
        self.answers = []       # lists of lines

    def feed(self, data):
        if self.long:
            return 'LineTooLong'
        lines, self.rest, self.long = cut(self.rest + data)
        self.heard += lines
        return None

    def due(self):
        out, self.answers = self.answers, []
        if self.long and not self.heard and not self.left:
            self.left = True
            out = out + [['bye LineTooLong']]
        return out


def answer_lines(store, at, taken):
    """The answers to lines `(session, line)` as one batch; names hold from then on. A Fault changes nothing."""
    names, commands, answers = {}, [], []
    for session, line in taken:
        name = names.get(id(session), session.name)
        parsed = parse(line)
        if parsed is None:
            answers.append(['no 1 BadLine'])
        elif parsed[0] == 'name':
            if at > LAST_MOMENT:
                answers.append(['no 23 BadMoment'])
            else:
                names[id(session)] = parsed[1]['name']
                answers.append(['ok name ' + parsed[1]['name']])
        else:
            answers.append(None)
            commands.append((at, name, line))
    replies = iter(store.submit(commands) if commands else [])
    for session, line in taken:
        session.name = names.get(id(session), session.name)
    return [next(replies) if a is None else a for a in answers]


class Hub:
    def __init__(self, store):
        self.store = store
        self.sessions = {}
        self.free = []          # numbers that are free again, the last freed first
        self.next = 0

    def connect(self):
        if len(self.sessions) >= 64:
            return None
        if not self.free:
            self.free, self.next = [self.next], self.next + 1
        sid = self.free.pop()
        self.sessions[sid] = Session()
        return sid

    def close(self, sid):
        del self.sessions[sid]
        self.free.append(sid)

    def turn(self, at, most):
        taken, place = [], 0
        while len(taken) < most:
            round_ = [(s, self.sessions[s].heard[place]) for s in sorted(self.sessions)
                      if place < len(self.sessions[s].heard)]
            if not round_:
                break
            taken += round_[:most - len(taken)]
            place += 1
        lines = [(self.sessions[s], line) for s, line in taken]
        for (session, _), answer in zip(lines, answer_lines(self.store, at, lines)):
            session.heard.pop(0)
            session.answers.append(answer)


def written(answers):
    return ''.join(line + '\n' for answer in answers for line in answer)


def unescape(text):
    return re.sub(r'\\(x..|.)', lambda found: {'n': '\n', 'r': '\r', '\\': '\\'}.get(found[1])
                  or chr(int(found[1][1:], 16)), text)


def limit(manner):
    parts = manner.lstrip('~').split('!')
    return int(parts[0]), int(parts[1]) if len(parts) > 1 else None


def run(store, reader, writer, moments, data):
    """What a run writes, and how it ends."""
    given = [] if moments == '-' else [int(m) for m in moments.split(',')]
    last = 0
    _, reads = limit(reader)
    end = 'Ok(())'
    if reads is not None and reads <= len(data):
        data, end = data[:reads], 'Err(Read)'
    session, out = Session(), ''
    lines, _, long = cut(data)
    if long:
        end = 'Err(LineTooLong)'
    for line in lines:
        if given:
            last = given.pop(0)
        try:
            out += written(answer_lines(store, last, [(session, line)]))
        except Fault as fault:
            end, long = 'Err(Hub(Store(%s)))' % fault.name, False
            break
    if long:
        out += 'bye LineTooLong\n'
    _, writes = limit(writer)
    if writes is not None and writes < len(out):
        return out[:writes], 'Err(Write)'
    return out, end


def play(lines):
    """What is printed for these lines."""
    ground, hub = (212, 4, 60, None), None
    for text in lines:
        word, _, rest = text.partition(' ')
        fields = rest.split(' ')
        session = hub.sessions.get(int(fields[0])) if hub and fields[0].isdigit() else None
        said = None
        if word == 'store':
            ground = [None if field == '-' else int(field) for field in fields]
        elif word == 'hub':
            hub = Hub(store_of(*ground))
        elif word == 'connect':
            sid = hub.connect()
            said = 'fault Busy' if sid is None else 'session %d' % sid
        elif word == 'open':
            said = 'open ' + str(session is not None).lower()
        elif word == 'feed':
            fault = session.feed(unescape(rest.partition(' ')[2]))
            said = fault and 'fault ' + fault
        elif word == 'turn':
            try:
                hub.turn(int(fields[0]), int(fields[1]))
            except Fault as fault:
                said = 'fault Store(%s)' % fault.name
        elif word == 'output':
            said = ('to %s:\n%s' % (rest, written(session.due())))[:-1]
        elif word == 'waiting':
            said = 'waiting %d' % waiting(session)
        elif word == 'ended':
            said = 'ended ' + str(session.left).lower()
        elif word == 'close':
            hub.close(int(rest))
        elif word == 'run':
            said = '%s|\n%s' % run(store_of(*ground), *fields[:3], unescape(' '.join(fields[3:])))
        if said is not None:
            yield said


def waiting(session):
    """Bytes fed and not taken, line feeds too; of a line that is too long none. (No carriage returns where it is
    asked.)"""
    return sum(len(line) + 1 for line in session.heard) + len(session.rest)
