"""Plays the lines of the parts `store` and `lives` of `test_player` (see there): a device in memory, and a journal and
a store on it, from docs/design/DISK.md and docs/client/PROTOCOL.md alone, over the table of rules.py. Records are made
by images.py, and read by reader.py.

A sector that cannot be read has zeros here, which are no header and no record: so it is refused all the same. """

import contextlib
import itertools

from lib.model.images import Noted, fours, header, sectors_of, snapshot_of
from lib.model.reader import SECTOR, SIGNATURE, Fault, Header, Sizes, contents, read_on, up
from lib.model.rules import READS, split_input
from lib.model.tables import is_record

WORN = 2 ** 64 - 1
STEP = 64                       # the sectors of a snapshot that a commit writes beside its own
HALVES, VERSIONS = ('Zero', 'One'), (None, 'One', 'Two')


def refuse_if(holds, name):
    if holds:
        raise Fault(name, 'refused')


# ------------------------------------------------------------------- a device

class Device:
    """Sectors, zeros but for those that are told, and what was written since the last sync, in its order."""

    def __init__(self, size, stable=()):
        self.size, self.stable, self.pending, self.failures = size, dict(stable), [], 0
        self.arm()

    def arm(self, served=None, fails_at=None, is_left=True):
        """So many calls more are served, None for any number, or all but one; whether the first write that fails is
        left pending."""
        self.calls, self.served, self.fails_at, self.is_left = 0, served, fails_at, is_left

    def call(self):
        self.calls += 1
        if self.calls == self.fails_at or self.served is not None and self.calls > self.served:
            self.failures += 1
            raise Fault('Device { pending: 0 }', 'a call that is not served')

    def held(self, at):
        return dict(self.pending).get(at, self.stable.get(at, bytes(SECTOR)))

    def image(self):
        return b''.join({**dict.fromkeys(range(self.size), bytes(SECTOR)), **self.stable,
                         **dict(self.pending)}.values())

    def read(self, at):
        self.call()
        return self.held(at)

    def write(self, at, data):
        try:
            self.call()
        except Fault:
            if self.is_left:
                self.pending.append((at, data))
                self.is_left = False
            raise
        self.pending.append((at, data))

    def sync(self):
        self.call()
        self.stable.update(self.pending)
        self.pending = []

    def crash(self, fates):
        """Each pending write is lost, kept or unreadable, by the letters L, K and U."""
        self.stable.update((at, data if fate == 'K' else bytes(SECTOR))
                           for (at, data), fate in zip(self.pending, fates.upper()) if fate != 'L')
        self.pending = []
        self.arm()


# ------------------------------------------------------------------- a store

MEANT = {}                      # kept for speed: limits and records -> the table that they mean


def meaning(limits, snapshot, journal):
    key = limits, *snapshot, None, *journal
    if key not in MEANT:
        MEANT[key] = read_on(Noted(*limits), snapshot, journal)
    return MEANT[key].copy()


class Journal:
    """A journal that was opened on a device. `base` are the records of a snapshot that is written beside commits, of
    which `written` sectors stand, and `tail` those of the commits since it was made; None where no compaction is under
    way."""

    def __init__(self, device, force, records=((), ())):
        self.device, self.records, self.limits = device, records, (force.games, force.plies)
        self.version, self.seq, self.half = force.version, force.seq, force.half
        self.snapshot, self.journal = force.snapshot, force.journal
        self.forget()

    def forget(self):
        self.base, self.written, self.tail = None, 0, []

    def room(self):
        """The sectors behind the snapshot, and how many of them have no record of the journal."""
        room = Sizes(*self.limits).half - self.snapshot
        return room, room - self.journal

    def start(self, half):
        return 2 + half * Sizes(*self.limits).half

    def write(self, at, groups):
        for place, group in enumerate(groups, at):
            self.device.write(place, sectors_of([group]))
        return len(groups)

    def seal(self):
        """What was written lasts, and then the header that names it."""
        self.device.sync()
        self.seq += 1
        self.device.write(self.seq % 2, header(2, self.seq, self.half, self.snapshot, self.journal, *self.limits))
        self.device.sync()

    def append(self, records):
        self.journal += self.write(self.start(self.half) + self.snapshot + self.journal, fours(records))
        if self.base is not None:
            step = fours(self.base)[self.written:self.written + STEP]
            self.written += self.write(self.start(1 - self.half) + self.written, step)
            self.tail += records
        self.seal()

    def replace(self, base, records, limits=None):
        """Into the other half: what is left of a snapshot, and behind it the tail and these records."""
        self.limits, self.version, self.half = limits or self.limits, 2, 1 - self.half
        first, self.snapshot = self.start(self.half), up(len(base), 4)
        self.write(first + self.written, fours(base)[self.written:])
        self.journal = self.write(first + self.snapshot, fours(self.tail + records))
        self.forget()
        self.seal()

    def is_due(self):
        room, free = self.room()
        return self.base is None and (self.version == 1 or free <= room // 2)

    def commit(self, before, records):
        """`before` is the snapshot from before these records, where one is due."""
        is_whole = self.base is not None and self.written == up(len(self.base), 4)
        self.base = before or self.base
        if is_whole or self.version == 1 or self.room()[1] < up(len(records), 4):
            self.replace(self.base, records)
        else:
            self.append(records)


def read_journal(device):
    """The journal that a device holds, by the calls of an opening: of version 1 a sector is read for each record."""
    device.sync()
    for slot in (0, 1):
        device.read(slot)
    force, *records = contents(device.image())
    for _ in range(force.snapshot + force.journal):
        device.call()
    refuse_if(not all(map(is_record, sum(records, []))), 'Damaged')
    return Journal(device, force, records)


def made_journal(device, limits):
    """A new one, by the calls of `format`."""
    slots = [device.read(slot) for slot in (0, 1)]
    refuse_if(any(data.startswith(SIGNATURE) for data in slots), 'Exists')
    refuse_if(device.size < Sizes(*limits).need, 'TooSmall')
    first = header(2, 1, 0, 0, 0, *limits)
    device.write(1, first)
    device.sync()
    return Journal(device, Header(first))


class Store:
    """A table over a journal, which ends at the first call that fails."""

    def __init__(self, journal):
        self.journal, self.has_failed = journal, False
        self.table = meaning(journal.limits, *journal.records)

    def call(self, pending, change, *given):
        """A change of the journal, beside which so many entries wait."""
        try:
            change(*given)
        except Fault:
            self.has_failed = True
            raise Fault('Device { pending: %d }' % pending, 'a call that is not served') from None

    def submit(self, commands):
        """The answers to `(moment, name, line)`, each as its lines."""
        refuse_if(self.has_failed, 'Failed')
        acts = sum(line.split(' ')[0] not in READS for _, _, line in commands)
        refuse_if(acts and (self.journal.seq == WORN or self.table.entries + acts > WORN), 'Worn')
        before = snapshot_of(self.table) if self.journal.is_due() else None
        answers = [self.table.command(*command) for command in commands]
        records, self.table.noted = self.table.noted, []
        if records:
            self.call(len(records), self.journal.commit, before, records)
        return answers

    def widen(self, limits):
        """From half 1 by two commits, of which the first goes into half 0 under the limits so far."""
        refuse_if(self.has_failed, 'Failed')
        if limits == self.journal.limits:
            return
        refuse_if(self.journal.device.size < Sizes(*limits).need, 'TooSmall')
        refuse_if(self.journal.seq + 1 + self.journal.half > WORN, 'Worn')
        self.journal.forget()
        if self.journal.half == 1:
            self.call(0, self.journal.replace, snapshot_of(self.table), [])
        self.call(0, self.journal.replace, snapshot_of(self.table), [], limits)
        self.table.games_limit, self.table.plies_limit = limits


# ------------------------------------------------------------------- the lines

def numbers(words):
    return tuple(map(int, words))


def calls_of(word):
    return None if word == '-' else int(word)


class Player:
    def __init__(self):
        self.disk, self.store, self.noted, self.batch = None, None, None, []

    def play(self, line):
        """What is printed for a line; each word is a method."""
        word, *words = line.split(' ')
        if word == '#':
            return [line]
        if word == 'say':
            self.batch.append(split_input(line[len('say '):]))
            return []
        try:
            return getattr(self, word)(*words) or []
        except Fault as fault:
            return ['%sfault %s' % ('journal ' if word == 'journal' else '', fault.name)]

    # ---- a store

    def submit(self):
        commands, self.batch = self.batch, []
        return sum(self.store.submit(commands), [])

    def widen(self, *limits):
        self.store.widen(numbers(limits))
        return ['widened']

    def table(self):
        refuse_if(self.store.has_failed, 'Failed')
        return ['entries %d limits %d %d' % (self.store.table.entries, *self.store.journal.limits)]

    def take(self, word, read, *given):
        """The store on the journal that is read or made; without one the device is left."""
        self.store = None
        self.store = Store(read(self.disk, *given))
        return [word]

    def open(self, calls):
        self.disk.arm(calls_of(calls))
        return self.take('opened', read_journal)

    def once(self, call, fate):
        self.disk.arm(None, int(call), fate == 'pending')
        return self.take('opened', read_journal)

    def crash(self, fates):
        self.disk.crash(fates)
        return self.take('opened', read_journal)

    def make(self, calls, *limits):
        self.disk.arm(calls_of(calls))
        return self.take('created', made_journal, numbers(limits))

    def create(self, sectors, *limits):
        self.disk = Device(int(sectors))
        return self.make('-', *limits)

    # ---- a device

    def device(self, sectors):
        self.disk = Device(int(sectors))

    def put(self, at, start, digits):
        data = self.disk.held(int(at))
        start, new = int(start), bytes.fromhex(digits)
        self.disk.stable[int(at)] = data[:start] + new + data[start + len(new):]

    def bytes(self, at, start, count):
        return [self.disk.held(int(at))[int(start):][:int(count)].hex()]

    def lose(self, at):
        self.disk.stable[int(at)] = bytes(SECTOR)

    def keep(self):
        self.noted = self.disk.size, {**self.disk.stable, **dict(self.disk.pending)}

    def again(self):
        self.disk = Device(*self.noted)

    def journal(self):
        held = read_journal(self.disk)
        counts = tuple(map(len, held.records))
        return ['journal version %s seq %d half %s limits %d %d records %d %d' % (
            VERSIONS[held.version], held.seq, HALVES[held.half], *held.limits, *counts)]


def play(lines):
    """What is printed for these lines."""
    player = Player()
    return [said for line in lines for said in player.play(line)]


# ------------------------------------------------------------------- plans of lives

def life(device, calls, fates, batches):
    """The line of a life, which ends at the first call that fails, or behind its batches, with a crash."""
    device.arm(calls_of(calls))
    opened, answered, accepted = '-', 0, 0
    with contextlib.suppress(Fault):
        store = Store(read_journal(device))
        opened = before = store.table.entries
        for batch in batches:
            try:
                store.submit([split_input(line) for line in batch])
                answered = store.table.entries - before
            finally:
                accepted = store.table.entries - before
    device.crash(fates.strip('-'))
    return 'life %s %d %d 0 %d' % (opened, answered, accepted, device.failures)


def lived(ground, plan):
    """What comes of lives, each its calls, its fates and its batches, on a new store of these sectors and limits."""
    device = Device(ground[0])
    made_journal(device, ground[1:])
    lines = [life(device, *one) for one in plan]
    device.arm()
    return lines + ['kept %d' % Store(read_journal(device)).table.entries]


# The drill: two batches, of which the second stops at each of its five calls, with each fate of what is pending then,
# and at none.
DRILL = [['1000 ann open white 300 0', '1000 bob join 1'],
         ['1000 %s move 1 %d %s' % (('ann', 'bob')[ply % 2], ply, text)
          for ply, text in enumerate(('e4', 'e5', 'Nf3', 'Nc6', 'Bb5'))]]
STOPS = (('7', 1), ('8', 2), ('9', 2), ('10', 1), ('11', 1), ('-', 0))


def drilled():
    told = [lived((212, 4, 60), [(calls, ''.join(fates), DRILL)]) for calls, pending in STOPS
            for fates in itertools.product('lku', repeat=pending)]
    kept = [lines[-1] for lines in told]
    return sum(told, []) + ['drill %d none %d all %d' % (len(told), kept.count('kept 2'), kept.count('kept 7'))]


def play_lives(lines):
    """What is printed for these lines."""
    ground, plan = None, []
    for line in lines:
        word, *words = line.split(' ')
        if word == 'plan':
            ground, plan = numbers(words), []
        elif word == 'life':
            plan.append((*words, []))
        elif word == 'batch':
            plan[-1][-1].append([])
        elif word == 'live':
            yield from lived(ground, plan)
        elif word == 'drill':
            yield from drilled()
        else:
            plan[-1][-1][-1].append(line)
