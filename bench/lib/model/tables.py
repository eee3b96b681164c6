"""Plays the lines of the part `table` of `test_player` (see there) by the rules in words alone, on the plain model of
the table. Records are made by images.py, and read by reader.py, both from docs/design/DISK.md. """

from lib.model.images import Noted, snapshot_of
from lib.model.reader import HEAD, META, MOVES, Fault, Record, enter, read_entry, read_head, read_moves, read_snapshot
from lib.model.rules import split_input


# ------------------------------------------------------------------- what records mean

def is_record(data):
    """Whether these bytes are those of a record, whatever it would mean."""
    try:
        if data[0] == META:
            record = Record(data)
            for at, size in ((0, 1), (4, 4), (8, 8), (16, 4), (20, 8)):
                record.take(at, size)
            record.nothing_else()
        elif data[0] == HEAD:
            read_head(data)
        elif data[0] == MOVES:
            read_moves(data, max(1, int.from_bytes(data[4:8], 'little')), data[1])
        else:
            read_entry(data)
    except Fault:
        return False
    return True


def read(records, entries, games, plies):
    """The table of a snapshot and the entries since, under these limits; None where they mean none."""
    table = Noted(games, plies)
    try:
        read_snapshot(records, table)
        for data in entries:
            enter(table, read_entry(data))
    except Fault:
        return None
    return table


# ------------------------------------------------------------------- the lines

class Player:
    def __init__(self):
        self.begin(256, 1024)

    def begin(self, games, plies):
        self.records, self.table = None, Noted(games, plies)

    def play(self, text):
        """What is printed for a line."""
        word, _, rest = text.partition(' ')
        if word == 'table':
            self.begin(*map(int, rest.split()))
            return []
        if text == 'records':
            self.records, self.table.noted = snapshot_of(self.table), []
            return [data.rstrip(b'\0').hex() for data in self.records]
        if word == 'reopen':
            table = read(self.records, self.table.noted, *map(int, rest.split()))
            self.table = table or self.table
            return ['reopened' if table else 'damaged']
        if word == 'changed':
            return [self.changed(*map(int, rest.split()))]
        return self.table.command(*split_input(text))

    def changed(self, place, at, value):
        """What is read where a byte of a record of the snapshot is another."""
        if place >= len(self.records) or at >= 128:
            return 'no record'
        records = list(self.records)
        records[place] = records[place][:at] + bytes([value]) + records[place][at + 1:]
        if not is_record(records[place]):
            return 'no record'
        table = read(records, self.table.noted, self.table.games_limit, self.table.plies_limit)
        return 'damaged' if table is None else 'a table'


def play(lines):
    """What is printed for these lines."""
    player = Player()
    return [said for text in lines for said in player.play(text)]
