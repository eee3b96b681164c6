"""What journal and store beside it are held against: the same writes of sectors and syncs, by Python alone."""

import os
import shutil
import time


def fresh(whole, path):
    """A copy of a file that is on the disk, open."""
    shutil.copyfile(whole, path)
    file = os.open(path, os.O_RDWR)
    os.fsync(file)
    return file


def raw(file, commits, records):
    """The seconds that commits of so many records take at least: their sectors, a sync, the header, a sync."""
    sector, at = b'\x01' * 512, 2
    start = time.perf_counter()
    for commit in range(commits):
        for _ in range((records + 3) // 4):
            os.pwrite(file, sector, 512 * at)
            at = 2 if at == 3931 else at + 1
        os.fdatasync(file)
        os.pwrite(file, sector, 512 * (commit % 2))
        os.fdatasync(file)
    seconds = time.perf_counter() - start
    os.close(file)
    return seconds


def rates(seconds, count):
    """How many a second, at best and in each run."""
    return '%d (%s)' % (count / min(seconds), ' '.join('%d' % (count / one) for one in sorted(seconds)))
