"""Runs the program under test at a moment that is chosen: for bench/correct/hostile-lines and
bench/correct/hostile-images.

`run` takes its moments from the system's clocks: that of the date at its start, and the steady one from there on. A
shim before the C library's `clock_gettime` gives the first another value, and stops both for a whole run; the program
itself is the one that is served. So each answer, the times of `show` and fallen flags among them, can be told to the
last byte. """

import contextlib
import fcntl
import multiprocessing
import os
import shutil
import subprocess
import threading
import time

from lib.program import NAME, Wrong, kept, path_of, say, shared_library, work_folder, wrong_if

PATIENCE = 120                  # seconds after which a run hangs
PAGE = 4096
SHIM = r'''
#define _GNU_SOURCE
#include <stdlib.h>
#include <sys/syscall.h>
#include <time.h>
#include <unistd.h>
int clock_gettime(clockid_t clock, struct timespec *now) {
  const char *moment = getenv("MOMENT");
  if (!moment || (clock != CLOCK_REALTIME && clock != CLOCK_MONOTONIC))
    return syscall(SYS_clock_gettime, clock, now);
  long long milliseconds = clock == CLOCK_REALTIME ? atoll(moment) : 1000;
  now->tv_sec = milliseconds / 1000;
  now->tv_nsec = milliseconds % 1000 * 1000000;
  return 0;
}
'''


def last_line(text):
    return b''.join(text.splitlines(keepends=True)[-1:])


class Program:
    def __init__(self, server, shim):
        self.server, self.shim = server, shim

    def start(self, journal, moment):
        environment = dict(os.environ, LD_PRELOAD=self.shim, MOMENT=str(moment))
        return subprocess.Popen([self.server, 'run', '--journal', journal], env=environment, stdin=subprocess.PIPE,
                                stdout=subprocess.PIPE, stderr=subprocess.PIPE, bufsize=0)

    def run(self, journal, moment, data):
        """Status and output of a run that reads all of data, and the last line of its standard error, which names the
        fault; what stands before it says why in words."""
        process = self.start(journal, moment)
        try:
            out, error = process.communicate(data, timeout=PATIENCE)
        except subprocess.TimeoutExpired:
            process.kill()
            process.wait()
            raise Wrong('it hangs: no end of the run in %d seconds' % PATIENCE)
        return process.returncode, out, last_line(error)

    def run_in_pieces(self, journal, moment, pieces, kill_after=None, kill_in=PATIENCE, reads=True):
        """The same, the input in pieces. It is killed once it has written so many bytes, or after so many seconds.
        Unless `reads`, nothing is read before it has ended, and what it may write until then is a page."""
        process = self.start(journal, moment)
        if not reads:
            fcntl.fcntl(process.stdout, fcntl.F_SETPIPE_SZ, PAGE)
        alarm = threading.Timer(kill_in, process.kill)
        feeder = threading.Thread(target=feed, args=(process.stdin, pieces), daemon=True)
        begun = time.monotonic()
        alarm.start()
        feeder.start()
        if not reads:
            process.wait()
        out = bytearray()
        while True:
            if kill_after is not None and len(out) >= kill_after:
                process.kill()
                kill_after = None
            piece = process.stdout.read(1 << 16)
            if not piece:
                break
            out += piece
        error = process.stderr.read()
        status = process.wait()
        alarm.cancel()
        feeder.join()
        process.stdout.close()
        process.stderr.close()
        wrong_if(time.monotonic() - begun >= PATIENCE, 'it hangs: no end of the run in %d seconds' % PATIENCE)
        return status, bytes(out), last_line(error)


def feed(stream, pieces):
    """Writes each piece by itself, as long as anybody reads."""
    with contextlib.suppress(BrokenPipeError):
        for piece in pieces:
            view = memoryview(piece)
            while view:
                view = view[stream.write(view):]
    with contextlib.suppress(BrokenPipeError):
        stream.close()


def of_a_seed(task):
    """What work gives of a seed in a folder of its own, which is kept where something is Wrong."""
    work, seed, program, above = task
    folder = os.path.join(above, 'seed-%d' % seed)
    os.mkdir(folder)
    try:
        outcome = work(seed, program, folder)
    except Wrong as wrong:
        return Wrong('seed %d, %s\nkept in %s' % (seed, wrong, kept(folder, os.path.basename(NAME))))
    shutil.rmtree(folder)
    return outcome


def outcomes(given, size, work):
    """What work gives of each seed, of which so many have a size as make the count that is given, in processes."""
    seeds = range(given.seed, given.seed + max(1, -(-given.count // size)))
    say('seeds %d to %d, %d processes' % (seeds[0], seeds[-1], given.jobs))
    with work_folder(os.path.basename(NAME)) as folder:
        program = Program(path_of('chess_server'), shared_library(folder, 'moment', SHIM))
        with multiprocessing.get_context('fork').Pool(given.jobs) as pool:
            yield from pool.imap_unordered(of_a_seed, [(work, seed, program, folder) for seed in seeds])
