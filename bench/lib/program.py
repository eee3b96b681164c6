"""The programs under test: where they are, how they are begun and ended, and what they take."""

import argparse
import contextlib
import functools
import os
import re
import resource
import shutil
import subprocess
import sys
import tempfile
import time

TOP = os.path.dirname(os.path.dirname(os.path.dirname(os.path.realpath(__file__))))
PAGE = os.path.join(TOP, 'page')
# (a bench may go into a folder of its own)
BEGUN_IN, NAME = os.getcwd(), os.path.relpath(os.path.realpath(sys.argv[0]), TOP)
PATIENCE = 600                  # seconds after which a program that is to end hangs


class Wrong(Exception):
    """What is otherwise than it should be."""


def wrong_if(is_wrong, why):
    if is_wrong:
        raise Wrong(why)


# ------------------------------------------------------------------- where they are

@functools.lru_cache(None)
def path_of(name):
    """A program: that which the variable of its name in capitals names, or this repository's, which is built where it
    has to be."""
    given = os.environ.get(name.upper())
    if given:
        return os.path.realpath(os.path.join(BEGUN_IN, given))
    # (the players and `perft` end with their input)
    words = [] if name.startswith(('test_', 'perft')) else ['--help']
    subprocess.run([os.path.join(TOP, 'tools', 'run-program'), name, *words], stdin=subprocess.DEVNULL,
                   stdout=subprocess.DEVNULL, check=True)
    return os.path.join(TOP, 'crates', name, 'out', name)


def laid_out(folder):
    """The folder, with chess-club, the page and the programs under test, as in an archive of tools/release."""
    os.makedirs(os.path.join(folder, 'tools'))
    shutil.copy(os.path.join(TOP, 'chess-club'), folder)
    shutil.copy(os.path.join(TOP, 'tools', 'evening'), os.path.join(folder, 'tools'))
    for name, path in (('page', PAGE), ('chess-server', path_of('chess_server')),
                       ('tools/chess_club', path_of('chess_club'))):
        os.symlink(path, os.path.join(folder, name))
    return folder


def take_programs(folder):
    """The programs under test are this folder's, by the names of tools/build or of an archive of tools/release."""
    for name in ('chess_server', 'chess_club'):
        found = [path for path in (os.path.join(folder, name), os.path.join(folder, 'tools', name),
                                   os.path.join(folder, name.replace('_', '-'))) if os.path.isfile(path)]
        if not found:
            sys.exit('there is no %s in %s' % (name, folder))
        os.environ[name.upper()] = os.path.realpath(found[0])
    path_of.cache_clear()


def words_of(text, *options):
    """The words of a bench, whose text is this: `--programs FOLDER`, whose programs are taken; and the options, each
    its name and what argparse is to know of it."""
    words = argparse.ArgumentParser(description=text, formatter_class=argparse.RawDescriptionHelpFormatter)
    words.add_argument('--programs', metavar='FOLDER')
    for name, how in options:
        words.add_argument(name, **how)
    given = words.parse_args()
    if given.programs:
        take_programs(given.programs)
    return given


def counted(text, count):
    """The words of a bench that tries so many things, from a seed on, in so many processes: COUNT, SEED and `--jobs
    J`."""
    return words_of(text, ('count', {'nargs': '?', 'type': int, 'default': count}),
                    ('seed', {'nargs': '?', 'type': int, 'default': 1}),
                    ('--jobs', {'type': int, 'default': max(1, (os.cpu_count() or 1) - 1)}))


def number(name, usual):
    """An option that is a number."""
    return name, {'type': type(usual), 'default': usual, 'metavar': 'N'}


# ------------------------------------------------------------------- what they do

def run(name, *words, **how):
    """What a program does that ends by itself."""
    how = {'capture_output': True, 'text': True, 'timeout': PATIENCE, **how}
    return subprocess.run([path_of(name), *words], **how)


def begin(name, *words, **how):
    """A program that goes on; what it writes on standard output is read, and nothing else unless `how` says so."""
    how = {'stdout': subprocess.PIPE, 'stderr': subprocess.DEVNULL, 'text': True, **how}
    return subprocess.Popen([path_of(name), *words], **how)


def module(name, *words):
    """A module of these benches as a program, which is spoken to by its standard input and output."""
    return subprocess.Popen([sys.executable, '-m', name, *map(str, words)], cwd=os.path.join(TOP, 'bench'),
                            stdin=subprocess.PIPE, stdout=subprocess.PIPE, text=True)


def end(process):
    """Kills a program, and waits for its end."""
    process.kill()
    process.wait()
    for stream in (process.stdin, process.stdout, process.stderr):
        if stream:
            stream.close()


def within(process, seconds=None, errors=False):
    """The status of a program that ends within so many seconds, none where it was killed then; and what it wrote until
    then, or with `errors` what it told."""
    try:
        said, status = process.communicate(timeout=seconds or PATIENCE), process.returncode
    except subprocess.TimeoutExpired:
        process.kill()
        said, status = process.communicate(), None
    return status, said[errors]


def fault_of(error):
    """The fault that standard error tells of, as `fault NAME`, if any."""
    told = re.findall('^fault .*', error, re.MULTILINE)
    return told[-1] if told else ''


def instructions(words, given):
    """The instructions of a program on a text, as callgrind counts them."""
    words = ['valgrind', '--tool=callgrind', '--callgrind-out-file=/dev/null', *words]
    done = subprocess.run(words, input=given, capture_output=True, text=True, check=True)
    return int(next(line.split()[-1] for line in done.stderr.splitlines() if 'Collected' in line))


def used(pid):
    """The seconds of a processor that a process of one thread has taken."""
    with open('/proc/%d/schedstat' % pid) as file:
        return int(file.read().split()[0]) / 1e9


def memory(pid, what='VmRSS'):
    """Megabytes of a process; with VmHWM the most that it had."""
    with open('/proc/%d/status' % pid) as file:
        return next(int(line.split()[1]) for line in file if line.startswith(what)) / 1000


def more_files():
    """Lets this program have some thousand connections."""
    resource.setrlimit(resource.RLIMIT_NOFILE, (8192, resource.getrlimit(resource.RLIMIT_NOFILE)[1]))


def shared_library(folder, name, text):
    """A library of C, compiled in a folder, to be loaded before a program."""
    source, library = (os.path.join(folder, name + kind) for kind in ('.c', '.so'))
    put(source, text)
    subprocess.run(['cc', '-O1', '-shared', '-fPIC', '-o', library, source, '-ldl'], check=True)
    return library


# ------------------------------------------------------------------- a bench

def put(path, text, mode=0o666):
    """Writes a file anew, of a text or of bytes."""
    with open(os.open(path, os.O_WRONLY | os.O_CREAT | os.O_TRUNC, mode), 'wb') as file:
        file.write(text if isinstance(text, bytes) else text.encode())


def put_at_once(path, text):
    """The same, so that whoever reads it finds the old one or the whole new one."""
    put(path + '.new', text)
    os.rename(path + '.new', path)


def data(path):
    with open(path, 'rb') as file:
        return file.read()


def content(path):
    return data(path).decode()


def is_soon(holds, seconds=4, rest=0.05):
    """Whether this holds before so many seconds have passed."""
    until = time.monotonic() + seconds
    while not (found := holds()) and time.monotonic() < until:
        time.sleep(rest)
    return found


def stop(why):
    """Ends a bench."""
    sys.exit('%s: %s' % (NAME, why))


def stop_if(is_wrong, why):
    if is_wrong:
        stop(why)


class Closing:
    """What is closed behind a `with`."""

    def __enter__(self):
        return self

    def __exit__(self, *_):
        self.close()


@contextlib.contextmanager
def work_folder(name, where=None):
    """A folder for a bench's files, in memory where that can be, since each act is synced. What is Wrong ends it."""
    memory_files = '/dev/shm' if os.access('/dev/shm', os.W_OK) else None
    with tempfile.TemporaryDirectory(prefix=name + '-', dir=where or memory_files,
                                     ignore_cleanup_errors=True) as folder:
        try:
            yield folder
        except Wrong as why:
            stop(why)


def kept(folder, name):
    """A copy of a folder that stays."""
    return shutil.copytree(folder, tempfile.mkdtemp(prefix=name + '-kept-'), dirs_exist_ok=True)


def say(text):
    print(text, flush=True)
