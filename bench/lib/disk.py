"""A disk that logs what it is asked: for bench/crash/powercut and bench/crash/failed-sync.

`Disk` is a file system in user space (FUSE, spoken to /dev/fuse directly) with one file, `disk`, kept in memory. A loop
device stands on that file, past every cache (FOPEN_DIRECT_IO), with a file system of the kernel's on it. So each write
of a block and each flush of the device comes to this process, in its order: the kernel sends the next only after what
has to stand before it was answered. All are logged, and one can be made to fail.

All mounts are made in a name space of mounts of the bench's own, and loop devices clear themselves: when the processes
of the bench end, however they do, nothing is left. """

import bisect
import contextlib
import ctypes
import errno
import fcntl
import itertools
import mmap
import os
import signal
import struct
import subprocess
import sys
import time

from lib.program import Closing, data, put

SECTOR = 512
LIBC = ctypes.CDLL(None, use_errno=True)
NEW_MOUNTS, PRIVATE, DETACH = 0x20000, 1 << 18 | 1 << 14, 2
LOOP_CONFIGURE, LOOP_FREE, AUTOCLEAR, DIRECT = 0x4C0A, 0x4C82, 4, 16
FIEMAP, FIEMAP_SYNC, NOT_WRITTEN = 0xC020660B, 1, 0x800 | 0x4 | 0x2
# of the protocol of FUSE
LOOKUP, FORGET, GETATTR, SETATTR, OPEN, READ, WRITE, STATFS, RELEASE, FSYNC = 1, 2, 3, 4, 14, 15, 16, 17, 18, 20
FLUSH, INIT, OPENDIR, READDIR, RELEASEDIR, INTERRUPT, DESTROY, BATCH, FALLOCATE = 25, 26, 27, 28, 29, 36, 38, 42, 43
MOST = 1 << 18                  # of bytes of a write
# of the log
WROTE, FLUSHED, WRITE_FAILED, FLUSH_FAILED = 1, 2, 3, 4
EVENT = struct.Struct('<BxxxIQ')
# what is shared with the process of a disk: the count of events, then what is to fail
COUNT, FAIL_KIND, FAIL_AFTER, FAIL_FROM, FAIL_TO, FAILED = range(6)


def needs(*tools):
    """What a bench over this needs, and how to get it; ends it with status 2 where something is missing."""
    missing = []
    if os.geteuid() != 0:
        missing.append('root: run it by sudo')
    for path in ('/dev/fuse', '/dev/loop-control'):
        if not os.path.exists(path):
            missing.append(path + ': a kernel with FUSE and loop devices (modprobe fuse; modprobe loop)')
    for tool, package in (('mkfs.ext4', 'e2fsprogs'), *tools):
        if not any(os.access(os.path.join(folder, tool), os.X_OK)
                   for folder in os.environ['PATH'].split(':') + ['/usr/sbin', '/sbin']):
            missing.append('%s: apt-get install %s' % (tool, package))
    if missing:
        print('\n'.join('it needs ' + one for one in missing), file=sys.stderr)
        sys.exit(2)


def checked(result):
    if result < 0:
        number = ctypes.get_errno()
        raise OSError(number, os.strerror(number))
    return result


def mount(source, folder, kind, flags=0, options=''):
    checked(LIBC.mount(source.encode(), folder.encode(), kind.encode() if kind else None, ctypes.c_ulong(flags),
                       options.encode()))


def unmount(folder, flags=0):
    for _ in range(200):
        if LIBC.umount2(folder.encode(), flags) == 0:
            return
        if ctypes.get_errno() != errno.EBUSY:
            checked(-1)
        time.sleep(0.01)
    checked(-1)


def own_mounts():
    """From now on mounts are this process's and its children's alone."""
    checked(LIBC.unshare(NEW_MOUNTS))
    mount('none', '/', None, PRIVATE)


def die_with_parent():
    LIBC.prctl(1, signal.SIGKILL)


def work_for_parent():
    """For a process that works for the bench: it leaves what is to be cleaned up to its parent."""
    die_with_parent()
    signal.signal(signal.SIGTERM, signal.SIG_DFL)
    signal.signal(signal.SIGINT, signal.SIG_IGN)


@contextlib.contextmanager
def small_disk(folder, size):
    """A disk in memory with so much room, as `4m`, on a folder that is made; none where this program may not mount."""
    os.mkdir(folder)
    try:
        mount('none', folder, 'tmpfs', 0, 'size=' + size)
    except PermissionError:
        yield None
        return
    try:
        yield folder
    finally:
        checked(LIBC.umount2(folder.encode(), DETACH))


def fill(path):
    """Fills the disk by a file."""
    with open(path, 'wb', buffering=0) as file:
        for size in (65536, 1):
            with contextlib.suppress(OSError):
                while True:
                    file.write(bytes(size))


def take_inodes(folder):
    """Makes files in a new folder until the disk has no inode left."""
    os.mkdir(folder)
    with contextlib.suppress(OSError):
        for number in itertools.count():
            put(os.path.join(folder, str(number)), '')


def end_on_signals(seconds):
    """A signal ends the bench like an exception, so that it cleans up; and so does the end of its time."""
    for number in (signal.SIGTERM, signal.SIGINT):
        signal.signal(number, lambda *_: sys.exit(1))
    signal.signal(signal.SIGALRM, lambda *_: sys.exit('not done in %d seconds' % seconds))
    signal.alarm(seconds)


def unmount_below(folder):
    """What a bench that was interrupted has left mounted."""
    with open('/proc/self/mounts') as mounts:
        found = [line.split(' ')[1] for line in mounts]
    for one in reversed(found):
        if one.startswith(folder + '/'):
            LIBC.umount2(one.encode(), DETACH)


# ------------------------------------------------------------------- loop devices

def attach(path, direct=False):
    """A loop device on a file, which clears itself when it is let go: its name, and a descriptor that keeps it."""
    file = os.open(path, os.O_RDWR)
    control = os.open('/dev/loop-control', os.O_RDWR)
    try:
        for _ in range(1000):
            number = fcntl.ioctl(control, LOOP_FREE)
            name = '/dev/loop%d' % number
            device = os.open(name, os.O_RDWR)
            info = struct.pack('<5Q4I64s64s32s2Q', 0, 0, 0, 0, 0, 0, 0, 0, AUTOCLEAR | (DIRECT if direct else 0),
                               path.encode()[-63:], b'', b'', 0, 0)
            try:
                fcntl.ioctl(device, LOOP_CONFIGURE, bytearray(struct.pack('<II', file, SECTOR) + info + bytes(64)))
                return name, device
            except OSError as fault:
                os.close(device)
                if fault.errno != errno.EBUSY:
                    raise
                time.sleep(0.001)
        raise OSError(errno.EBUSY, 'no loop device')
    finally:
        os.close(control)
        os.close(file)


class Mounted(Closing):
    """The file system of an image's file (or of a disk's), mounted on a folder; `journal` is a file in it."""

    def __init__(self, path, folder, options='', direct=False):
        self.folder, self.journal = folder, os.path.join(folder, 'club.journal')
        os.makedirs(folder, exist_ok=True)
        name, device = attach(path, direct)
        try:
            mount(name, folder, 'ext4', 0, options)
        finally:
            os.close(device)

    def close(self):
        unmount(self.folder)

    def blocks(self):
        return extents(self.journal)

    def given_up(self):
        """Whether the file system itself takes no more writes, as after a journal of its own that failed."""
        try:
            with open(os.path.join(self.folder, 'probe'), 'wb') as out:
                out.write(b'probe')
                os.fsync(out.fileno())
            return False
        except OSError:
            return True


class Attached(Mounted):
    """The same without a file system: `journal` is the loop device."""

    def __init__(self, path, folder='', options='', direct=False):
        self.journal, self.device = attach(path, direct)
        self.size = os.path.getsize(path)

    def close(self):
        os.close(self.device)

    def blocks(self):
        return [(0, 0, self.size, True)]

    def given_up(self):
        return False


def stood(path, folder, options, direct=False):
    """What stands on an image: with None for options the journal itself, else a file system with it."""
    return (Attached if options is None else Mounted)(path, folder, options, direct)


def made_image(path, size, block, journal):
    """An empty ext4 in a file of so many MiB, with blocks of so many bytes; its bytes."""
    put(path, bytes(size << 20))
    environment = dict(os.environ, PATH=os.environ['PATH'] + ':/usr/sbin:/sbin')
    subprocess.run(['mkfs.ext4', '-q', '-F', '-b', str(block), '-N', '64', '-m', '0', '-J', 'size=%d' % journal, '-E',
                    'lazy_itable_init=0,lazy_journal_init=0,nodiscard', path], check=True, env=environment)
    return data(path)


def extents(path):
    """Where a file's bytes stand on its device: (place in the file, place on the device, length, is it written)."""
    file = os.open(path, os.O_RDONLY)
    try:
        room = 256
        data = bytearray(struct.pack('<QQIIII', 0, 2 ** 64 - 1, FIEMAP_SYNC, 0, room, 0) + bytes(56 * room))
        fcntl.ioctl(file, FIEMAP, data)
        count = struct.unpack_from('<I', data, 20)[0]
        found = [struct.unpack_from('<QQQQQI', data, 32 + 56 * at) for at in range(count)]
        return [(logical, physical, length, not flags & NOT_WRITTEN)
                for logical, physical, length, _, _, flags in found]
    finally:
        os.close(file)


# ------------------------------------------------------------------- the disk

class Disk:
    """A disk that begins with these bytes; its file is `path`, what it holds now `held`."""

    def __init__(self, folder, image):
        self.folder = os.path.join(folder, 'fuse')
        self.path = os.path.join(self.folder, 'disk')
        os.makedirs(self.folder, exist_ok=True)
        self.held = mmap.mmap(-1, len(image))
        self.held[:] = image
        self.log_path = os.path.join(folder, 'log')
        # (a word of it is written and read as one; struct would write it byte by byte)
        self.shared = memoryview(mmap.mmap(-1, 4096)).cast('Q')
        fuse = os.open('/dev/fuse', os.O_RDWR)
        mount('disk', self.folder, 'fuse', 0, 'fd=%d,rootmode=40000,user_id=0,group_id=0' % fuse)
        log = open(self.log_path, 'wb', buffering=0)
        sys.stdout.flush()
        self.process = os.fork()
        if self.process == 0:
            status = 1
            try:
                die_with_parent()
                signal.signal(signal.SIGINT, signal.SIG_IGN)
                signal.signal(signal.SIGTERM, signal.SIG_IGN)
                Server(fuse, self.held, log, self.shared).serve()
                status = 0
            finally:
                os._exit(status)
        os.close(fuse)
        log.close()

    def position(self):
        """How many events are logged."""
        return self.shared[COUNT]

    def fail(self, kind, after=0, ranges=(0, 2 ** 63)):
        """Of the coming writes into that part of the disk, or of the coming flushes, `after` are served and the next
        one fails, once."""
        self.shared[FAIL_AFTER], self.shared[FAIL_FROM], self.shared[FAIL_TO] = after, *ranges
        self.shared[FAILED] = 0
        self.shared[FAIL_KIND] = kind

    def has_failed(self):
        return self.shared[FAILED] == 1

    def events(self):
        return Log(self.log_path)

    def close(self):
        """The file system above has to be unmounted before."""
        if self.process:
            unmount(self.folder, DETACH)
            os.waitpid(self.process, 0)
            self.process = 0


class Server:
    """The process of a disk."""

    def __init__(self, fuse, held, log, shared):
        self.fuse, self.held, self.log, self.shared, self.count = fuse, held, log, shared, 0

    def serve(self):
        room = bytearray(MOST + 8192)
        view = memoryview(room)
        while True:
            try:
                size = os.readv(self.fuse, [room])
            except OSError as fault:
                if fault.errno == errno.ENODEV:
                    return
                if fault.errno in (errno.EINTR, errno.EAGAIN, errno.ENOENT):
                    continue
                raise
            code, unique, node = struct.unpack_from('<IQQ', room, 4)
            if code in (FORGET, BATCH, INTERRUPT):
                continue
            error, answer = self.answer(code, node, view[40:size])
            try:
                os.writev(self.fuse, [struct.pack('<IiQ', 16 + len(answer), -error, unique), answer])
            except OSError as fault:
                if fault.errno not in (errno.ENOENT, errno.ENODEV):
                    raise

    def answer(self, code, node, body):
        if code == WRITE:
            _, offset, size = struct.unpack_from('<QQI', body)
            return self.write(offset, body[40:40 + size])
        if code == FSYNC:
            return self.flush(), b''
        if code == READ:
            _, offset, size = struct.unpack_from('<QQI', body)
            return 0, self.held[offset:offset + size]
        if code == FALLOCATE:
            _, offset, length, mode = struct.unpack_from('<QQQI', body)
            if not mode & 0x12 or length > MOST:
                return errno.EOPNOTSUPP, b''
            return self.write(offset, bytes(length))[0], b''
        if code == LOOKUP:
            if node != 1 or bytes(body) != b'disk\0':
                return errno.ENOENT, b''
            return 0, struct.pack('<QQQQII', 2, 0, 3600, 3600, 0, 0) + self.attributes(2)
        if code in (GETATTR, SETATTR):
            return 0, struct.pack('<QII', 3600, 0, 0) + self.attributes(node)
        if code == OPEN:
            return 0, struct.pack('<QIi', 0, 1, 0)
        if code in (FLUSH, RELEASE, RELEASEDIR, DESTROY, READDIR):
            return 0, b''
        if code == OPENDIR:
            return 0, struct.pack('<QIi', 0, 0, 0)
        if code == STATFS:
            return 0, struct.pack('<5Q4I24x', 0, 0, 0, 0, 0, 4096, 255, 4096, 0)
        if code == INIT:
            # of what the kernel can: big writes, and so many pages of one
            flags = 1 << 5 | 1 << 22
            return 0, struct.pack('<IIIIHHIIHHI28x', 7, 31, 1 << 17, flags, 16, 12, MOST, 1, MOST >> 12, 0, 0)
        return errno.ENOSYS, b''

    def attributes(self, node):
        size, mode = (len(self.held), 0o100600) if node == 2 else (4096, 0o40700)
        return struct.pack('<6Q10I', node, size, size >> 9, 0, 0, 0, 0, 0, 0, mode, 1, 0, 0, 0, 4096, 0)

    def event(self, kind, offset=0, data=b''):
        self.log.write(EVENT.pack(kind, len(data), offset) + bytes(data))
        self.count += 1
        self.shared[COUNT] = self.count

    def fails(self, kind, offset=0, length=0):
        """Whether this one is to fail."""
        shared = self.shared
        low, high = shared[FAIL_FROM], shared[FAIL_TO]
        if shared[FAIL_KIND] != kind or kind == WRITE_FAILED and (offset + length <= low or offset >= high):
            return False
        if shared[FAIL_AFTER]:
            shared[FAIL_AFTER] -= 1
            return False
        shared[FAIL_KIND], shared[FAILED] = 0, 1
        return True

    def write(self, offset, data):
        if self.fails(WRITE_FAILED, offset, len(data)):
            self.event(WRITE_FAILED, offset, data)
            return errno.EIO, b''
        self.held[offset:offset + len(data)] = bytes(data)
        self.event(WROTE, offset, data)
        return 0, struct.pack('<II', len(data), 0)

    def flush(self):
        if self.fails(FLUSH_FAILED):
            self.event(FLUSH_FAILED)
            return errno.EIO
        self.event(FLUSHED)
        return 0


class Log:
    """The events of a disk: a list of (kind, place, data)."""

    def __init__(self, path):
        held, self.events, at = memoryview(data(path)), [], 0
        while at < len(held):
            kind, size, offset = EVENT.unpack_from(held, at)
            at += EVENT.size
            self.events.append((kind, offset, held[at:at + size]))
            at += size
        # after how many events each flush stood
        self.flushes = [at + 1 for at, event in enumerate(self.events) if event[0] == FLUSHED]

    def __len__(self):
        return len(self.events)

    def last_flush(self, position):
        """After how many of the first `position` events all that was written before was stable."""
        found = bisect.bisect_right(self.flushes, position)
        return self.flushes[found - 1] if found else 0

    def pending(self, position):
        """The writes that were not stable after so many events."""
        return [(offset, data) for kind, offset, data in self.events[self.last_flush(position):position]
                if kind == WROTE]


class Replay:
    """The stable bytes of a disk, taken forward along its log."""

    def __init__(self, image, log):
        self.bytes, self.log, self.at = bytearray(image), log, 0

    def go(self, position):
        """To the bytes after so many events, with all writes until then."""
        for kind, offset, data in self.log.events[self.at:position]:
            if kind == WROTE:
                self.bytes[offset:offset + len(data)] = data
        self.at = position
