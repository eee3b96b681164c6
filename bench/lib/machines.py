"""Machines for benches: a Debian of debootstrap, booted by systemd-nspawn in namespaces of its own."""

import contextlib
import os
import shutil
import signal
import subprocess
import sys
import time

from lib.disk import die_with_parent
from lib.program import Wrong, is_soon, put, wrong_if

SYSTEMD = ('systemd', 'systemd-sysv', 'sudo', 'procps')


def make_debian(root, *packages):
    """A Debian in a new folder, with systemd and these packages."""
    # (what it mounts meanwhile is gone with it)
    words = ['unshare', '--mount', 'debootstrap', '--variant=minbase', '--include=' + ','.join((*SYSTEMD, *packages))]
    subprocess.run([*words, 'bookworm', root], check=True, stdout=subprocess.DEVNULL)


class Group:
    """A control group for a machine of a bench's run, in each hierarchy that systemd looks at: two machines in one
    would each take the other's programs for its own."""

    def __init__(self, run, name):
        name = 'bench-%s-%s' % (run, name)
        with open('/proc/self/mounts') as file:
            rows = [row.split() for row in file]
        self.folders = [os.path.join(top, name) for _, top, kind, how, *_ in rows
                        if kind == 'cgroup2' or kind == 'cgroup' and 'name=systemd' in how.split(',')]

    def enter(self):
        for folder in self.folders:
            os.makedirs(folder, exist_ok=True)
            put(os.path.join(folder, 'cgroup.procs'), '0')

    def is_removed(self):
        """Takes it away, once its processes have ended."""
        for folder in self.folders:
            for path, *_ in os.walk(folder, topdown=False):
                with contextlib.suppress(OSError):
                    os.rmdir(path)
        return not any(map(os.path.exists, self.folders))


class Machine:
    """A booted Debian: the folder of its files, and further words of systemd-nspawn. `named` is its name."""

    def __init__(self, root, named, *words, group=None):
        self.root, self.named, self.words, self.group = root, named, words, group
        self.log = open(root + '.log', 'w+b')
        self.name_and_boot()

    def name_and_boot(self):
        # (sudo looks its own machine up)
        for name, text in (('hostname', self.named + '\n'), ('hosts', '127.0.0.1 localhost %s\n' % self.named)):
            put('%s/etc/%s' % (self.root, name), text)
        self.boot()

    def boot(self):
        words = ['systemd-nspawn', '--quiet', '--register=no', '--keep-unit', '--console=pipe', *self.words, '-D',
                 self.root, '--boot']
        self.nspawn = subprocess.Popen(words, stdin=subprocess.DEVNULL, stdout=self.log, stderr=self.log,
                                       preexec_fn=self.group and self.group.enter)
        for _ in range(600):
            time.sleep(0.2)
            if self.leader() and self.said('systemctl is-system-running')[1].strip() in ('running', 'degraded'):
                return
        raise Wrong('the Debian has not booted: %s' % self.said('systemctl --failed')[1])

    def leader(self):
        """The process that is number 1 in there."""
        with open('/proc/%d/task/%d/children' % (self.nspawn.pid, self.nspawn.pid)) as file:
            return next(iter(file.read().split()), None)

    def said(self, commands, seconds=120):
        """Commands that are pasted there, in root's folder: the status of the first that fails, none where they do not
        end, and what they say."""
        inside = ['nsenter', '--target', self.leader(), '--all', 'bash', '-e', '-c', 'cd /root\n' + commands]
        try:
            done = subprocess.run(inside, cwd='/', capture_output=True, text=True, timeout=seconds)
        except subprocess.TimeoutExpired:
            return None, 'nothing in %d s' % seconds
        return done.returncode, done.stdout + done.stderr

    def ends(self):
        self.said('poweroff')
        try:
            self.nspawn.wait(30)
        except subprocess.TimeoutExpired:
            self.kill()
        self.log.close()

    def kill(self):
        """All of its processes end at once."""
        leader = self.leader()
        os.kill(int(leader) if leader else self.nspawn.pid, signal.SIGKILL)
        self.nspawn.wait()


# ------------------------------------------------------------------- machines that are joined

ALONE = 'BENCH_ALONE'           # tells a bench that it is in namespaces of its own, and whose they are


def sh(*words):
    subprocess.run(words, check=True, stdout=subprocess.DEVNULL)


def alone(names, words, environment):
    """Runs this bench once more with these words besides, in namespaces of its own for mounts, network and processes:
    when it ends, however it does, so does all that it has begun there. Its status. Machines of these names may be in
    there."""
    how = ['unshare', '--net', '--mount', '--pid', '--fork', '--kill-child', '--mount-proc', sys.executable]
    run = subprocess.Popen(how + sys.argv + words, env={**os.environ, **environment, ALONE: str(os.getpid())},
                           preexec_fn=die_with_parent)
    try:
        return run.wait()
    finally:
        for number in (signal.SIGTERM, signal.SIGINT, signal.SIGALRM):
            signal.signal(number, signal.SIG_IGN)
        run.kill()
        run.wait()
        for name in names:
            is_soon(Group(os.getpid(), name).is_removed, 60)


def make_bridge(address):
    """In namespaces of its own: what Joined machines are joined by, and this bench's own address there."""
    sh('mount', '--make-rprivate', '/')
    os.makedirs('/run/netns', exist_ok=True)
    sh('mount', '-t', 'tmpfs', 'none', '/run/netns')
    sh('ip', 'link', 'set', 'lo', 'up')
    sh('ip', 'link', 'add', 'bridge', 'type', 'bridge')
    sh('ip', 'address', 'add', address, 'dev', 'bridge')
    sh('ip', 'link', 'set', 'bridge', 'up')


class Joined(Machine):
    """A machine of a name and an address, over a Debian that stays as it is, joined to the bridge. Its /srv is a folder
    of the disk."""

    def __init__(self, folder, debian, name, address, *words):
        self.name, self.address, self.debian = name, address, debian
        self.folders = [os.path.join(folder, name, it) for it in ('root', 'srv', 'upper', 'work')]
        self.put_files()
        sh('ip', 'netns', 'add', name)
        sh('ip', 'link', 'add', name, 'type', 'veth', 'peer', 'name', 'eth0', 'netns', name)
        root, srv, *_ = self.folders
        super().__init__(root, name, '--network-namespace-path=/run/netns/' + name,
                         '--capability=CAP_NET_ADMIN,CAP_NET_RAW', f'--bind={srv}:/srv', *words,
                         group=Group(os.environ[ALONE], name))

    def put_files(self):
        """Its files are those of the Debian alone."""
        for folder in self.folders:
            shutil.rmtree(folder, ignore_errors=True)
            os.makedirs(folder)
        root, _, upper, work = self.folders
        sh('mount', '-t', 'overlay', 'overlay', '-o', f'lowerdir={self.debian},upperdir={upper},workdir={work}', root)
        # (so what it tells outlives its end)
        os.makedirs(root + '/var/log/journal', exist_ok=True)

    def anew(self):
        """Another machine in its place, which is off."""
        sh('umount', self.root)
        self.put_files()
        self.name_and_boot()

    def boot(self):
        within = ('ip', '-n', self.name)
        sh(*within, 'address', 'flush', 'dev', 'eth0')
        sh(*within, 'address', 'add', self.address, 'dev', 'eth0')
        sh(*within, 'link', 'set', 'lo', 'up')
        sh(*within, 'link', 'set', 'eth0', 'up')
        self.pass_on(True)
        self.light(True)
        super().boot()

    def pass_on(self, does):
        """Whether its link passes on what comes."""
        sh('ip', 'link', 'set', self.name, *(('master', 'bridge') if does else ('nomaster',)))

    def light(self, is_on):
        """Whether its link is up."""
        sh('ip', 'link', 'set', self.name, 'up' if is_on else 'down')

    def power_off(self):
        self.light(False)
        self.kill()

    def run(self, commands):
        """What commands say there, none of which may fail."""
        status, text = self.said(commands, 300)
        wrong_if(status != 0, '%s says to %r: %s' % (self.name, commands, text))
        return text
