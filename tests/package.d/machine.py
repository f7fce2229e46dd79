"""What the scripts here have in common: they run as root in a Debian with dconf's packages that is thrown away, where /given has ours."""
import hashlib
import os
import re
import shutil
import stat
import subprocess
import sys
import tempfile
import threading
import time
from pathlib import Path

sys.dont_write_bytecode = True
HERE, GIVEN, HOME, RUN = Path(__file__).resolve().parent, Path('/given'), Path('/root'), Path('/run/user/0')
NAMES = ['dconfdb', 'libdconfdb0', 'libdconfdb-dev', 'dconfdb-gsettings-backend', 'dconfdb-libdconf', 'libdconf1-dconfdb']
# The four in whose place ours is; and one that can't be without them.
DCONFS, DEV = ['libdconf1', 'dconf-service', 'dconf-gsettings-backend', 'dconf-cli'], 'libdconf-dev'
FILE, OWN = HOME / '.config/dconf/user', HOME / '.config/dconfdb/user.user'
DEFAULT, STORE = Path('/etc/dconfdb/default'), Path('/etc/dconfdb/store')
INTERFACE, LOCKDOWN, MAGNIFIER = 'org.gnome.desktop.interface', 'org.gnome.desktop.lockdown', 'org.gnome.desktop.a11y.magnifier'


def run(*words, status=0, **more):
    """What a program prints, on stderr too; it ends with that status."""
    ran = subprocess.run([str(it) for it in words], stdin=subprocess.DEVNULL, stdout=subprocess.PIPE, stderr=subprocess.STDOUT, text=True, check=False, **more)
    if ran.returncode != status:
        sys.exit(f'{" ".join(map(str, words))}: status {ran.returncode}\n{ran.stdout[-3000:]}')
    return ran.stdout.strip()


def same(what, seen, wanted):
    if seen != wanted:
        sys.exit(f'{what}: {seen!r}, and not {wanted!r}')


def until(what, holds, seconds=20):
    end = time.monotonic() + seconds
    while not holds():
        if time.monotonic() > end:
            sys.exit(f'{what}: not within {seconds} seconds')
        time.sleep(0.02)


# ---- packages

def apt(*words):
    return run('apt-get', '-y', '--no-install-recommends', *words)


def packages(folder=GIVEN, names=NAMES):
    return [next(folder.glob(f'{it}_*.deb')) for it in names]


def status(name):
    ran = subprocess.run(['dpkg-query', '-W', '-f', '${db:Status-Status}', name], capture_output=True, text=True, check=False)
    return ran.stdout or 'not known'


def puts_dconf_back():
    apt('install', *DCONFS, DEV)
    same('which packages are there', [status(it) for it in [*DCONFS, DEV, 'libdconf1-dconfdb']], ['installed'] * 5 + ['not known' if status('libdconf1-dconfdb') == 'not known' else 'config-files'])


def changed(package, into, edit):
    """The package once more, in the folder `into`, with another control file."""
    with tempfile.TemporaryDirectory() as folder:
        run('dpkg-deb', '-R', package, folder)
        control = Path(folder, 'DEBIAN/control')
        control.write_text(edit(control.read_text(encoding='utf-8')), encoding='utf-8')
        run('dpkg-deb', '-Znone', '-b', folder, into)


def of_version(version, of=None):
    """Our packages once more, as those of a later version. Their files are others, of the same bytes."""
    def edit(text):
        old = re.search(r'^Version: (.*)', text, re.M)[1]
        return text.replace(f'Version: {old}\n', f'Version: {version}\n').replace(f'(= {old})', f'(= {version})')

    folder = Path(tempfile.mkdtemp())
    for package in of or packages():
        changed(package, folder, edit)
    return packages(folder)


def listed():
    """Everything in /usr, /etc and dpkg's info by its path, and the packages."""
    found = {line: '' for line in run('dpkg-query', '-W', '-f', '${Package} ${Version} ${db:Status-Status}\n').splitlines()}
    for top in ['/usr', '/etc', '/var/lib/dpkg/info']:
        for at, folders, names in os.walk(top):
            for name in folders + names:
                path = Path(at, name)
                is_ = path.lstat()
                what = os.readlink(path) if path.is_symlink() else hashlib.sha256(path.read_bytes()).hexdigest() if stat.S_ISREG(is_.st_mode) else ''
                found[str(path)] = is_.st_mode, is_.st_uid, is_.st_gid, what
    return found


def differences(before, after):
    return [it for it in sorted({*before, *after}) if before.get(it) != after.get(it) and '__pycache__' not in it]


# ---- settings

def put(text, **variables):
    return run('gsettings', 'set', INTERFACE, 'font-name', text, env=os.environ | variables)


def get(**variables):
    return run('gsettings', 'get', INTERFACE, 'font-name', env=os.environ | variables).splitlines()[-1]


KEYS = [(INTERFACE, 'font-name'), (INTERFACE, 'text-scaling-factor'), (INTERFACE, 'clock-format'), (LOCKDOWN, 'disable-command-line'), (MAGNIFIER, 'mag-factor')]
PATHS = [f'/{schema.replace(".", "/")}/{key}' for schema, key in KEYS]
PROFILE = 'user-db:user\nsystem-db:site\nfile-db:/etc/dconf/db/doubles\n'
SITE = "[org/gnome/desktop/lockdown]\ndisable-command-line=true\n[org/gnome/desktop/interface]\nclock-format='12h'\n"
USERS = "[org/gnome/desktop/interface]\nfont-name='mine'\ntext-scaling-factor=1.25\n[org/gnome/desktop/lockdown]\ndisable-command-line=false\n"
DOUBLES = '[org/gnome/desktop/a11y/magnifier]\nmag-factor=3.5\n'
WANTED = [("'mine'", 'true'), ('1.25', 'true'), ("'12h'", 'true'), ('true', 'false'), ('3.5', 'true')]


# What a command of ours says of these is that they have no text.
DOUBLE_OF = {PATHS[1]: '1.25', PATHS[4]: '3.5'}


def seen(**variables):
    """What GSettings says of those settings: each value, and whether it can be set."""
    return [tuple(run('gsettings', how, *key, env=os.environ | variables) for how in ['get', 'writable']) for key in KEYS]


def asked():
    """The same by libdconf."""
    return [tuple(line.rsplit(' ', 1)) for line in run('/tmp/asks', *PATHS).splitlines()]


def explained():
    """The same by our command, which prints no double."""
    def one(path):
        lines = dict(it.split('\t')[:2] for it in run('dconfdb', 'explain', '--user', path).splitlines())
        return lines['seen'], {'yes': 'true', 'no': 'false'}[lines['writable']]

    return [(DOUBLE_OF.get(path, seen) if seen == 'a double, not printed' else seen, can) for path, (seen, can) in ((it, one(it)) for it in PATHS)]


def read():
    """The same values by the command dconf; ours prints no double, and says so."""
    def one(path):
        ran = subprocess.run(['dconf', 'read', path], stdin=subprocess.DEVNULL, stdout=subprocess.PIPE, stderr=subprocess.STDOUT, text=True, check=False)
        return DOUBLE_OF.get(path) if (ran.returncode, ran.stdout) == (1, 'error: DoubleText\n') else ran.stdout.strip()

    return [one(it) for it in PATHS]


def compiles(name):
    flags = run('pkg-config', '--cflags', '--libs', 'dconf', 'gio-2.0').split()
    run('cc', '-Wall', '-Wextra', '-Werror', HERE / f'{name}.c', *flags, '-o', f'/tmp/{name}')


def of_dconf():
    """Settings of dconf's: a profile, a site's database with a lock, another with a double, and a user's file with a double. Where they are."""
    site = Path('/etc/dconf/db/site.d')
    (site / 'locks').mkdir(parents=True)
    (site / '00-site').write_text(SITE, encoding='utf-8')
    (site / 'locks/00-site').write_text(f'{PATHS[3]}\n', encoding='utf-8')
    profile = Path('/etc/dconf/profile/user')
    profile.parent.mkdir(exist_ok=True)
    profile.write_text(PROFILE, encoding='utf-8')
    run('dconf', 'update')
    with tempfile.TemporaryDirectory() as folder:
        FILE.parent.mkdir(mode=0o700, parents=True)
        for made, text in [(site.with_name('doubles'), DOUBLES), (FILE, USERS)]:
            Path(folder, 'keys').write_text(text, encoding='utf-8')
            run('dconf', 'compile', made, folder)
    return [site, site.with_suffix(''), site.with_name('doubles'), profile, FILE]


# ---- what runs meanwhile

def begins_session():
    """A session's bus, whose variables are set."""
    RUN.mkdir(parents=True, exist_ok=True)
    RUN.chmod(0o700)
    os.environ |= {'XDG_RUNTIME_DIR': str(RUN), 'DBUS_SESSION_BUS_ADDRESS': f'unix:path={RUN}/bus'}
    (RUN / 'bus').unlink(missing_ok=True)
    with open('/tmp/bus', 'ab') as said:
        bus = subprocess.Popen(['dbus-daemon', '--session', '--nofork', '--nopidfile', f'--address=unix:path={RUN}/bus'], stdin=subprocess.DEVNULL, stdout=said, stderr=said)
    until('the bus', (RUN / 'bus').exists)
    return bus


def leads(link):
    """Where it does, or nothing."""
    try:
        return os.readlink(link)
    except OSError:
        return ''


def owner():
    """The file of the program that has dconf's name on the bus, or nothing."""
    ran = subprocess.run(['dbus-send', '--session', '--print-reply=literal', '--dest=org.freedesktop.DBus', '/org/freedesktop/DBus', 'org.freedesktop.DBus.GetConnectionUnixProcessID',
                          'string:ca.desrt.dconf'], capture_output=True, text=True, check=False)
    return os.readlink(f'/proc/{ran.stdout.split()[-1]}/exe') if ran.returncode == 0 else None


# What the loader says where a library is missing, or is of another version than another one.
LOADERS = re.compile(r"error while loading shared libraries: |symbol lookup error: |version `\S+' not found ")


def is_debians(status, out, said):
    """Whether a program couldn't begin for libraries none of which is ours: on the way to another Debian dpkg replaces those, too."""
    return status in (1, 127) and not out and bool(LOADERS.search(said)) and 'dconf' not in said


class Meanwhile:
    """Runs a program over and over, which is to print the same each time. With `passes`, runs of which that says so don't count."""

    def __init__(self, *words, passes=None):
        self.words, self.passes, self.count, self.passed, self.wrong, self.is_over = words, passes, 0, [], [], False
        self.wanted = self.once()
        self.thread = threading.Thread(target=self.repeats, daemon=True)
        self.thread.start()

    def once(self):
        ran = subprocess.run(self.words, stdin=subprocess.DEVNULL, capture_output=True, text=True, check=False)
        return ran.returncode, ran.stdout, ran.stderr if ran.returncode else ''

    def repeats(self):
        while not self.is_over:
            self.count += 1
            now = self.once()
            if now != self.wanted:
                (self.passed if self.passes and self.passes(*now) else self.wrong).append(now)

    def stops(self):
        self.is_over = True
        self.thread.join()

    def ends(self):
        """How many runs there were."""
        self.stops()
        same(f'of {self.count} runs of {self.words[0]} those that print something else', self.wrong[:3], [])
        if self.count < 5 or len(self.passed) * 10 > self.count:
            sys.exit(f'{self.words[0]} ran {self.count} times, of which {len(self.passed)} say nothing: {self.passed[:1]}')
        return self.count


class Program:
    """One over GSettings that runs, and is told of what others set."""

    def __init__(self):
        with open('/tmp/listens', 'ab') as said:
            self.process = subprocess.Popen([HERE / 'listens'], stdin=subprocess.PIPE, stdout=subprocess.PIPE, stderr=said, text=True)
        self.has = self.says('has ').removeprefix('has ')

    def says(self, begin):
        line = self.process.stdout.readline()
        if not line.startswith(begin):
            sys.exit(f'the program says {line!r}, and not {begin!r}: {Path("/tmp/listens").read_text(encoding="utf-8")}')
        return line.strip()

    def is_told(self, text):
        """What it has is told again now and then, by dconf's backend."""
        while (line := self.says('changed ')) != f'changed {text}':
            if line != f'changed {self.has}':
                sys.exit(f'the program says {line!r}, and not {text!r}')
        self.has = text

    def sets(self, text):
        print('set', text, file=self.process.stdin, flush=True)
        self.is_told(text)
        self.says('kept')

    def ends(self):
        self.process.stdin.close()
        same('how the program ends', self.process.wait(20), 0)
        # Many others write, and on a slow machine it says that it waits for them.
        said = Path('/tmp/listens').read_text(encoding='utf-8').splitlines()
        same('what it says of the backend', [it for it in said if 'dconf' in it and 'goes on waiting' not in it], [])


class Setters:
    """Programs that set keys of their own all along, on whichever backend they have at their start."""

    def __init__(self, name, count):
        self.begun, self.is_over, self.thread = [], False, None
        for number in range(count):
            self.begins(f'{name}{number}')
        until('the first set of each', lambda: all(Path(f'/tmp/sets.{it}').stat().st_size for it, _ in self.begun), 120)

    def begins(self, name, *words):
        with open(f'/tmp/sets.{name}', 'wb') as out, open('/tmp/sets', 'ab') as said:
            self.begun.append((name, subprocess.Popen([HERE / 'sets', name, *words], stdin=subprocess.PIPE, stdout=out, stderr=said)))

    def keeps_beginning(self, name, count):
        """From now on, one after another, each of which sets so many keys and ends."""
        def begin():
            number = 0
            while not self.is_over:
                self.begins(f'{name}{number}', str(count))
                self.begun[-1][1].wait()
                number += 1

        self.thread = threading.Thread(target=begin, daemon=True)
        self.thread.start()

    def ends(self):
        """What each kept, as (its name, the number), and how many were refused."""
        self.is_over = True
        if self.thread:
            self.thread.join()
        for name, it in self.begun:
            it.stdin.close()
            same(f'how {name} ends', it.wait(120), 0)
        lines = [(name, line.split()) for name, _ in self.begun for line in Path(f'/tmp/sets.{name}').read_text(encoding='utf-8').splitlines()]
        return [(name, int(number)) for name, (how, number) in lines if how == 'kept'], sum(how == 'refused' for _, (how, _) in lines)


def lost(kept):
    """Which of the keys that programs kept are not there, by the command dconf, whosever it is."""
    keys = run('dconf', 'dump', '/sets/')
    there = {(name, int(number)) for name, number, again in re.findall(r"^\[(\w+)/(\d+)\]\nname='is (\d+)'$", keys, re.M) if number == again}
    return sorted({*kept} - there)


def removes(*paths):
    for it in paths:
        shutil.rmtree(it) if it.is_dir() else it.unlink(missing_ok=True)
