"""Rows with our backend and dconf's beside each other, for the parts that ask both in one run. Each row is printed with both columns, and fails if ours is
worse. Where dconf has no such thing, its column is -, and ours has to be what the row wants."""
import os
import shutil
import signal
import statistics
import subprocess

import desk
import homes
from desk import HOME, Stop, run

KINDS = ['dconfdb', 'dconf']
MODULES, SCHEMAS = os.environ['GIO_EXTRA_MODULES'], os.environ['GSETTINGS_SCHEMA_DIR']
PROGRAM = {name: desk.made(name) for name in ('beside', 'moments', 'turns', 'waits')}
REFUSES, WHOLE = HOME / 'refuses.so', HOME / 'whole'
HANGS, LONGEST = 'hangs', 8
worse = []


class Home:
    """A row's own home, with a user's database, a site's with a lock, and a profile; with dconf's backend, a session of its own."""
    count = 0

    def __init__(self, kind):
        Home.count += 1
        self.kind, self.bus, self.daemon, self.before, self.path = kind, None, None, [], HOME / f'home{Home.count}'
        self.environ = homes.environment(self.path, kind, MODULES, SCHEMAS)
        self.folder = self.path / 'config' / kind
        self.user = self.folder / {'dconfdb': 'user.user', 'dconf': 'user'}[kind]
        self.profile = self.folder / 'profile' if kind == 'dconfdb' else self.path / 'dconf.profile'
        self.site = self.path / 'site.db'
        self.folder.mkdir(parents=True)
        shutil.copy(WHOLE / 'site.db', self.site)
        self.profile.write_text(f'user-db:user\n{"# a line between the two of them" * 9}\nfile-db:{self.site}\n', encoding='utf-8')

    def begins(self, **more):
        """The session, if there is one. Its service has what is there then."""
        self.environ |= more
        if self.kind == 'dconf':
            words = [*self.before, 'dbus-daemon', f'--config-file={HOME}/bus/bus.conf', '--nofork', '--nopidfile', '--print-address=1', '--print-pid=1']
            self.bus = subprocess.Popen(words, env=self.environ, stdout=subprocess.PIPE, stderr=subprocess.DEVNULL, text=True)
            self.environ['DBUS_SESSION_BUS_ADDRESS'], self.daemon = [self.bus.stdout.readline().strip() for _ in range(2)]
        return self

    def ends(self):
        if self.bus:
            os.kill(int(self.daemon), signal.SIGTERM)
            self.bus.wait(LONGEST)
            self.bus.stdout.close()
            self.bus = None
            desk.frame.ends_children('dconf-service')

    def starts(self, *words, of='beside', own=None, **more):
        more = {'stdin': subprocess.PIPE, 'stdout': subprocess.PIPE, 'stderr': subprocess.DEVNULL} | more
        return subprocess.Popen([*self.before, PROGRAM[of], *map(str, words)], env=self.environ | (own or {}), text=True, **more)

    def says(self, *words, of='beside', **more):
        """What a program prints, by words, or that it hangs."""
        with self.starts(*words, of=of, **more) as program:
            try:
                return program.communicate(timeout=LONGEST)[0].split()
            except subprocess.TimeoutExpired:
                program.kill()
                return [HANGS]

    def name(self):
        """As a fresh process reads it."""
        return (self.says('sees') or [''])[0]

    def mark(self):
        found = self.user.stat() if self.user.exists() else None
        return found and (found.st_ino, found.st_mtime_ns)


# ---- rows

def shown(answer):
    if isinstance(answer, dict):
        missing = [what for what, holds in answer.items() if not holds]
        return f'not {", ".join(missing)}' if missing else 'all'
    return f'{answer:.2f}'.rstrip('0').rstrip('.') if isinstance(answer, float) else str(answer)


def told(title, answers, is_fine):
    """Prints a row. Of several answers of a case, how many hold."""
    columns = [shown(answers[kind]) if kind in answers else '-' for kind in KINDS]
    is_worse = not is_fine(*answers.values())
    print(f'  {title} | {" | ".join(columns)}{"  <- worse" if is_worse else ""}', flush=True)
    if is_worse:
        worse.append(title)


def asked(case, kind):
    home = Home(kind)
    try:
        return case(home)
    finally:
        home.ends()


def row(title, case, is_fine, kinds=tuple(KINDS)):
    told(title, {kind: asked(case, kind) for kind in kinds}, is_fine)


def often(title, case, times, slack=None):
    """How often a case holds; the backends take turns. A few times fewer than dconf's are no difference."""
    found = {kind: 0 for kind in KINDS}
    for _ in range(times):
        for kind in KINDS:
            found[kind] += bool(asked(case, kind))
    few = times // 5 if slack is None else slack
    told(f'{title}, of {times}', found, lambda ours, theirs: ours >= theirs - few)


def least(title, case, times, is_fine):
    """The least of several, as whatever else runs only makes it more; the backends take turns."""
    found = {kind: [] for kind in KINDS}
    for _ in range(times):
        for kind in KINDS:
            found[kind].append(asked(case, kind))
    told(f'{title}, least of {times}', {kind: min(them) for kind, them in found.items()}, is_fine)


def in_turns(title, asks, times, is_fine):
    """The median of what is asked of both; the backends take turns."""
    both = [Home(kind).begins() for kind in KINDS]
    found = {home.kind: [] for home in both}
    try:
        for home in [*both] * (times + 1):
            found[home.kind].append(asks(home))
    finally:
        for home in both:
            home.ends()
    # The first is a beginning.
    told(f'{title}, median of {times}', {kind: statistics.median(them[1:]) for kind, them in found.items()}, is_fine)


def each_part(ours, theirs):
    """Whatever holds with dconf holds with ours."""
    return all(ours[what] or not theirs[what] for what in ours)


def at_most(factor, more=0):
    return lambda ours, theirs: ours <= theirs * factor + more


def at_least(ours, theirs):
    return ours >= theirs


def alike(ours, theirs):
    return ours == theirs


def is_(wanted):
    return lambda ours, *_: ours == wanted


def last_word(home, *words):
    return (home.says(*words) or [''])[-1]


# ----

def wholes():
    """The databases that each home begins with."""
    WHOLE.mkdir()
    places = {f'org/example/place{number}': {'name': f"'the name of place {number}'"} for number in range(20)}
    desk.site({'org/example/desk': {'name': "'mine'"}} | places, into=WHOLE / 'user')
    desk.site({'org/example/desk': {'name': "'site'", 'size': 'uint32 24'}} | places, ['/org/example/desk/size'], WHOLE / 'site.db')
    for name, count in [('many', 100), ('most', 1000)]:
        desk.site({f'dir/{it}': {f'key-{key}': f"'text {key}'" for key in range(10)} for it in range(count)}, into=WHOLE / name)
    (WHOLE / 'odd').write_text('[org/example/desk]\nname=5\n', encoding='utf-8')


def printed(groups):
    """Prints the rows of all groups, or of those that ROWS names, and gives the last line."""
    desk.frame.adopts()
    for tool, package in [('dbus-daemon', 'dbus'), ('strace', 'strace'), ('dconf', 'dconf-cli')]:
        desk.frame.needs(tool, package)
    (HOME / 'bus').mkdir()
    homes.bus(HOME / 'bus')
    run('gcc', '-std=gnu11', '-O1', '-Wall', '-Wextra', '-Werror', '-fPIC', '-shared', desk.HERE / 'refuses.c', '-o', REFUSES)
    wholes()
    wanted = [name for name in groups if name in os.environ.get('ROWS', ' '.join(groups)).split()]
    for name in wanted:
        groups[name]()
    if worse:
        raise Stop(f'worse than dconf: {"; ".join(worse)}')
    return f'{", ".join(wanted)}: at least as good as dconf in each row'
