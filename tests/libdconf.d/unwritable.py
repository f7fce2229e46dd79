"""A store that can't be written, one that is damaged, and one that others hold: what a sync change answers, and what becomes of a fast one."""
import contextlib
import errno
import fcntl
import os
import resource
import shutil
import signal
import subprocess
import threading

import frame
import homes
from frame import Stop

WRITES = '''watch sync /
write sync /u/k 1
write fast /u/k 2
read 0 /u/k
sync
settle 50
read 0 /u/k
'''


def asked(both, driver, given, setup, **how):
    """What the driver says in a store of its own, made by `setup`."""
    store = both.folder / 'unwritable'
    subprocess.run(['rm', '-rf', store], check=True)
    store.mkdir()
    setup(store)
    env = both.environment('ours') | {'DCONFDB_STORE': str(store)}
    done = subprocess.run([driver], env=env, input=given, capture_output=True, text=True, timeout=60, check=False, **how)
    if done.returncode:
        raise Stop(f'the driver: status {done.returncode}, {done.stdout}{done.stderr}')
    return done.stdout, done.stderr


def same(what, found, wanted):
    if found != wanted:
        raise Stop(f'{what}: {found!r}, not {wanted!r}')


def write_nothing():
    """A program that may write no file."""
    signal.signal(signal.SIGXFSZ, signal.SIG_IGN)
    resource.setrlimit(resource.RLIMIT_FSIZE, (0, 0))


def without_files(both, driver):
    """A fast change while no descriptor is left: it is read, waits, and is kept when there are some, as with dconf's library, by which it isn't read
    meanwhile."""
    given = 'write sync /w/k 1\nstarve\nwrite fast /w/k 2\nread 0 /w/k\nsettle 300\nread 0 /w/k\nfeed\nsync\nread 0 /w/k\nread 2 /w/k\n'
    theirs, ours = (both.ran(whose, [driver], given, timeout=60) for whose in ('theirs', 'ours'))
    ours, theirs = (it[1].split('feed\n') for it in (ours, theirs))
    same('a fast change without descriptors, with ours and with dconf', ours[1], theirs[1])
    same('a fast change without descriptors', [line for line in ours[0].split('\n') if line.startswith('  ')], ['  1', '  changed /w/k [] NULL', '  1', '  2', '  2'])


def full(both, driver):
    """Nothing can be written, as on a full disk: a sync change fails, and a fast one goes on waiting."""
    out, err = asked(both, driver, WRITES, lambda store: None, preexec_fn=write_nothing)
    same('a sync change that fails', out.split('\n')[2], '  0 dconf_error 0 ' + out.split('\n')[2].removeprefix('  0 dconf_error 0 '))
    same('a fast one', out.split('\n')[3:7], ['write fast /u/k 2', '  changed /u/k [] NULL', '  1', 'read 0 /u/k'])
    same('goes on waiting', out.split('\n')[8:], ['sync', 'settle 50', 'read 0 /u/k', '  2', ''])
    if err.count('what was changed is not on the disk yet') != 2:
        raise Stop(f'a fast change that waits: {err}')


@contextlib.contextmanager
def small_disk(folder):
    """A file system of 64 KiB in the place of that folder, with its files."""
    files = [it for it in folder.iterdir() if it.is_file()] if folder.exists() else []
    kept = [(it.name, it.read_bytes()) for it in files]
    folder.mkdir(parents=True, exist_ok=True)
    subprocess.run(['mount', '-t', 'tmpfs', '-o', 'size=64k,mode=0700', 'none', folder], check=True)
    try:
        for name, content in kept:
            (folder / name).write_bytes(content)
        yield folder / 'fill'
    finally:
        subprocess.run(['umount', '-l', folder], check=True)


def fill(file):
    """The disk that it is on."""
    with open(file, 'wb', buffering=0) as rest, contextlib.suppress(OSError):
        while rest.write(bytes(4096)):
            pass


def says(program, given):
    """What the driver answers to these lines."""
    program.stdin.write(given + 'writable /\n')
    program.stdin.flush()
    found = []
    while not found or found[-1] != 'writable /':
        found.append(program.stdout.readline().rstrip('\n'))
        if program.poll() is not None:
            raise Stop(f'the driver ended: {found}')
    program.stdout.readline()
    return [it for it in found if it.startswith('  ')]


def on_a_full_disk(both, driver, whose):
    """What is read of a fast change on a full disk; what is stored then, and when there is room again; and what is said of it."""
    folder = both.homes[whose] / 'config' / ('dconfdb' if whose == 'ours' else 'dconf')
    with small_disk(folder) as filler, subprocess.Popen([driver], env=both.environment(whose), stdin=subprocess.PIPE, stdout=subprocess.PIPE,
                                                        stderr=subprocess.PIPE, text=True) as program:
        says(program, 'write sync /v/k 1\n')
        fill(filler)
        first = says(program, 'write fast /v/k 2\nread 0 /v/k\n')
        amid = says(program, 'settle 2000\nread 0 /v/k\n')
        filler.unlink()
        later = says(program, 'settle 2500\nread 0 /v/k\n')
        stored = both.ran(whose, [driver], 'read 0 /v/k\n')[1].split('\n')[1]
        err = program.communicate(timeout=60)[1]
    return first[-1], amid[-1], later[-1], stored, err


def without_room(both, driver):
    """A full disk, which has room again later: with ours a fast change is read, waits, and is kept; dconf's library takes it back, and it is lost."""
    if os.getuid() != 0:
        return
    ours, theirs = (on_a_full_disk(both, driver, whose) for whose in ('ours', 'theirs'))
    same('a fast change on a full disk, with ours', ours[:4], ('  2', '  2', '  2', '  2'))
    same('one that is lost, with dconf', theirs[3], '  1')
    if ours[4].count('No space left') != 1:
        raise Stop(f'the warnings of a full disk: {ours[4]}')


def no_user(both, driver):
    """A profile without a user's database: nothing is writable."""
    given = 'writable /u/k\nwrite sync /u/k 1\nwrite fast /u/k 1\nwrite sync /u/k -\nwrite fast /u/k -\nlocks /\n'
    out, err = asked(both, driver, given, lambda store: (store / 'profile').write_text('system-db:site\n', encoding='utf-8'))
    refused = '  0 dconf_error 2 The operation attempted to modify one or more non-writable keys'
    same('without a user', [line for line in out.split('\n') if line.startswith('  ')], ['  0', refused, refused, refused, '  1', '  1 /'])
    same('without a user, on stderr', err, '')


def damaged(both, driver):
    """A user's file that is no database is set aside at the first change."""
    out, err = asked(both, driver, 'read 0 /u/k\nwrite sync /u/k 1\nread 0 /u/k\n', lambda store: (store / 'user.user').write_bytes(b'no database' * 100))
    same('a damaged file', [line for line in out.split('\n') if line.startswith('  ')], ['  NULL', '  1', '  1'])
    if not (both.folder / 'unwritable' / 'user.user~1').exists() or err.count('WARNING') < 1:
        raise Stop(f'a damaged file: {err}')


def held(both, driver):
    """Others hold the store's lock for two seconds: a fast change waits and is read, a sync one comes after it."""
    def setup(store):
        with open(store / '.lock', 'w', encoding='utf-8') as file:
            fcntl.flock(file, fcntl.LOCK_EX)
            subprocess.Popen(['sleep', '2'], pass_fds=[file.fileno()])
    out, err = asked(both, driver, 'write fast /u/k 1\nread 0 /u/k\nread 2 /u/k\nread 1 /u/k\nwrite sync /u/l 2\nread 2 /u/k\nread 0 /u/l\nlist /u/\n', setup)
    wanted = ['  changed /u/k [] NULL', '  1', '  1', '  1', '  NULL', '  1', '  1', '  2', '  2 k l']
    same('a held lock', [line for line in out.split('\n') if line.startswith('  ')], wanted)
    same('a held lock, on stderr', err, '')


def compile_site(store, locks):
    """The site's database, with these locks alone."""
    (store / 'site').mkdir(exist_ok=True)
    (store / 'site' / 'locks').write_text(locks, encoding='utf-8')
    subprocess.run([frame.program(), 'compile', 'db', '--locks', 'locks'], cwd=store / 'site', check=True)


def opened_late(both, driver):
    """A store that can't be opened at first: what is wrong with its other files is warned of once it is, before anything changes."""
    library, fails, store = both.folder / 'refuses.so', both.folder / 'fails', both.folder / 'unwritable'
    subprocess.run(['gcc', '-shared', '-fPIC', homes.HERE / 'refuses.c', '-o', library], check=True)
    subprocess.run(['rm', '-rf', store], check=True)
    (store / 'site').mkdir(parents=True)
    (store / 'profile').write_text('user-db:user\nfile-db:site/db\n', encoding='utf-8')
    env = both.environment('ours') | {'DCONFDB_STORE': str(store)}
    subprocess.run([driver], env=env, input='write sync /u/k 1\n', stdout=subprocess.DEVNULL, stderr=subprocess.DEVNULL, text=True, check=True)
    (store / 'site' / 'db').write_bytes(b'no database' * 100)
    fails.touch()
    refuses = {'LD_PRELOAD': str(library), 'NAME': 'user.user', 'WHILE': str(fails), 'ERRNO': str(errno.EIO)}
    with subprocess.Popen([driver], env=env | refuses, stdin=subprocess.PIPE, stdout=subprocess.PIPE, stderr=subprocess.PIPE, text=True) as program:
        first = says(program, 'read 0 /u/k\n')
        fails.unlink()
        later = says(program, 'read 0 /u/k\n')
        err = program.communicate(timeout=60)[1]
    same('a store that opens late', first + later, ['  NULL', '  1'])
    same('the warnings of a store that opens late', [err.count('Input/output error'), err.count('site/db')], [1, 1])


def left_out(both, driver):
    """A fast change resets a key that the site locks, and sets another: the reset is told with it, once, as with dconf."""
    def setup(store):
        (store / 'profile').write_text('user-db:user\nfile-db:site/db\n', encoding='utf-8')
        compile_site(store, '')
        env = both.environment('ours') | {'DCONFDB_STORE': str(store)}
        subprocess.run([driver], env=env, input='change sync /u/k=1 /u/m=1\n', stdout=subprocess.DEVNULL, text=True, timeout=60, check=True)
        compile_site(store, '/u/k\n')
    given = 'change fast /u/k=- /u/m=2\nsync\nsettle 50\nread 2 /u/k\nread 2 /u/m\n'
    out, err = asked(both, driver, given, setup)
    wanted = ['  changed /u/ [k m] NULL', '  1', '  1', '  2']
    same('a reset that is left out', [line for line in out.split('\n') if line.startswith('  ')], wanted)
    same('a reset that is left out, on stderr', err, '')


def lock_meanwhile(store):
    """Others hold the store's lock for two seconds, and after one the site locks a key."""
    (store / 'profile').write_text('user-db:user\nfile-db:site/db\n', encoding='utf-8')
    compile_site(store, '')
    with open(store / '.lock', 'w', encoding='utf-8') as file:
        fcntl.flock(file, fcntl.LOCK_EX)
        subprocess.Popen(['sleep', '2'], pass_fds=[file.fileno()])
    threading.Timer(1, compile_site, (store, '/u/k\n')).start()


def locked_meanwhile(both, driver):
    """While others hold the store's lock, the site locks a key that was changed: it is taken back, and told, and what waits with it is written."""
    given = 'write fast /u/k 1\nwrite fast /u/m 2\nread 0 /u/k\nsettle 1500\nread 0 /u/k\nread 0 /u/m\nsync\nsettle 50\nread 0 /u/k\nread 0 /u/m\n'
    out, err = asked(both, driver, given, lock_meanwhile)
    wanted = ['  changed /u/k [] NULL', '  1', '  changed /u/m [] NULL', '  1', '  1', '  NULL', '  2', '  changed /u/k [] NULL', '  NULL', '  2']
    same('a key that is locked meanwhile', [line for line in out.split('\n') if line.startswith('  ')], wanted)
    same('a key that is locked meanwhile, on stderr', err.count('failed to commit changes to dconf: '), 1)


def whole(both, driver):
    """The same, where the key is one of a change of two: both are taken back, and what another change sets is written."""
    given = 'change fast /u/k=1 /u/l=1\nwrite fast /u/m 2\nsettle 1500\nsync\nsettle 50\nread 0 /u/k\nread 0 /u/l\nread 0 /u/m\n'
    out, err = asked(both, driver, given, lock_meanwhile)
    wanted = ['  changed /u/ [k l] NULL', '  1', '  changed /u/m [] NULL', '  1', '  changed /u/ [k l] NULL', '  NULL', '  NULL', '  2']
    same('a change of a key that is locked meanwhile', [line for line in out.split('\n') if line.startswith('  ')], wanted)
    same('a change of a key that is locked meanwhile, on stderr', err.count('failed to commit changes to dconf: '), 1)


def overtaken(both, driver):
    """Others set a key while a client that changed it can't write: theirs stays, and is told, though the reset of a directory waits, too, which is made
    whenever it was asked for, and with it all of its change."""
    store = both.folder / 'unwritable'
    subprocess.run(['rm', '-rf', store], check=True)
    store.mkdir()
    env = both.environment('ours') | {'DCONFDB_STORE': str(store)}
    with subprocess.Popen([driver], env=env, stdin=subprocess.PIPE, stdout=subprocess.PIPE, stderr=subprocess.PIPE, text=True) as program:
        says(program, 'change sync /o/k=1 /o/l=1 /d/k=1 /e/k=1\nwrite sync /d/l 1\nstarve\n')
        says(program, 'write fast /o/k 2\nchange fast /d/=- /o/m=2\nwrite fast /d/m 3\nchange fast /o/l=2 /o/n=2\n')
        subprocess.run([driver], env=env, input='change sync /o/k=5 /o/l=5 /o/m=5 /d/l=5\n', stdout=subprocess.DEVNULL, text=True, timeout=60, check=True)
        found = says(program, 'feed\nsync\nsettle 50\nread 0 /o/k\nread 0 /o/l\nread 0 /o/n\nread 0 /o/m\nlist /d/\nread 0 /d/m\nread 0 /e/k\n')
        program.communicate(timeout=60)
    wanted = ['  changed /o/ [k l n] NULL', '  5', '  5', '  NULL', '  2', '  1 m', '  3', '  1']
    same('a key that others set while a directory\'s reset waits', found, wanted)


def unnoted(both, driver):
    """The same of a program that notes nothing of what it sets, as the command doesn't: its file stands for when that was."""
    store, other = both.folder / 'unwritable', both.folder / 'unnoted'
    for folder in (store, other):
        subprocess.run(['rm', '-rf', folder], check=True)
        folder.mkdir()
    env = both.environment('ours') | {'DCONFDB_STORE': str(store)}
    with subprocess.Popen([driver], env=env, stdin=subprocess.PIPE, stdout=subprocess.PIPE, stderr=subprocess.PIPE, text=True) as program:
        says(program, 'change sync /o/k=1 /o/l=1\nstarve\nwrite fast /o/k 2\nwrite fast /o/l 2\n')
        subprocess.run([driver], env=env | {'DCONFDB_STORE': str(other)}, input='change sync /o/k=5 /o/l=1\n', stdout=subprocess.DEVNULL, text=True,
                       timeout=60, check=True)
        (other / 'user.user').replace(store / 'user.user')
        found = says(program, 'feed\nsync\nsettle 50\nread 0 /o/k\nread 0 /o/l\n')
        program.communicate(timeout=60)
    same('a key that another program set meanwhile, without a note', found[-2:], ['  5', '  2'])


def left(both, driver):
    """A client that goes while something waits: it is written all the same, if the program lives that long."""
    out, _ = asked(both, driver, 'write fast /u/k 1\nanew\nsettle 500\nread 2 /u/k\n', lambda store: None)
    same('what waited when its client went', out.split('\n')[-2], '  1')


def main(both):
    driver = both.compiled('driver')
    for part in (without_files, without_room, full, no_user, damaged, held, opened_late, left_out, locked_meanwhile, whole, overtaken, unnoted, left):
        part(both, driver)
    return 'stores that can\'t be written, have no user, are damaged or held: the right errors, warnings and signals'
