"""What the parts of tests/gsettings have in common: their desk. It is a home of their own, which tests/gsettings hands on, with a user's store, a
site's database and locks for both backends. The backend is what GSETTINGS_BACKEND says."""
import os
import re
import subprocess
import sys
import time
import traceback
from pathlib import Path

HERE = Path(__file__).resolve().parent
sys.path.insert(0, str(HERE.parent))
# pylint: disable=wrong-import-position
import frame
from frame import Missing, Stop

HOME = Path(os.environ['HOME'])
STORE = HOME / 'config' / 'dconfdb'
USER_FILE = STORE / 'user.user'
DCONFS_FILE = HOME / 'config' / 'dconf' / 'user'
SITE = STORE / 'site.db'
STDERR = HOME / 'stderr'
IS_OURS = os.environ['GSETTINGS_BACKEND'] == 'dconfdb'
TYPE = {'dconfdb': 'DconfdbBackend', 'dconf': 'DConfSettingsBackend', 'memory': 'GMemorySettingsBackend'}[os.environ['GSETTINGS_BACKEND']]

# A key of org.example.types, and two values of its own, as GLib prints them.
VALUES = {
    'boolean': ('true', 'false'),
    'byte': ('byte 0xff', 'byte 0x00'),
    'int16': ('int16 -32768', 'int16 32767'),
    'uint16': ('uint16 65535', 'uint16 0'),
    'int32': ('-2147483648', '2147483647'),
    'uint32': ('uint32 4294967295', 'uint32 0'),
    'int64': ('int64 -9223372036854775808', 'int64 9223372036854775807'),
    'uint64': ('uint64 18446744073709551615', 'uint64 0'),
    'handle': ('handle -1', 'handle 7'),
    'double': ('-0.10000000000000001', '1048576.5'),
    'string': ("'mine \u20ac'", "''"),
    'object-path': ("objectpath '/a/b'", "objectpath '/a'"),
    'signature': ("signature 'a{sv}'", "signature 'i'"),
    'variant': ("<('a', <[1.5, 2.5]>)>", '<uint16 3>'),
    'strings': ("['one', '', 'two']", "['']"),
    'bytes': (r"[byte 0x00, 0xff, 0x00]", "b'text'"),
    'doubles': ('[0.0, -1.5, 0.10000000000000001]', '[0.5]'),
    'maybe': ("@ms 'there'", "@ms ''"),
    'maybe-maybe': ('@mmu just nothing', '@mmu 5'),
    'unit': ('()', '()'),
    'tuple': ("('a', 1, 2.5)", "('', -1, 0.25)"),
    'entry': ("{'key', <'value'>}", "{'a', <(1, 2)>}"),
    'dictionary': ("{'a': <1>, 'b': <['x']>}", "{'': <0.5>}"),
    'places': ("{'here': (1, 2), 'there': (3, 4)}", "{'': (0, 0)}"),
    'nested': ("[{uint16 1: (@ms 'a', [<1>]), 2: (nothing, [])}, {}]", '[@a{q(msav)} {}]'),
    'enumerated': ("'large'", "'middle'"),
    'flagged': ("['left', 'right']", "['right']"),
    'ranged': ('9', '1'),
    'chosen': ("'two'", "'one'"),
}


def same(what, seen, wanted):
    """Stops where what was seen is not what is wanted."""
    if seen != wanted:
        raise Stop(f'{what}: {seen!r}, and not {wanted!r}')


def run(*words, status=0, **more):
    """What a program prints, which ends with the status, and with 0 says nothing of an error."""
    ran = subprocess.run([str(it) for it in words], stdin=subprocess.DEVNULL, capture_output=True, text=True, timeout=120, check=False, **more)
    if ran.returncode != status or (status == 0 and ran.stderr):
        raise Stop(f'{" ".join(map(str, words))}: status {ran.returncode}, {ran.stdout}{ran.stderr}')
    return ran.stdout if status == 0 else ran.stderr


def get(schema, key):
    """What a fresh process reads."""
    return run('gsettings', 'get', schema, key).rstrip('\n')


def put(schema, key, text):
    """A fresh process sets a value, and waits until it is kept."""
    run('gsettings', 'set', schema, key, text)


def profile():
    """The profiles of both backends: a user's database, and below it the site's."""
    STORE.mkdir(parents=True, exist_ok=True)
    for file, text in ((STORE / 'profile', 'user-db:user\nsystem-db:site\n'), (HOME / 'dconf.profile', f'user-db:user\nfile-db:{SITE}\n')):
        # Whoever reads a file while it is written anew may see none of its lines.
        if not file.exists() or file.read_text(encoding='utf-8') != text:
            file.write_text(text, encoding='utf-8')


def site(values, locks=(), into=SITE):
    """Makes or replaces the site's database, or another: values by directory and key, and the paths that are locked."""
    keys = ''.join(f'[{group}]\n' + ''.join(f'{key}={text}\n' for key, text in rows.items()) for group, rows in values.items())
    source = HOME / 'site.d'
    (source / 'locks').mkdir(parents=True, exist_ok=True)
    (source / 'keys').write_text(keys, encoding='utf-8')
    (source / 'locks' / 'locks').write_text(''.join(f'{path}\n' for path in locks), encoding='utf-8')
    profile()
    if IS_OURS:
        run(frame.program(), 'compile', into, '--locks', source / 'locks' / 'locks', source / 'keys')
    else:
        run('dconf', 'compile', into, source)


def ends_without(why):
    """Ends a part that finds something missing before it begins."""
    def told(_):
        raise why
    frame.verdict(told)


def on_a_screen():
    """Runs the part again on a screen that nobody sees, where it is on none."""
    if 'DISPLAY' in os.environ:
        return
    try:
        frame.needs('xvfb-run', 'xvfb')
        frame.needs('xauth', 'xauth')
    except Missing as why:
        ends_without(why)
    os.execvp('xvfb-run', ['xvfb-run', '-a', sys.executable, *sys.argv])


def gio():
    """Gio and GLib of Debian's python3-gi; all that they say on stderr comes into a file."""
    try:
        from gi.repository import Gio, GLib  # pylint: disable=import-outside-toplevel
    except ImportError:
        ends_without(Missing("there is no gi for /usr/bin/python3 (Debian's package python3-gi)"))
    with open(STDERR, 'ab') as file:
        os.dup2(file.fileno(), 2)
    return Gio, GLib


def warnings():
    """The warnings that were said since the last call, each a line."""
    lines = re.findall(r'^.*-(?:WARNING|CRITICAL) \*\*.*$', STDERR.read_text(encoding='utf-8', errors='replace'), re.M)
    os.truncate(STDERR, 0)
    return lines


def waits(glib, seconds):
    """Lets the main context run for so long."""
    end = time.monotonic() + seconds
    while time.monotonic() < end:
        glib.MainContext.default().iteration(False)
        time.sleep(0.005)


def until(glib, what, seconds, condition):
    """Lets the main context run until the condition holds, and stops where it doesn't within so many seconds."""
    end = time.monotonic() + seconds
    while not condition():
        if time.monotonic() > end:
            raise Stop(f'{what}: not within {seconds} seconds')
        glib.MainContext.default().iteration(False)
        time.sleep(0.005)


def made(name, *flags):
    """A program of NAME.c here, over GLib."""
    frame.needs('gcc', 'gcc')
    frame.needs('pkg-config', 'pkg-config')
    glib = subprocess.run(['pkg-config', '--cflags', '--libs', 'gio-2.0'], capture_output=True, text=True, check=False)
    if glib.returncode:
        raise Missing("there is no gio-2.0 to compile with (Debian's package libglib2.0-dev)")
    warned = ['-std=gnu11', '-g', '-O1', '-Wall', '-Wextra', '-Wshadow', '-Werror']
    run('gcc', *warned, *flags, HERE / f'{name}.c', *glib.stdout.split(), '-o', HOME / name)
    return HOME / name


def checked(main):
    """The line that `main` gives. A fault of its own is told on stdout too, since stderr may be a file."""
    try:
        return main()
    except (Stop, Missing):
        raise
    except Exception as why:
        place = traceback.extract_tb(why.__traceback__)[-1]
        raise Stop(f'{type(why).__name__} in line {place.lineno} of {Path(place.filename).name}: {why}') from why


def verdict(main):
    """Calls `main`, prints its line, and ends as the scripts of tests do."""
    profile()
    frame.verdict(lambda _: checked(main))
