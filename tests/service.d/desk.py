"""What the parts of tests/service have in common: a bus, a home, and a service on both, ours or dconf's. Our store is in the folder in which dconf's database is,
with a link in the place of that, so that Debian's own `dconf` reads what our service writes."""
import fcntl
import os
import signal
import subprocess
import sys
import time
from pathlib import Path

HERE = Path(__file__).resolve().parent
sys.path.insert(0, str(HERE.parent))
# pylint: disable=wrong-import-position
import frame
from frame import Missing, Stop

try:
    from gi.repository import Gio, GLib
except ImportError:
    def without_gi(_):
        raise Missing("there is no gi for /usr/bin/python3 (Debian's package python3-gi)")
    frame.verdict(without_gi)

DCONFS, OURS = '/usr/libexec/dconf-service', os.environ['DCONFDB_SERVICE']
IS_DCONFS = 'IS_DCONFS' in os.environ
MOUNTS = '''mkdir "$1/upper" "$1/work" && mount -t overlay -o "lowerdir=/etc,upperdir=$1/upper,workdir=$1/work" none /etc &&
    mkdir -p /etc/dconfdb && echo dconf > /etc/dconfdb/store && shift && exec "$@"'''
WRITER = '/ca/desrt/dconf/Writer/'
SECONDS = 30
BUS = '''<busconfig>
  <type>session</type>
  <listen>unix:dir={folder}</listen>
  <servicedir>{folder}/services</servicedir>
  <policy context="default"><allow send_destination="*"/><allow receive_sender="*"/><allow own="*"/></policy>
  <limit name="max_message_size">134217728</limit>
  <limit name="max_incoming_bytes">1000000000</limit>
  <limit name="max_outgoing_bytes">1000000000</limit>
  <limit name="max_replies_per_connection">50000</limit>
</busconfig>
'''


def same(what, seen, wanted):
    """Stops where what was seen is not what is wanted."""
    if seen != wanted:
        raise Stop(f'{what}: {seen!r}, and not {wanted!r}')


def blob(changes):
    """A set of changes as it is sent: paths and values, or None."""
    return GLib.Variant('a{smv}', changes).get_data_as_bytes().get_data()


def sent(changes):
    """The words of a Change. A text of bytes for GLib.Variant takes a while for each."""
    data = GLib.Bytes.new(changes if isinstance(changes, bytes) else blob(changes))
    return GLib.Variant.new_tuple(GLib.Variant.new_from_bytes(GLib.VariantType('ay'), data, True))


def number(value):
    return GLib.Variant('i', value)


class Client:
    """A connection, and what it was told."""

    def __init__(self, address):
        flags = Gio.DBusConnectionFlags.AUTHENTICATION_CLIENT | Gio.DBusConnectionFlags.MESSAGE_BUS_CONNECTION
        self.bus, self.told = Gio.DBusConnection.new_for_address_sync(address, flags, None, None), []
        self.bus.set_exit_on_close(False)
        self.bus.signal_subscribe(None, 'ca.desrt.dconf.Writer', 'Notify', None, None, Gio.DBusSignalFlags.NONE, self.hears)

    def hears(self, _bus, _sender, path, _interface, _signal, words):
        self.told.append((path, *words.unpack()))

    def calls(self, path, method, words=None, interface='ca.desrt.dconf.Writer', seconds=SECONDS):
        """The answer, or the error's name and text."""
        try:
            answer = self.bus.call_sync('ca.desrt.dconf', path, interface, method, words, None, Gio.DBusCallFlags.NONE, seconds * 1000, None)
            return answer.unpack()
        except GLib.Error as why:
            return Gio.DBusError.get_remote_error(why) or 'local', why.message

    def changes(self, changes, name='user', seconds=SECONDS):
        return self.calls(WRITER + name, 'Change', sent(changes), seconds=seconds)

    def asks(self, changes, done, name='user'):
        """The same, but that it doesn't wait: `done` is called with the answer."""
        def ended(bus, result):
            try:
                done(bus.call_finish(result).unpack())
            except GLib.Error as why:
                done(why)
        self.bus.call('ca.desrt.dconf', WRITER + name, 'ca.desrt.dconf.Writer', 'Change', sent(changes), None, Gio.DBusCallFlags.NONE, 60000, None, ended)

    def news(self, count=None, rest=0.25):
        """What was told since the last time: so many, or what comes until nothing has come for that long."""
        end, still = time.monotonic() + SECONDS, time.monotonic() + rest
        seen = len(self.told)
        while time.monotonic() < (end if count is not None and len(self.told) < count else still):
            GLib.MainContext.default().iteration(False)
            time.sleep(0.002)
            if len(self.told) != seen:
                seen, still = len(self.told), time.monotonic() + rest
        told, self.told = self.told, []
        return told


def until(what, holds, seconds=SECONDS):
    """Lets the main context run until that holds."""
    end = time.monotonic() + seconds
    while not holds():
        if time.monotonic() > end:
            raise Stop(f'{what}: not within {seconds} seconds')
        GLib.MainContext.default().iteration(False)
        time.sleep(0.002)


class Desk:
    """A home with a bus, on which a service runs."""

    def __init__(self, folder, service=OURS, profile='user-db:user\n', before=(), starts=True, environ=None):
        self.folder, self.service, self.before = folder, service, [str(it) for it in before]
        self.config, self.run = folder / 'config', folder / 'run'
        self.store = self.config / 'dconf'
        self.process, self.number = None, 0
        (folder / 'services').mkdir(parents=True)
        self.store.mkdir(parents=True, mode=0o700)
        self.run.mkdir(mode=0o700)
        (self.run / 'dconf').mkdir(mode=0o700)
        if service == OURS and not IS_DCONFS:
            (self.store / 'profile').write_text(profile)
            for name in ('user', 'other'):
                (self.store / name).symlink_to(f'{name}.user')
        self.environ = {'PATH': os.environ['PATH'], 'HOME': str(folder), 'XDG_CONFIG_HOME': str(self.config), 'XDG_RUNTIME_DIR': str(self.run), 'LC_ALL': 'C.UTF-8',
                        'XDG_CACHE_HOME': str(folder / 'cache'), 'DCONFDB_STORE': str(self.store), 'GSETTINGS_BACKEND': 'dconf', 'DCONF_PROFILE': str(folder / 'dconf.profile'), 'G_DEBUG': 'fatal-criticals'} | (environ or {})
        if IS_DCONFS:
            del self.environ['DCONFDB_STORE']
        (folder / 'dconf.profile').write_text('user-db:user\n')
        (folder / 'services' / 'ca.desrt.dconf.service').write_text(f'[D-BUS Service]\nName=ca.desrt.dconf\nExec={service}\n')
        (folder / 'bus.conf').write_text(BUS.format(folder=folder))
        self.begins_bus()
        if starts:
            self.starts()

    def begins_bus(self):
        # pylint: disable=consider-using-with,subprocess-popen-preexec-fn
        self.daemon = subprocess.Popen(['dbus-daemon', f'--config-file={self.folder}/bus.conf', '--nofork', '--print-address=1'], env=self.environ, stdin=subprocess.DEVNULL,
                                       stdout=subprocess.PIPE, stderr=subprocess.DEVNULL, text=True, preexec_fn=frame.dies_with_parent)
        self.address = self.daemon.stdout.readline().strip()
        self.environ['DBUS_SESSION_BUS_ADDRESS'] = self.address
        self.client = Client(self.address)

    def has_name(self):
        words = GLib.Variant('(s)', ('ca.desrt.dconf',))
        return self.client.bus.call_sync('org.freedesktop.DBus', '/', 'org.freedesktop.DBus', 'NameHasOwner', words, None, Gio.DBusCallFlags.NONE, -1, None).unpack()[0]

    def starts(self, *words):
        """Starts the service, and waits until it has the name."""
        self.number += 1
        with open(self.folder / f'said{self.number}', 'wb') as said:
            # pylint: disable=consider-using-with,subprocess-popen-preexec-fn
            self.process = subprocess.Popen([*self.before, self.service, *words], env=self.environ, stdin=subprocess.DEVNULL, stdout=said, stderr=said, preexec_fn=frame.dies_with_parent)
        until('the service has the name', lambda: self.has_name() or self.process.poll() is not None)
        if self.process.poll() is not None:
            raise Stop(f'the service ended with {self.process.returncode}: {self.said()}')

    def said(self):
        return (self.folder / f'said{self.number}').read_text(errors='replace')

    def ends(self, by=signal.SIGTERM, status=0):
        """Ends the service, which has said nothing."""
        if self.process.poll() is None:
            self.process.send_signal(by)
        same(f'how the service ends, which said {self.said()!r}', self.process.wait(SECONDS), status)
        return self.said()

    def closes(self):
        said = self.ends() if self.process else ''
        same('what the service said', said, '')
        self.daemon.kill()
        self.daemon.wait()

    def runs(self, *words, status=0, **more):
        """What a program prints that knows nothing of our service."""
        ran = subprocess.run([str(it) for it in words], env=self.environ, stdin=subprocess.DEVNULL, stdout=subprocess.PIPE, stderr=subprocess.STDOUT, text=True, timeout=60, check=False, **more)
        if ran.returncode != status:
            raise Stop(f'{" ".join(map(str, words))}: status {ran.returncode}, {ran.stdout}')
        return ran.stdout

    def dconfdb(self, *words, status=0):
        """The command, in the store."""
        return self.runs(os.environ['DCONFDB'], *words, status=status, cwd=self.store)

    def reads(self, path):
        return self.dconfdb('read', path).strip()

    def locks(self):
        """The turn to write, as another program has it."""
        file = open(self.store / '.lock', 'ab')  # pylint: disable=consider-using-with
        fcntl.flock(file, fcntl.LOCK_EX)
        return file


def verdict(main):
    """Calls `main` with the part's folder, and ends as the scripts of tests do."""
    frame.verdict(lambda _: main(Path(sys.argv[1])))


def verdict_on_dconfs(main):
    """The same on a machine whose store is of dconf's kind, as /etc says in mounts of the part's own: dconf's readers are told by their flag there alone."""
    if IS_DCONFS:
        verdict(main)
    else:
        verdict(inside)


def inside(folder):
    """What the part says there."""
    words = [*frame.spaces(), 'sh', '-c', MOUNTS, 'sh', folder, sys.executable, sys.argv[0], folder]
    ran = subprocess.run(words, env=os.environ | {'IS_DCONFS': 'yes'}, stdin=subprocess.DEVNULL, stdout=subprocess.PIPE, text=True, check=False)
    said = ran.stdout.strip().partition(': ')[2] or ran.stdout.strip()
    if ran.returncode:
        raise Stop(said)
    return said
