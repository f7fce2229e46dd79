"""Homes for programs over GSettings: the module, which is put into no folder of the system, schemas, a bus, and an environment with nothing of the
caller's in it. For tests/gsettings, and for benches of programs over GSettings."""
import os
import subprocess
import sys
from pathlib import Path

HERE = Path(__file__).resolve().parent
sys.path.insert(0, str(HERE.parent))
# pylint: disable=wrong-import-position
import frame
from frame import Missing, Stop

TOOLS = {'gsettings': 'libglib2.0-bin', 'glib-compile-schemas': 'libglib2.0-dev-bin', '/usr/bin/python3': 'python3', 'dbus-run-session': 'dbus'}
# It starts nothing but dconf's service: no program of GNOME that is started shall start more.
BUS = '''<busconfig>
  <type>session</type>
  <listen>unix:dir={folder}</listen>
  <servicedir>{folder}/services</servicedir>
  <policy context="default"><allow send_destination="*"/><allow receive_sender="*"/><allow own="*"/></policy>
</busconfig>
'''


def module(folder):
    """The folder with the module: the one that DCONFDB_MODULE names, or one that is made."""
    modules = folder / 'modules'
    modules.mkdir()
    made = os.environ.get('DCONFDB_MODULE')
    if made is None:
        frame.needs('gcc', 'gcc')
        frame.needs('pkg-config', 'pkg-config')
        build = [frame.TOP / 'capi' / 'build', '--gsettings']
        built = subprocess.run(build, env=os.environ | {'OUT': str(folder / 'capi')}, stdout=subprocess.DEVNULL, check=False)
        made = folder / 'capi' / 'libdconfdbsettings.so'
        if built.returncode:
            raise Stop('capi/build made no module')
    (modules / 'libdconfdbsettings.so').symlink_to(os.path.realpath(made))
    return modules


def schemas(folder):
    """A folder with the schemas here, compiled."""
    (folder / 'schemas').mkdir()
    subprocess.run(['glib-compile-schemas', '--strict', f'--targetdir={folder}/schemas', HERE], check=True)
    return folder / 'schemas'


def service(folder):
    """Our service: the program that DCONFDB_SERVICE names, or one that is made."""
    made = os.environ.get('DCONFDB_SERVICE')
    if made:
        return Path(made).resolve()
    build = [frame.TOP / 'capi' / 'build', '--service']
    if subprocess.run(build, env=os.environ | {'OUT': str(folder / 'service')}, stdout=subprocess.DEVNULL, check=False).returncode:
        raise Stop('capi/build made no service')
    return folder / 'service' / 'dconfdb-service'


def has_service(folder, program):
    """What starts a program on a bus of its own, on which this is dconf's service."""
    (folder / 'services').mkdir(parents=True)
    (folder / 'services' / 'ca.desrt.dconf.service').write_text(f'[D-BUS Service]\nName=ca.desrt.dconf\nExec={program}\n', encoding='utf-8')
    (folder / 'bus.conf').write_text(BUS.format(folder=folder), encoding='utf-8')
    return ['dbus-run-session', f'--config-file={folder}/bus.conf', '--']


def starts_service():
    """As at a login: who only listens starts none."""
    words = ['--session', '--dest', 'org.freedesktop.DBus', '--object-path', '/org/freedesktop/DBus', '--method', 'org.freedesktop.DBus.StartServiceByName', 'ca.desrt.dconf', '0']
    subprocess.run(['gdbus', 'call', *words], stdout=subprocess.DEVNULL, check=True)


def bus(folder):
    """What starts a program on a bus of its own."""
    service = Path('/usr/share/dbus-1/services/ca.desrt.dconf.service')
    if not service.exists():
        raise Missing("there is no dconf-service (Debian's package dconf-service)")
    if not list(Path('/usr/lib').glob('*/gio/modules/libdconfsettings.so')):
        raise Missing("there is no backend of dconf's (Debian's package dconf-gsettings-backend)")
    (folder / 'services').mkdir()
    (folder / 'services' / service.name).symlink_to(service)
    (folder / 'bus.conf').write_text(BUS.format(folder=folder), encoding='utf-8')
    return ['dbus-run-session', f'--config-file={folder}/bus.conf', '--']


def environment(home, backend, modules, schema):
    """That of a program at home there."""
    kept = {name: os.environ[name] for name in ['PATH', 'DCONFDB', 'DCONFDB_CALLS', 'SHOT', 'SEED', 'STEPS', 'EXITS', 'KILLS', 'ROWS'] if name in os.environ}
    (home / 'run').mkdir(parents=True, mode=0o700)
    return kept | {
        'LC_ALL': 'C.UTF-8',
        'HOME': str(home),
        'XDG_CONFIG_HOME': str(home / 'config'),
        'XDG_CACHE_HOME': str(home / 'cache'),
        'XDG_DATA_HOME': str(home / 'data'),
        'XDG_RUNTIME_DIR': str(home / 'run'),
        'GSETTINGS_BACKEND': backend,
        'GSETTINGS_SCHEMA_DIR': str(schema),
        'GIO_EXTRA_MODULES': str(modules or ''),
        'GIO_USE_VFS': 'local',
        'DCONF_PROFILE': str(home / 'dconf.profile'),
        'DBUS_SESSION_BUS_ADDRESS': 'disabled:',
        'NO_AT_BRIDGE': '1',
        'GTK_A11Y': 'none',
        'GTK_USE_PORTAL': '0',
        'GSK_RENDERER': 'cairo',
    }
