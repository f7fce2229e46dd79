"""What the parts of tests/libdconf share: our libdconf.so.1 beside dconf's own, a home for each with the same site below, programs that run on either.
The bus, on which dconf's service is, has the environment that tests/libdconf gives it."""
import os
import shlex
import subprocess
import sys
from pathlib import Path

HERE = Path(__file__).resolve().parent
sys.path.insert(0, str(HERE.parent))
# pylint: disable=wrong-import-position
import frame
from frame import Stop

WARNINGS = '-std=gnu11 -g -O1 -Wall -Wextra -Wshadow -Wpedantic -Werror'.split()
KEYS = "[a]\nk=10\nm='site'\n[a/b]\nlocked=3.5\n[x]\nlocked=1\nz=2\n"
LOCKS = '/x/locked\n/a/b/locked\n'


def flags(*packages, words=('--cflags', '--libs')):
    """What pkg-config says of packages, whose headers are the system's."""
    said = subprocess.run(['pkg-config', *words, *packages], capture_output=True, text=True, check=True).stdout
    return [it.replace('-I', '-isystem', 1) if it.startswith('-I') else it for it in shlex.split(said)]


class Both:
    """Both libraries, in a folder of this run's."""

    def __init__(self, folder):
        self.folder = folder
        self.library = folder / 'ours'
        self.homes = {'theirs': folder / 'home', 'ours': folder / 'own'}

    def build(self):
        """Makes our library, by capi/build; or takes the one that DCONFDB_LIBDCONF names."""
        made = os.environ.get('DCONFDB_LIBDCONF')
        self.library.mkdir()
        if made is None:
            made = self.folder / 'capi' / 'libdconf.so.1'
            build = [frame.TOP / 'capi' / 'build', '--libdconf']
            if subprocess.run(build, env=os.environ | {'OUT': str(self.folder / 'capi')}, stdout=subprocess.DEVNULL, check=False).returncode:
                raise Stop('capi/build made no libdconf.so.1')
        (self.library / 'libdconf.so.1').write_bytes(Path(made).read_bytes())

    def settle(self):
        """Both homes, with a site's database of some keys and locks."""
        site = self.folder / 'site'
        (site / 'd' / 'locks').mkdir(parents=True)
        (site / 'd' / 'keys').write_text(KEYS, encoding='utf-8')
        (site / 'd' / 'locks' / 'all').write_text(LOCKS, encoding='utf-8')
        subprocess.run(['dconf', 'compile', site / 'db', site / 'd'], check=True)
        profile = f'user-db:user\nfile-db:{site}/db\n'
        (self.folder / 'profile').write_text(profile, encoding='utf-8')
        for home in self.homes.values():
            (home / 'run').mkdir(parents=True, exist_ok=True, mode=0o700)
        (self.homes['ours'] / 'config' / 'dconfdb').mkdir(parents=True)
        (self.homes['ours'] / 'config' / 'dconfdb' / 'profile').write_text(profile, encoding='utf-8')

    def environment(self, whose):
        """That of a program with one of the libraries, at home there."""
        home = self.homes[whose]
        env = {'PATH': os.environ['PATH'], 'LC_ALL': 'C.UTF-8', 'HOME': str(home), 'XDG_CONFIG_HOME': str(home / 'config'),
               'XDG_RUNTIME_DIR': str(home / 'run'), 'GIO_USE_VFS': 'local', 'GSETTINGS_BACKEND': 'memory'}
        if whose == 'ours':
            return env | {'LD_LIBRARY_PATH': str(self.library), 'DBUS_SESSION_BUS_ADDRESS': 'disabled:'}
        return env | {'DCONF_PROFILE': str(self.folder / 'profile'), 'DBUS_SESSION_BUS_ADDRESS': os.environ['DBUS_SESSION_BUS_ADDRESS']}

    def compiled(self, name, *more, compiler='gcc', to=None):
        """The program of a C file here, which runs with either library."""
        binary = self.folder / (to or name)
        words = [compiler, *WARNINGS, HERE / f'{name}.c', *more, '-o', binary, *flags('dconf')]
        if subprocess.run(words, check=False).returncode:
            raise Stop(f'{name}.c is not compiled')
        return binary

    def ran(self, whose, words, given='', timeout=120, **more):
        """The status, stdout and stderr of a program."""
        env = self.environment(whose) | more
        done = subprocess.run(words, env=env, input=given, capture_output=True, text=True, errors='replace', timeout=timeout, check=False)
        return done.returncode, done.stdout, done.stderr
