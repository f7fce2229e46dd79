"""What the Python scripts here share: the program, tools that may be missing, a folder of their own, one line at the end."""
import ctypes
import functools
import os
import shutil
import signal
import subprocess
import sys
import tempfile
from pathlib import Path

# Of what capi/build compiles: a warning is an error.
os.environ.setdefault('WERROR', '-Werror')

TOP = Path(__file__).resolve().parent.parent
NAME = Path(sys.argv[0]).name


class Stop(Exception):
    """A test failed."""


class Missing(Exception):
    """A tool is missing, so the test is skipped."""


def needs(tool, package):
    """Stops if there is no such tool, and names Debian's package."""
    if not shutil.which(tool):
        raise Missing(f"there is no {tool} (Debian's package {package})")


def wants(**tools):
    """Exits with 77 if one of these tools, each given with its package, is missing, and says so."""
    try:
        for tool, package in tools.items():
            needs(tool.replace('_', '-'), package)
    except Missing as why:
        print(f'{NAME}: skipped, since {why}')
        sys.exit(77)


@functools.cache
def program():
    """The program that the variable DCONFDB names, else this repository's, which is built first."""
    if 'DCONFDB' in os.environ:
        return Path(os.environ['DCONFDB']).resolve()
    if subprocess.run([TOP / 'build'], check=False).returncode:
        raise Stop('dconfdb could not be built')
    return TOP / 'crates' / 'dconfdb' / 'out' / 'dconfdb'


def spaces():
    """The words by which a command has mounts of its own."""
    words = ['unshare', '--mount'] if os.getuid() == 0 else ['unshare', '--user', '--map-root-user', '--mount']
    if subprocess.run([*words, 'true'], stderr=subprocess.DEVNULL, check=False).returncode:
        raise Missing('no namespaces can be had here')
    return words


def has_dconfs_store(folder):
    """Of a process with mounts of its own: lays an overlay over /etc, in which /etc/dconfdb/store says `dconf`. Nothing of the machine is changed."""
    room = folder / 'room'
    room.mkdir()
    subprocess.run(['mount', '-t', 'tmpfs', 'none', room], check=True)
    for name in ('upper', 'work'):
        (room / name).mkdir()
    subprocess.run(['mount', '-t', 'overlay', '-o', f'lowerdir=/etc,upperdir={room}/upper,workdir={room}/work', 'none', '/etc'], check=True)
    kind = Path('/etc/dconfdb/store')
    kind.parent.mkdir(exist_ok=True)
    kind.write_text('dconf\n', encoding='utf-8')


# Of prctl(2).
PDEATHSIG, CHILD_SUBREAPER = 1, 36


def adopts():
    """Has what loses its parent become this process's child, so that `ends_children` finds it, after SIGTERM too."""
    ctypes.CDLL(None).prctl(CHILD_SUBREAPER, 1, 0, 0, 0)
    signal.signal(signal.SIGTERM, lambda *_: sys.exit(128 + signal.SIGTERM))


def dies_with_parent():
    """For a child, before it is another program."""
    ctypes.CDLL(None).prctl(PDEATHSIG, signal.SIGKILL, 0, 0, 0)


def children():
    """The numbers and the names of this process's children."""
    found = {}
    for file in Path('/proc').glob('[0-9]*/stat'):
        try:
            head, _, rest = file.read_text(encoding='utf-8', errors='replace').rpartition(')')
        except OSError:
            continue
        if int(rest.split()[1]) == os.getpid():
            found[int(file.parent.name)] = head.partition('(')[2]
    return found


def ends_children(*names):
    """Kills the children of these names, or all, and what they leave."""
    while them := [it for it, name in children().items() if not names or name in names]:
        for it in them:
            os.kill(it, signal.SIGKILL)
            os.waitpid(it, 0)


def verdict(main):
    """Calls `main` with a folder of its own, prints the line that it returns, and exits: with 0, with 1 after a Stop, with 77 if a tool is missing."""
    try:
        with tempfile.TemporaryDirectory() as folder:
            line, status = main(Path(folder)), 0
    except Stop as why:
        line, status = why, 1
    except subprocess.TimeoutExpired as why:
        line, status = f'{" ".join(map(str, why.cmd))[:80]} .. took more than {why.timeout:.0f} seconds', 1
    except Missing as why:
        line, status = f'skipped, since {why}', 77
    print(f'{NAME}: {line}')
    sys.exit(status)
