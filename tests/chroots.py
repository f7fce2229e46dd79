"""Throw-away Debians for tests/package and tests/desktop: what debootstrap makes, layers of packages over it, and an overlay for each run, of which
nothing stays. The variable CHROOTS names a folder in which the Debians are kept; else they are made anew, and thrown away.

Needs root, and the network where a Debian isn't there yet. Nothing of the host's is written but below that folder, and no process outlives a run:
each is in namespaces of its own, with its loopback as the only network."""
import hashlib
import os
import shutil
import subprocess
import tempfile
from pathlib import Path

import frame
from frame import TOP, Stop

SUITES = {'bookworm': 'Debian 12', 'trixie': 'Debian 13'}
MIRROR = 'http://deb.debian.org/debian'
ENTER = TOP / 'tests' / 'chroots.d' / 'enter'
PATH = '/usr/local/sbin:/usr/local/bin:/usr/sbin:/usr/bin:/sbin:/bin'


def needed():
    """Raises Missing where no Debian can be made or entered."""
    if os.geteuid() != 0:
        raise frame.Missing('this is for root')
    frame.needs('debootstrap', 'debootstrap')
    frame.needs('unshare', 'util-linux')


def said(words, log, env=None, seconds=3600):
    """What a command prints, which comes into the file `log`, too. Stops where it fails."""
    with open(log, 'w+', encoding='utf-8', errors='replace') as file:
        ran = subprocess.run([str(it) for it in words], env=env, stdin=subprocess.DEVNULL, stdout=file, stderr=subprocess.STDOUT, timeout=seconds, check=False)
        file.seek(0)
        text = file.read()
    if ran.returncode:
        raise Stop(f'{" ".join(map(str, words))[:300]}: status {ran.returncode}\n{text[-6000:]}')
    return text


def run(layers, script, log, *, upper=None, given=None, box=False, network=False, seconds=3600, words=()):
    """Runs a script as root over these layers, the topmost first. The folder `given` is /given there, and with `box` the layers as they are are /box.
    What is written comes into `upper`, or is thrown away."""
    spaces = ['--mount', '--pid', '--ipc', '--uts', '--fork', '--kill-child', *([] if network else ['--net'])]
    with tempfile.TemporaryDirectory() as room:
        env = {'PATH': PATH, 'layers': ':'.join(map(str, layers)), 'room': room, 'upper': str(upper or ''), 'given': str(given or ''), 'box': 'yes' if box else ''}
        return said(['unshare', *spaces, ENTER, script, *words], log, env, seconds)


class Debian:
    """A suite, and the layers of packages over it."""

    def __init__(self, suite, folder):
        self.suite, self.name = suite, SUITES[suite]
        self.kept = Path(os.environ.get('CHROOTS', folder)).resolve()
        self.logs = folder

    def base(self):
        """What debootstrap makes."""
        made = self.kept / self.suite
        if not made.exists():
            new = self.kept / f'{self.suite}.new'
            shutil.rmtree(new, ignore_errors=True)
            self.fetched(['debootstrap', '--variant=minbase', self.suite, new, MIRROR])
            new.rename(made)
        return made

    def with_packages(self, name, packages):
        """The layers of a Debian that has these packages. Another list has another layer."""
        made = self.kept / f'{self.suite}-{name}-{hashlib.sha256(" ".join(packages).encode()).hexdigest()[:8]}'
        if not made.exists():
            new = made.with_suffix('.new')
            shutil.rmtree(new, ignore_errors=True)
            new.mkdir()
            try:
                run([self.base()], 'install', self.logs / 'install', upper=new, network=True, words=packages)
            except Stop as why:
                raise frame.Missing(f'packages of {self.name} could not be had: {str(why)[-600:]}') from why
            new.rename(made)
        return [made, self.base()]

    def fetched(self, words):
        try:
            said(words, self.logs / 'debootstrap')
        except Stop as why:
            raise frame.Missing(f'{self.name} could not be had: {str(why)[-600:]}') from why
