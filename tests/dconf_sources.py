"""dconf's sources, as Debian's source package of this release has them. apt fetches them into a folder of this run's; nothing of them is kept."""
import subprocess
from pathlib import Path

from frame import Missing, needs

LINE = 'deb-src [signed-by=/usr/share/keyrings/debian-archive-keyring.gpg] http://deb.debian.org/debian {suite} main\n'


def suite():
    """The Debian that this is."""
    lines = dict(line.split('=', 1) for line in Path('/etc/os-release').read_text(encoding='utf-8').splitlines() if '=' in line)
    if lines.get('ID') != 'debian':
        raise Missing('this is no Debian, whose source package has the tests')
    return lines['VERSION_CODENAME']


def fetched(folder):
    """The folder of dconf's sources, below this one."""
    needs('apt-get', 'apt')
    (folder / 'lists' / 'partial').mkdir(parents=True)
    (folder / 'sources').write_text(LINE.format(suite=suite()), encoding='utf-8')
    places = {'Dir::Etc::sourcelist': folder / 'sources', 'Dir::Etc::sourceparts': '/dev/null', 'Dir::State::lists': folder / 'lists', 'APT::Sandbox::User': 'root',
              'Dir::Cache::pkgcache': '', 'Dir::Cache::srcpkgcache': ''}
    words = [it for name, value in places.items() for it in ('-o', f'{name}={value}')]
    how = {'cwd': folder, 'stdin': subprocess.DEVNULL, 'stdout': subprocess.PIPE, 'stderr': subprocess.STDOUT, 'text': True, 'check': False}
    for more in (['update'], ['source', '--download-only', 'dconf']):
        ran = subprocess.run(['apt-get', '-q', *words, *more], **how)
        if ran.returncode:
            raise Missing(f'dconf\'s source package can\'t be had: {ran.stdout.strip().splitlines()[-1:]}')
    sources = folder / 'dconf'
    sources.mkdir()
    subprocess.run(['tar', '-xf', next(folder.glob('dconf_*.orig.tar.*')), '-C', sources, '--strip-components=1'], check=True)
    return sources
