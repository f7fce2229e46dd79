"""Asks the command, as it is installed, and the library where a store is, over a table of environments, and compares both with what docs/MANUAL.md
says, "Where a store is". tests/stores runs it where /etc may be written.

  table.py FOLDER COMMAND LIBRARY   FOLDER is empty; LIBRARY is the program of capi/tests/places.c

Each database has its own path at /k, if it is a user's, or at /s, if it is a site's: so what is printed says which files count.
"""
import itertools
import os
import subprocess
import sys
from pathlib import Path

top, command, library = (Path(it) for it in sys.argv[1:])
etc = Path('/etc/dconfdb')
NAMES = ('DCONFDB_STORE', 'XDG_CONFIG_HOME', 'HOME', 'DCONFDB_PROFILE')
CLEAN = {name: it for name, it in os.environ.items() if name not in NAMES}


def makes(file, key):
    """A database that has its path at the key."""
    file.parent.mkdir(parents=True, exist_ok=True)
    keys = top / 'keys'
    keys.write_text(f"[/]\n{key}='{file}'\n")
    subprocess.run([command, 'compile', file, keys], check=True)


def makes_stores():
    """Wherever a folder may be looked for there is one, and in each all files that a profile may name."""
    folders = ['s', 'own', 'bad', 'c/dconfdb', 'h/.config/dconfdb', 'users/.config/dconfdb', '.', 'dconfdb', '.config/dconfdb']
    for folder in folders:
        for name in ('user', 'named', 'path', 'mine'):
            makes(top / folder / f'{name}.user', 'k')
        makes(top / folder / 'site.db', 's')
    (top / 'own/profile').write_text('user-db:mine\nsystem-db:site\n')
    (top / 'bad/profile').mkdir()
    (top / 'p').write_text('user-db:path\nsystem-db:site\n')
    (top / 'dir').mkdir()
    (etc / 'profiles').mkdir(parents=True)
    (etc / 'profiles/named').write_text('user-db:named\nsystem-db:site\n')
    makes(etc / 'site.db', 's')
    # The home that the system has for this user.
    users = Path('/etc/passwd')
    users.write_text(f'somebody:x:{os.getuid()}:0::{top}/users:/bin/sh\n')


# ---- what the manual says

def whole(path):
    return path if path.startswith('/') else f'{top}/{path}'


def folder_of(said, given):
    """The first that is named."""
    if given is not None:
        return whole(given)
    if said.get('DCONFDB_STORE'):
        return whole(said['DCONFDB_STORE'])
    if said.get('XDG_CONFIG_HOME', '').startswith('/'):
        return said['XDG_CONFIG_HOME'] + '/dconfdb'
    if said.get('HOME', '').startswith('/'):
        return said['HOME'] + '/.config/dconfdb'
    return f'{top}/users/.config/dconfdb'


def profile_of(said, folder, counts):
    """The profile's file, or None."""
    named = said.get('DCONFDB_PROFILE') if counts else None
    if named:
        return whole(named) if '/' in named else f'{etc}/profiles/{named}'
    for file in (f'{folder}/profile', f'{etc}/profile'):
        if Path(file).exists():
            return file
    return None


def wanted(said, given, counts):
    folder = folder_of(said, given)
    profile = profile_of(said, folder, counts)
    if profile and not Path(profile).is_file():
        return f'error: {"Device" if Path(profile).exists() else "NoFile"} {profile}\n'
    lines = Path(profile).read_text().split() if profile else ['user-db:user']
    beside = profile == f'{etc}/profile' and given is None
    prints = ''
    for line in lines:
        kind, name = line.split(':')
        at = str(etc) if beside and kind == 'system-db' else folder
        end, key = ('.user', 'k') if kind == 'user-db' else ('.db', 's')
        prints += f"{key}='{Path(os.path.normpath(f'{at}/{name}{end}'))}'\n"
    return prints


# ---- what both say

def answer(words, said):
    ran = subprocess.run(words, cwd=top, env={**CLEAN, **said}, capture_output=True, check=False, text=True)
    return (ran.stdout + ran.stderr).removeprefix('[/]\n')


def environments():
    """Each folder with and without a profile, and each profile by three folders."""
    stores = [None, '', 's', f'{top}/s', f'{top}/s/', f'{top}/own', f'{top}/bad']
    bases = [None, '', 'c', f'{top}/c', f'{top}/c/']
    homes = [None, '', 'h', f'{top}/h', f'{top}/h/']
    profiles = [None, '', 'named', './p', f'{top}/p', 'absent', './absent', './dir', f'{etc}/profile']
    rows = {*itertools.product(stores, bases, homes, [None]), *itertools.product(stores, [None], [None, f'{top}/h'], profiles)}
    for row in sorted(rows, key=str):
        yield {name: it for name, it in zip(NAMES, row) if it is not None}


def compares(said):
    """The environment's store; and one whose folder is given, where the environment names a profile for the command alone."""
    read = [command, 'dump', '/']
    asked = [([*read, '--user'], None, True), ([library], None, True)]
    for given in ('s', f'{top}/own/', '') if said.keys() <= {'DCONFDB_PROFILE'} else ():
        asked += [([*read, f'--store={given}'], given, True), ([library, given], given, False)]
    for words, given, counts in asked:
        found, want = answer(words, said), wanted(said, given, counts)
        if found != want:
            sys.exit(f'{words} {said}, everyones {(etc / "profile").exists()}: {found!r}, not {want!r}')
    return len(asked)


def main():
    makes_stores()
    rows = list(environments())
    count = sum(map(compares, rows))
    (etc / 'profile').write_text('user-db:user\nsystem-db:site\n')
    count += sum(map(compares, rows))
    print(f'{count} answers over {2 * len(rows)} environments')


main()
