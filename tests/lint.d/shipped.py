"""The keyfiles that packages of Debian and Ubuntu ship, and what GSettings sees of each row over a database that the real dconf made of it."""
import json
import os
import re
import subprocess
import sys
from pathlib import Path

# Packages with keyfiles or locks, by a search of Debian 12's Contents for files below a NAME.d of dconf's or that are named for dconf, and those with
# the schemas of their keys.
PACKAGES = ['ibus', 'ibus-data', 'gdm3', 'libgdm1', 'debian-edu-artwork', 'debian-edu-config', 'gsettings-desktop-schemas', 'gnome-settings-daemon-common',
            'gnome-shell-common', 'mutter-common', 'gnome-session-common']
# A folder's keyfiles are one database's. GDM's package links its administrator's file into its folder, and Debian Edu's script writes one.
FOLDERS = {'ibus': {'00-upstream-settings': 'etc/dconf/db/ibus.d/00-upstream-settings'},
           'gdm': {'00-upstream-settings': 'usr/share/gdm/dconf/00-upstream-settings', '90-debian-settings': 'usr/share/gdm/greeter.dconf-defaults',
                   '95-debian-edu-settings': 'usr/share/gdm/dconf/95-debian-edu-settings'},
           'edu': {'50-proxy': 'usr/share/debian-edu-config/tools/update-proxy-from-wpad'}}
LOCKS = ['usr/share/gdm/dconf/locks/00-upstream-settings-locks']
# Where each distribution's packages come from: of Debian as the machine has it. The files are looked at, and nothing is run of them.
DISTRIBUTIONS = {'debian': None, 'ubuntu': 'deb [trusted=yes arch=amd64] https://archive.ubuntu.com/ubuntu noble main universe'}
OF_DEBIAN_ALONE = ['debian-edu-artwork', 'debian-edu-config']
QUIET = {'stdout': subprocess.DEVNULL, 'stderr': subprocess.DEVNULL}


def apt_of(folder, source):
    """The words of apt-get for such a source: it has lists of its own, and nothing of the machine's is changed."""
    words = ['apt-get', '-o', 'APT::Sandbox::User=root']
    if source is None:
        return words
    state = folder / 'apt'
    (state / 'lists' / 'partial').mkdir(parents=True)
    (state / 'sources.list').write_text(source + '\n', encoding='utf-8')
    (state / 'status').write_text('', encoding='utf-8')
    words += ['-o', f'Dir::Etc::sourcelist={state}/sources.list', '-o', 'Dir::Etc::sourceparts=/dev/null', '-o', f'Dir::State::lists={state}/lists',
              '-o', f'Dir::State::status={state}/status', '-o', f'Dir::Cache={state}', '-o', 'APT::Architecture=amd64', '-o', 'APT::Architectures::=amd64']
    if subprocess.run([*words, 'update'], check=False, **QUIET).returncode:
        return None
    return words


def unpacked(folder, name='debian'):
    """The files of a distribution's packages, and a folder of compiled schemas; or nothing."""
    folder = folder / name
    folder.mkdir()
    debs, root, schemas = folder / 'debs', folder / 'root', folder / 'shipped'
    debs.mkdir()
    quiet = QUIET
    apt = apt_of(folder, DISTRIBUTIONS[name])
    wanted = [it for it in PACKAGES if name == 'debian' or it not in OF_DEBIAN_ALONE]
    if not apt or subprocess.run([*apt, 'download', *wanted], cwd=debs, check=False, **quiet).returncode:
        return None, None
    for deb in debs.glob('*.deb'):
        subprocess.run(['dpkg-deb', '-x', deb, root], check=True)
    subprocess.run(['glib-compile-schemas', '--targetdir', schemas_of(schemas), root / 'usr/share/glib-2.0/schemas'], check=True, **quiet)
    return root, schemas


def schemas_of(folder):
    folder.mkdir()
    return folder


def rows(text):
    """The rows of a keyfile: line, directory, key, text."""
    group = None
    for number, line in enumerate(text.split('\n'), 1):
        line = line.strip(' \t\r')
        if line.startswith('['):
            group = '/' + line[1:-1].strip('/') + '/'
        elif line and not line.startswith('#'):
            key, value = line.split('=', 1)
            yield number, group, key.rstrip(' \t'), value.lstrip(' \t')


def seen(files):
    """The places of rows of which GSettings, over dconf's backend, doesn't see the value. For a process whose environment names database and schemas."""
    # pylint: disable=import-outside-toplevel
    from gi.repository import Gio, GLib
    source = Gio.SettingsSchemaSource.get_default()
    fixed, _ = source.list_schemas(True)
    schemas = [source.lookup(it, True) for it in fixed]
    wrong = []
    for file in files:
        for line, directory, key, text in rows(Path(file).read_text(encoding='utf-8')):
            having = [it for it in schemas if it.get_path() == directory and it.has_key(key)]
            value = GLib.Variant.parse(None, text, None, None)
            got = [Gio.Settings.new_full(it, None, None).get_value(key) for it in having]
            if not any(it.equal(value) for it in got):
                wrong.append(f'{file}:{line}')
    return wrong


def site(folder, root, name):
    """The folder of that name, with its keyfiles; or None, if none is there."""
    files = {file: root / of for file, of in FOLDERS[name].items() if (root / of).exists()}
    if not files:
        return None
    made = folder / f'{name}.d'
    made.mkdir()
    for file, of in files.items():
        (made / file).write_text(written(of), encoding='utf-8')
    return made


def whole_site(folder, root):
    """A folder with all of that, its locks and a profile: as a site has it."""
    made = folder / 'whole'
    made.mkdir()
    there = [name for name in FOLDERS if site(made, root, name)]
    for lock in (root / it for it in LOCKS):
        if lock.exists():
            (made / 'gdm.d' / 'locks').mkdir()
            (made / 'gdm.d' / 'locks' / lock.name).write_bytes(lock.read_bytes())
    (made / 'profile').write_text('user-db:user\n' + ''.join(f'system-db:{it}\n' for it in there), encoding='utf-8')
    return made


def has_double(text):
    """Whether GLib reads a double in the text of a value."""
    return bool(re.search(r'(?<![\w\'"])-?\d+\.\d', re.sub(r"'(?:[^'\\\\]|\\\\.)*'|\"(?:[^\"\\\\]|\\\\.)*\"", "''", text)))


def written(file):
    """A keyfile, or the one that a script writes."""
    text = file.read_text(encoding='utf-8')
    if not text.startswith('#!'):
        return text
    inside = re.search(r"<<EOF\n(\[.*?)^EOF$", text, re.M | re.S)[1]
    return inside.replace('${proxy_host}', 'webcache').replace('${proxy_port}', '3128')


def wrong_rows(made, schemas):
    """The same by such a process: dconf's own command compiles the keyfiles."""
    database, profile = made.with_suffix('.db'), made.with_suffix('.profile')
    subprocess.run(['dconf', 'compile', database, made], check=True)
    profile.write_text(f'file-db:{database}\n')
    environ = os.environ | {'GSETTINGS_BACKEND': 'dconf', 'DCONF_PROFILE': str(profile), 'GSETTINGS_SCHEMA_DIR': str(schemas),
                            'XDG_DATA_DIRS': str(made / 'none'), 'HOME': str(made.parent), 'DBUS_SESSION_BUS_ADDRESS': 'disabled:'}
    names = [it.name for it in made.iterdir()]
    ran = subprocess.run(['/usr/bin/python3', __file__, *names], cwd=made, env=environ, stdout=subprocess.PIPE, check=True)
    return json.loads(ran.stdout)


if __name__ == '__main__':
    print(json.dumps(seen(sys.argv[1:])))
