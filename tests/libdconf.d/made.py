"""Made by gcc and by clang without a warning. What is seen from outside is what Debian's library has: the symbols and their versions, the name, the type of
the client and its signals. Nothing else is seen, and it needs GLib and the C library alone."""
import os
import re
import shutil
import subprocess
from pathlib import Path

import frame
from frame import Stop

DEBIANS = '/usr/lib/*/libdconf.so.1'


def said(*words):
    return subprocess.run(words, capture_output=True, text=True, check=True).stdout


def symbols(file):
    """The defined ones, with their kinds and versions."""
    return sorted(line.split()[1:] for line in said('nm', '-D', '--defined-only', '--with-symbol-versions', file).splitlines())


def needed(file):
    """The name, and what it needs."""
    return re.findall(r'\((SONAME|NEEDED)\).*\[(.*)\]', said('readelf', '-dW', file))


def compare(file, theirs):
    if symbols(file) != symbols(theirs):
        raise Stop(f'{file}: other symbols than {theirs}: {[it for it in symbols(file) if it not in symbols(theirs)]}, {[it for it in symbols(theirs) if it not in symbols(file)]}')
    # Without a bus it needs no GIO.
    if not set(needed(file)) <= set(needed(theirs)) or ('SONAME', 'libdconf.so.1') not in needed(file):
        raise Stop(f'{file}: {needed(file)}, not {needed(theirs)}')
    if 'TEXTREL' in said('readelf', '-dW', file) or 'RWE' in said('readelf', '-lW', file):
        raise Stop(f'{file}: text relocations, or an executable stack')


def main(both):
    theirs = next(iter(Path('/').glob(DEBIANS.lstrip('/'))), None)
    for compiler in [it for it in ('gcc', 'clang') if shutil.which(it) and 'DCONFDB_LIBDCONF' not in os.environ]:
        out = both.folder / f'made-{compiler}'
        env = os.environ | {'CC': compiler, 'OUT': str(out)}
        if subprocess.run([frame.TOP / 'capi' / 'build', '--libdconf'], env=env, stdout=subprocess.DEVNULL, check=False).returncode:
            raise Stop(f'{compiler} makes no libdconf.so.1')
        compare(out / 'libdconf.so.1', theirs)
    compare(both.library / 'libdconf.so.1', theirs)
    program = both.compiled('types')
    outs = [both.ran(whose, [program]) for whose in ('theirs', 'ours')]
    if outs[0] != outs[1] or outs[0][0]:
        raise Stop(f'types: dconf has {outs[0]}, and ours {outs[1]}')
    return f'made by gcc and clang without a warning; {len(symbols(theirs))} symbols as Debian\'s, with its type and signals'
