"""valgrind over programs with the library, and the library with the programs, made with clang's sanitizers: nothing is lost, read past its end, or undefined.
And many threads at once over one client."""
import os
import shutil
import subprocess
from pathlib import Path

import both as shared
import frame
from frame import Stop, needs

SCRIPT = '''watch sync /
write sync /v/k 1
settle 20
write fast /v/k 2
write fast /v/d/k 'text'
read 0 /v/k
read 0 /v/k /v/k=9
read 1 /a/k
read 2 /a/k /a/=-
change sync /v/k=- /v/l=[1,2] /x/locked=3
change sync /v/k=- /v/l=[1,2]
settle 20
change fast /v/d/=- /v/m=<5>
sync
list /
list /v/
locks /
writable /x/locked
writable /v/
watch fast /v/
unwatch sync /
unwatch fast /v/
watch fast /v/
write fast /v/z 1
anew
write sync /v/ -
settle 50
'''
VALGRIND = ['valgrind', '-q', '--error-exitcode=9', '--leak-check=full', '--errors-for-leak-kinds=definite,indirect', f'--suppressions={shared.HERE}/glib.supp']


# The sanitizer of threads is blind for GLib's locks, but for those that seen_locks.c shows it; and so for what a main context hands from thread to
# thread, and for the references that GLib counts: who gives the last one back clears and frees what others wrote before they gave
# back theirs.
BLIND = 'called_from_lib:libglib-2.0.so\ncalled_from_lib:libgio-2.0.so\ncalled_from_lib:libgobject-2.0.so\nrace_top:emit\nrace_top:free\nrace_top:clear\n'


def races(both):
    """Runs the threads with the sanitizer of races."""
    blind, locks = both.folder / 'blind', frame.TOP / 'tests' / 'gsettings.d' / 'seen_locks.c'
    blind.write_text(BLIND, encoding='utf-8')
    program = sanitized(both, 'threads', 'thread', '-rdynamic', locks, '-ldl')
    asked(both, [program, '400'], TSAN_OPTIONS=f'suppressions={blind} exitcode=5 history_size=4')


def sanitized(both, name, what, *more):
    """The program and the library in one, made with a sanitizer."""
    capi = frame.TOP / 'capi'
    kit = Path(subprocess.run(['rt', 'doc'], capture_output=True, text=True, check=True).stdout.strip()).parent / 'c' / 'liblibc_c.a'
    files = [*sorted((capi / 'libdconf').glob('*.c')), capi / 'common' / 'batch.c', capi / 'common' / 'tried.c', *(capi / f'{it}.c' for it in (capi / 'sources').read_text(encoding='utf-8').split())]
    program = both.folder / f'{name}.{what.replace(",", ".")}'
    words = ['clang', '-std=gnu11', '-g', '-O1', f'-fsanitize={what}', '-fno-sanitize-recover=undefined', '-DG_LOG_DOMAIN="dconf"', f'-I{capi / "common"}', f'-I{capi / "libdconfdb"}']
    glib = shared.flags('gio-2.0', words=('--libs',))
    calls = os.environ.get('DCONFDB_CALLS', frame.TOP / 'crates' / 'dconfdb_c' / 'out' / 'libdconfdb_c.a')
    subprocess.run([*words, *shared.flags('gio-2.0', 'dconf', words=('--cflags',)), shared.HERE / f'{name}.c', *files, *more, calls, kit, *glib, '-pthread', '-o', program], check=True)
    return program


def asked(both, words, given='', **env):
    status, out, err = both.ran('ours', words, given, timeout=600, **env)
    if status or 'ERROR' in err:
        raise Stop(f'{words[0]} {Path(words[-1]).name}: status {status}, {out[-1000:]}\n{err[-3000:]}')
    return out


def asked_anew(both, words):
    """What the driver says to the script, of a user who has nothing yet."""
    (both.homes['ours'] / 'config' / 'dconfdb' / 'user.user').unlink(missing_ok=True)
    return asked(both, words, SCRIPT, G_SLICE='always-malloc', G_DEBUG='gc-friendly')


def main(both):
    needs('valgrind', 'valgrind')
    needs('clang', 'clang')
    driver, changesets, threads = (both.compiled(it) for it in ('driver', 'changesets', 'threads'))
    quiet = {'G_SLICE': 'always-malloc', 'G_DEBUG': 'gc-friendly'}
    said = [asked_anew(both, words) for words in ([driver], [*VALGRIND, driver])]
    if said[0] != said[1] or said[0].count('  changed ') < 6:
        raise Stop(f'under valgrind it says {said[1]}, and else {said[0]}')
    asked(both, [*VALGRIND, changesets, '40'], **quiet)
    asked(both, [*VALGRIND, threads, '40'], **quiet)
    asked(both, [threads, '2000'])
    for name, words, given in (('driver', [], SCRIPT), ('changesets', ['200'], ''), ('threads', ['300'], '')):
        asked(both, [sanitized(both, name, 'address,undefined'), *words], given, **quiet, ASAN_OPTIONS='detect_leaks=0')
    races(both)
    return 'valgrind and clang\'s address, undefined-behaviour and thread sanitizers see nothing; six threads over one client lose nothing'
