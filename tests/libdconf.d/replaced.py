"""The library is upgraded, and then removed, under a running program, which goes on with the one that it began with."""
import os
import shutil

from frame import Stop
from watched import Watcher

QUESTIONS = ['watch sync /up/', 'write sync /up/k 1', 'await 500', 'write fast /up/l 2', 'sync', 'read 0 /up/l', 'list /up/', 'write sync /up/ -', 'await 500', 'list /up/']


def main(both):
    library = both.library / 'libdconf.so.1'
    kept = both.folder / 'kept.so'
    shutil.copy(library, kept)
    program = Watcher(both, 'ours', both.compiled('driver'))
    first = [program.says(it) for it in QUESTIONS]
    # As ./install and dpkg do.
    shutil.copy(kept, library.with_suffix('.new'))
    os.replace(library.with_suffix('.new'), library)
    second = [program.says(it) for it in QUESTIONS]
    library.unlink()
    third = [program.says(it) for it in QUESTIONS]
    program.end()
    shutil.copy(kept, library)
    if not first == second == third or program.run.returncode or first[2] != ['  changed /up/k [] mine']:
        raise Stop(f'upgraded under a program: {first}, then {second}, and removed: {third}; status {program.run.returncode}')
    return 'upgraded and removed under a running program, which goes on'
