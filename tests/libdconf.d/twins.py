"""A program with GSettings and a client of libdconf, beside dconf's: a fast change waits for no write of GSettings, whose disk is slow."""
import shutil
import subprocess

import homes
from frame import Stop, needs

SLOW, MOST = 2000, 100


def took(both, program, whose, **more):
    """The milliseconds of the longest of its fast changes."""
    status, out, err = both.ran(whose, [program], timeout=60, **more)
    if status or err:
        raise Stop(f'a program with both: status {status}, {out}{err}')
    return float(out)


def main(both):
    needs('gsettings', 'libglib2.0-bin')
    program, refuses = both.compiled('twins'), both.folder / 'refuses.so'
    subprocess.run(['gcc', '-fPIC', '-shared', homes.HERE / 'refuses.c', '-o', refuses], check=True)
    own = both.folder / 'twins.d'
    own.mkdir()
    modules, schema = homes.module(own), homes.schemas(own)
    more = {'GSETTINGS_SCHEMA_DIR': str(schema), 'LD_PRELOAD': str(refuses), 'SLOW': str(SLOW)}
    theirs = took(both, program, 'theirs', GSETTINGS_BACKEND='dconf', **more)
    ours = took(both, program, 'ours', GSETTINGS_BACKEND='dconfdb', GIO_EXTRA_MODULES=str(modules), **more)
    shutil.rmtree(own)
    if ours > max(MOST, theirs):
        raise Stop(f'a fast change beside a write of GSettings that takes {SLOW} ms: {ours} ms, and {theirs} ms with dconf')
    return f'a fast change beside a write of GSettings that takes {SLOW} ms waits for none, as with dconf: {ours} and {theirs} ms'
