"""What valgrind tells of a program over GSettings, of the module alone. A fault or a block is ours where a function of the module is among those that
were called when it came about: where one frame of the stack lies in libdconfdbsettings.so; but for the thread of GLib's that the first to watch a file
starts. GLib's other ones are passed over, also by GLib's file of them, where it is there."""
import os
import subprocess
import xml.etree.ElementTree as XML
from pathlib import Path

import desk
from desk import Stop

MODULE = 'libdconfdbsettings.so'
GLIBS = Path('/usr/share/glib-2.0/valgrind/glib.supp')


def is_ours(error):
    """Whether a frame of ours is in the stack, and between it and the block is no thread that GLib starts for all who watch files, and never ends."""
    above = []
    for frame in error.iter('frame'):
        if MODULE in frame.findtext('obj', ''):
            break
        above.append(frame)
    else:
        return False
    starts_thread = any(frame.findtext('fn', '').startswith('pthread_create') for frame in above)
    return not (starts_thread and any('libgio' in frame.findtext('obj', '') for frame in above))


def place_of(error):
    """The innermost function of ours, for who looks for the fault."""
    frames = [frame for frame in error.iter('frame') if MODULE in frame.findtext('obj', '')]
    return ' < '.join(f'{frame.findtext("fn", "?")}:{frame.findtext("line", "?")}' for frame in frames[:4])


def errors_of(*words):
    """What valgrind tells of a run: its kind, how many blocks that are still there, and where."""
    desk.frame.needs('valgrind', 'valgrind')
    told = desk.HOME / 'valgrind.xml'
    known = [f'--suppressions={GLIBS}'] if GLIBS.exists() else []
    checks = ['--leak-check=full', '--show-leak-kinds=all', '--num-callers=60', '--child-silent-after-fork=yes']
    run = ['valgrind', '--xml=yes', f'--xml-file={told}', *checks, *known, *map(str, words)]
    ran = subprocess.run(run, env=os.environ | {'G_SLICE': 'always-malloc'}, stdin=subprocess.DEVNULL, capture_output=True, text=True, check=False)
    if ran.returncode:
        raise Stop(f'the program under valgrind: status {ran.returncode}, {ran.stdout}{ran.stderr}')
    ours = [it for it in XML.parse(told).getroot().iter('error') if is_ours(it)]
    return [(it.findtext('kind'), int(it.findtext('xwhat/leakedblocks', '0')), place_of(it)) for it in ours]


def held_after(*words):
    """How many blocks GLib holds on our account after a program. Stops at a fault of ours, and at a block that nobody holds."""
    errors = errors_of(*words)
    desk.same(f'faults of ours, and blocks that nobody holds, of {" ".join(map(str, words))}', [it for it in errors if it[0] != 'Leak_StillReachable'], [])
    return sum(blocks for _, blocks, _ in errors)
