"""./install --libdconf puts the library alone, where it is told, and --uninstall takes it away."""
import os
import subprocess

import frame
from frame import Stop


def files(folder):
    return sorted(str(it.relative_to(folder)) for it in folder.rglob('*') if not it.is_dir())


def main(both):
    for words, env, place in [(['/opt/desk'], {}, 'opt/desk/lib/libdconf.so.1'), ([], {'LIBDIR': '/usr/lib/desk'}, 'usr/lib/desk/libdconf.so.1')]:
        into = both.folder / 'into'
        env = os.environ | env | {'DESTDIR': str(into), 'OUT': str(both.folder / 'installed')}
        run = [frame.TOP / 'install', '--libdconf', *words]
        subprocess.run(run, env=env, stdout=subprocess.DEVNULL, check=True)
        if files(into) != [place]:
            raise Stop(f'{words}: it puts {files(into)}')
        subprocess.run([run[0], '--uninstall', *run[1:]], env=env, check=True)
        if files(into):
            raise Stop(f'{words}: {files(into)} stays')
    return 'installed into a prefix or a LIBDIR, and removed'
