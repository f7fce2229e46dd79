"""A client's signals come in the main context in which it was made, in its thread, with both libraries. Another thread may end its watch amid a look."""
import subprocess

from frame import Stop


def unwatched(both):
    """A watch is ended and another one begun by another thread while the first one's source looks at the files: what it heard isn't the new one's, so that
    what others set is read."""
    program, store = both.compiled('unwatched'), both.folder / 'unwatched_store'
    (store / 'site' / 'd').mkdir(parents=True)
    (store / 'profile').write_text('user-db:user\nfile-db:site/db\n', encoding='utf-8')
    subprocess.run(['dconf', 'compile', store / 'site' / 'db', store / 'site' / 'd'], check=True)
    status, out, err = both.ran('ours', [program, store / 'site' / 'db'], timeout=30, DCONFDB_STORE=str(store))
    if (status, out) != (0, '1\n5\n'):
        raise Stop(f'a watch that another thread ends: status {status}, {out!r}, {err}')


def main(both):
    program = both.compiled('contexts')
    theirs, ours = (both.ran(whose, [program], timeout=30) for whose in ('theirs', 'ours'))
    if theirs != ours or '3 of 3 in its thread' not in ours[1]:
        raise Stop(f'contexts: dconf says {theirs}, and ours {ours}')
    unwatched(both)
    return 'the signals of a client that is made in a thread come in its main context; another thread may end its watch amid a look'
