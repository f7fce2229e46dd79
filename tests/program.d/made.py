"""Databases that the program makes of generated settings: each is byte for byte what the writer of gvdb.py makes, `check` calls it sound, and what is
dumped and listed of it is what was put in. Two of them have the length and the hash that another writer's files have, and one of a thousand keys is
loaded into an empty store."""
import os
import re
import struct
from concurrent.futures import ThreadPoolExecutor

import gvdb
import scripts

COUNTS = [*range(24), 50, 200]
NAMES = ['/k{0}', '/a/k{0}', '/a/b{1}/k{0}', '/c{2}/d/k{0}', '/a/b0/é/k{0}']
PROFILE = b'user-db:me\nsystem-db:site\n'

# The words of two databases, and how many bytes and which hash their files have. A word `/k=` is a value of no bytes, and one without `=` is a lock.
NESTED = ("/a/b/c/d=5 /a/b/c/e= /a/b/x='' /a/bb='hello' /a=5 /a-/q= /z/y/x/w/v='' /z/y='hello' /é/ü=5 /org/gnome/desktop/cursor-size="
          " /org/gnome/desktop/a='' /org/k='hello' /org/k /q /a/b/x")
MANY = ' '.join([f'/k{i % 7}/l{i}={5 + i % 5 * 256}' for i in range(60)] + [f'/k{i}' for i in range(20)])
OTHERS = [(NESTED, 1067, 4065451339), (MANY, 3147, 1198000973)]


def path_of(i):
    """The path of key number i: every fifth in the root, the others in directories up to three deep."""
    return NAMES[i % 5].format(i, i % 3, i % 7)


def stored(value):
    """The bytes of a value as a serialised `v`: a text in quotes, a number, or none."""
    if not value:
        return b''
    return value[1:-1].encode() + b'\0\0s' if value[0] == "'" else struct.pack('<i', int(value)) + b'\0i'


def keyfile(settings):
    return scripts.text_of(f"[{path[1:].rpartition('/')[0] or '/'}]\n{path.rpartition('/')[2]}={value}" for path, value in settings.items())


def rows_of(dump):
    """The settings of a dump, each path with its text."""
    group, found = '', {}
    for line in filter(None, dump.decode().split('\n')):
        if line[0] == '[':
            group = '/' if line == '[/]' else f'/{line[1:-1]}/'
        else:
            key, _, found[group + key] = line.partition('=')
    return found


def directories(paths):
    return {path[:at + 1] for path in [*paths, '/'] for at, letter in enumerate(path) if letter == '/'}


def names_in(directory, paths):
    """What a directory has, in the order of the bytes."""
    parts = {re.match('[^/]*/?', path[len(directory):])[0] for path in paths if path.startswith(directory)}
    return sorted(parts, key=str.encode)


def is_answered(store, words, wanted):
    scripts.is_so(words, store.run(words), (0, wanted if isinstance(wanted, bytes) else scripts.text_of(wanted), b''))


def is_seen(store, settings, locks, others):
    """The store has these settings and locks, and no value at other paths."""
    status, out, err = store.run(['dump', '/'])
    scripts.is_so('the dump', (status, rows_of(out), err), (0, settings, b''))
    is_answered(store, ['list-locks', '/'], sorted(locks, key=str.encode))
    for directory in directories(settings):
        is_answered(store, ['list', directory], names_in(directory, settings))
    for path in others:
        is_answered(store, ['origin', path], b'')


def is_made(store, count):
    """A database of so many keys, each worth its own number, with a lock on every third."""
    numbers = {path_of(i): i for i in range(count)}
    settings, locks = {path: f'uint32 {i}' for path, i in numbers.items()}, [path for path, i in numbers.items() if i % 3 == 0]
    store.compile('site.db', [*(f'{path}={value}' for path, value in settings.items()), *locks])
    wanted = gvdb.written({path.encode(): struct.pack('<I', i) + b'\0u' for path, i in numbers.items()}, {it.encode() for it in locks})
    scripts.is_so(f'the file of {count} keys', (store.folder / 'site.db').read_bytes() == wanted, True)
    is_answered(store, ['check', 'site.db'], b'sound\n')
    store.put('profile', PROFILE)
    is_seen(store, settings, locks, [path_of(i) for i in range(count, count + 4)])


def is_as_another_writer(store, words, size, hash_):
    """The program writes a file of that length and hash, where it repairs what the writer of gvdb.py makes of words."""
    pairs = [word.partition('=') for word in words.split()]
    made = gvdb.written({path.encode(): stored(value) for path, is_key, value in pairs if is_key},
                        {path.encode() for path, is_key, _ in pairs if not is_key})
    store.put('made', made)
    status, _, err = store.run(['repair', 'made', 'again'])
    found = (store.folder / 'again').read_bytes()
    scripts.is_so(f'the file of {words[:20]}..', (status, err, len(found), gvdb.hashed(found), found == made), (0, b'', size, hash_, True))


def is_loaded(store, count):
    """A thousand keys in ten directories."""
    settings = {f'/d{i % 10}/k{i}': f'uint32 {i}' for i in range(count)}
    store.put('profile', PROFILE)
    scripts.is_so('load', store.run(['load', '/'], keyfile(settings)), (0, b'', b''))
    is_seen(store, settings, [], ['/d0/k1', '/k0', '/d3'])
    wanted = gvdb.written({path.encode(): struct.pack('<I', i) + b'\0u' for i, path in enumerate(settings)}, set())
    scripts.is_so('the loaded file', (store.folder / 'me.user').read_bytes() == wanted, True)


def is_right(part):
    """What is wrong of a database, or nothing."""
    store, check, *words = part
    try:
        return check(store, *words)
    except scripts.FAULTS as why:
        return f'{store.folder.name}: {why}'


def checked(folder, program):
    """How many databases were made, and what is wrong."""
    parts = [(is_made, count) for count in COUNTS] + [(is_as_another_writer, *it) for it in OTHERS] + [(is_loaded, 1000)]
    stores = [(scripts.Store(folder / f'made-{i}', program), *part) for i, part in enumerate(parts)]
    with ThreadPoolExecutor(os.cpu_count()) as pool:
        return len(parts), list(filter(None, pool.map(is_right, stores)))
