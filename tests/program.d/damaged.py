"""Damaged copies of two databases, one that the real dconf made and one of the program's: what `check` says of each is compared with the slow check;
of each fourth, what `repair` makes of it with the slow salvage, and, if it is sound, what is found of some names with the slow search. Each copy has
one or two other bytes, half of them in its root table."""
import collections
import os
import random
import re
from concurrent.futures import ThreadPoolExecutor

import gvdb
import scripts

COPIES = 2000
REPAIRED = 4  # one of so many is repaired, and searched

# The rules that the copies of a file break, and how often at least. The real dconf's has no bloom words for S6; for S7 a copy would need another
# hash, another key and another bucket at once.
OF_SITE = {'S1': 100, 'S2': 100, 'S3': 5, 'S4': 100, 'S5': 5, 'S8': 100, 'S9': 1, 'S10': 20, 'S11': 5}
OF_WRITTEN = {'S6': 1}

# What the program's database has: keys in directories up to three deep, and some locks.
WRITTEN = ['/k0=uint32 0', '/k0', '/a/k1=uint32 1', '/a/b2/k2=uint32 2', '/c3/d/k3=uint32 3', '/c3/d/k3', '/a/b0/é/k4=uint32 4', '/k5=uint32 5',
           '/a/k6=uint32 6', '/a/k6', '/a/b1/k7=uint32 7']


def other_byte(rand, byte, in_item_before):
    """A number for a byte: the next one, the one before, one with a bit changed, the one that the item before has there, or any."""
    return rand.choice([(byte + 1) % 256, (byte - 1) % 256, byte ^ 1 << rand.randrange(8), in_item_before, *(rand.randrange(256) for _ in range(4))])


def copy_of(rand, whole):
    made = bytearray(whole)
    end = int.from_bytes(whole[20:24], 'little')
    for _ in range(rand.randint(1, 2)):
        at = rand.randrange(24, end) if rand.random() < 0.5 else rand.randrange(len(made))
        made[at] = other_byte(rand, made[at], made[max(at - 24, 0)])
    return bytes(made)


def said(store, name, made):
    """What the program says of a file."""
    store.put(name, made)
    status, out, err = store.run(['check', name])
    return (out or err).decode().rstrip('\n') if status == (out == b'') else f'status {status}'


def kept(store, name, made):
    """What is wrong of the database that the program makes of a file, or nothing."""
    status, out, err = store.run(['repair', name, f'{name}.again'])
    if gvdb.Table.opened(made) is None:
        return None if status == 1 else f'{name} is repaired'
    values, locks = gvdb.salvaged(made)
    wanted = 0, f'kept {len(values)} keys, {len(locks)} locks\n'.encode(), b''
    again = store.folder / f'{name}.again'
    found = again.read_bytes() if again.exists() else b''
    again.unlink(missing_ok=True)
    return None if (status, out, err) == wanted and found == gvdb.written(values, locks) else f'{name} is repaired otherwise: {out}{err}'


def found_otherwise(store, name, made):
    """The first name of which the program finds something else in a sound file than the slow search, or None. The file is second in a profile,
    so that its locks count."""
    table, rand = gvdb.Table.opened(made), random.Random(name)
    store.put(f'{name}.profile', f'user-db:none\nfile-db:{name}\n'.encode())
    names = {table.full_name(item) for item in table.items} - {b'.locks'}
    for path in [b'/', *rand.sample(sorted(names), 2), b'/none']:
        words = ['list' if path.endswith(b'/') else 'origin', '-p', f'{name}.profile', path]
        held = b''.join(key + b'\n' for key in table.children(path))
        wanted = held if path.endswith(b'/') else f'1 file-db:{name}\n'.encode() if table.found(path, 'v') is not None else b''
        if store.run(words) != (0, wanted, b''):
            return f'{path} of {name}: {store.run(words)}, and the slow search finds {wanted}'
    locks = b''.join(lock + b'\n' for lock in sorted(table.locked()))
    return None if store.run(['list-locks', '-p', f'{name}.profile', '/']) == (0, locks, b'') else f'the locks of {name} are others than {locks}'


def faults_of_copy(store, name, number, made):
    """What the slow check says of a copy, and what is wrong."""
    slow, found = gvdb.verdict(made), said(store, name, made)
    faults = [] if found == slow else [f'{name}: {found}, and the slow check says {slow}']
    if number % REPAIRED == 0:
        faults += [kept(store, name, made), found_otherwise(store, name, made) if slow == 'sound' else None]
    return slow, list(filter(None, faults))


def faults_of(store, pool, name, whole, least):
    """What is wrong of the copies of a file: what the program says of one, or rules that too few of them break."""
    rand = random.Random(name)
    copies = [copy_of(rand, whole) for _ in range(COPIES)]
    answers = list(pool.map(lambda it: faults_of_copy(store, f'{name}-{it[0]}', *it), enumerate(copies)))
    yield from (fault for _, faults in answers for fault in faults)
    times = collections.Counter(rule for slow, _ in answers for rule in re.findall(r'\bS\d+', slow))
    for rule, number in least.items():
        if times[rule] < number:
            yield f'of {name} only {times[rule]} copies break {rule}'


def checked(folder, program):
    """How many copies were tried, and what is wrong."""
    store = scripts.Store(folder / 'damaged', program)
    store.compile('written', WRITTEN)
    files = [('dconf', gvdb.SAMPLES['dconf'], OF_SITE), ('written', store.files()['written'][1], OF_WRITTEN)]
    with ThreadPoolExecutor(os.cpu_count()) as pool:
        return COPIES * len(files), [fault for file in files for fault in faults_of(store, pool, *file)]
