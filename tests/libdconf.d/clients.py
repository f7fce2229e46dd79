"""Random calls of a client, fast and sync, read through changes, watched or not: the same answers and the same signals with both libraries. In folders of
their own, so that each script finds nothing; and of a site's keys, two of which are locked."""
import os
import random
import re

from frame import Stop

SCRIPTS = int(os.environ.get('SCRIPTS', '150'))
SITE = ['/a/k', '/a/m', '/x/locked', '/a/b/locked', '/x/z']
VALUES = ['5', '7', "'t'", '[1,2]', '<5>', 'true', '-']


def some_path(rand, place):
    return rand.choice([f'{place}k', f'{place}l', f'{place}d/k', f'{place}d/e/k', rand.choice(SITE)])


def some_dir(rand, place):
    return rand.choice([place, f'{place}d/', f'{place}d/e/', '/x/', '/'])


def some_rows(rand, place):
    """Changes of keys."""
    paths = {some_path(rand, place) for _ in range(rand.randint(1, 3))}
    return ' '.join(f'{path}={rand.choice(VALUES)}' for path in sorted(paths))


def some_set(rand, place):
    """The same, sometimes with the reset of a directory that has none of them."""
    return rand.choice([some_rows(rand, place), some_rows(rand, place), f'{place}d/e/=-'])


def read(rand, place):
    through = rand.choice(['', '', ' ' + some_set(rand, place)])
    return f'read {rand.choice([0, 0, 1, 2, 3])} {some_path(rand, place)}{through}'


def sync(rand, place):
    """A change that waits for the disk, and the signals after it."""
    change = rand.choice([f'change sync {some_set(rand, place)}', f'write sync {some_path(rand, place)} {rand.choice(VALUES)}',
                          f'write sync {some_dir(rand, place + "d/")[:len(place) + 9]} -' if rand.random() < 0.5 else f'write sync {place}d/ -'])
    return f'sync\n{change}\nsettle 15'


def fast(rand, place):
    """Changes that wait, which are read at once."""
    lines = [rand.choice([f'change fast {some_rows(rand, place)}', f'write fast {some_path(rand, place)} {rand.choice(VALUES)}']) for _ in range(rand.randint(1, 3))]
    return '\n'.join([*lines, read(rand, place)])


def look(rand, place):
    words = rand.choice([f'list {some_dir(rand, place)}', f'locks {some_dir(rand, place)}', f'writable {some_path(rand, place)}', f'writable {some_dir(rand, place)}'])
    # What waits may be listed or not, and the root has what other scripts left.
    return 'sync\nsettle 15\n' + (words if words != 'list /' else f'list {place}')


def script(rand, number):
    place = f'/s{number}/'
    watched, lines = [], []
    for _ in range(rand.randint(4, 12)):
        kind = rand.choice([read, read, sync, sync, sync, fast, fast, look, None])
        if kind:
            lines.append(kind(rand, place))
        elif watched and rand.random() < 0.4:
            how, path = watched.pop(rand.randrange(len(watched)))
            lines.append(f'sync\nsettle 15\nunwatch {how} {path}\nsettle 15')
        else:
            how, path = rand.choice(['fast', 'sync']), rand.choice([some_path(rand, place), some_dir(rand, place)])
            watched.append((how, path))
            lines.append(f'sync\nwatch {how} {path}\nsettle 25')
    return '\n'.join([*lines, 'sync', 'settle 25', f'list {place}', f'list {place}d/', f'read 0 {place}k']) + '\n'


def asked(both, program, number, slower):
    """What a script's program says with dconf's library, and with ours; each time in a place of its own."""
    given = script(random.Random(number), f'{number}_{slower}')
    given = re.sub(r'(?<=settle )\d+', lambda found: str(int(found[0]) * slower), given)
    return given, [both.ran(whose, [program], given) for whose in ('theirs', 'ours')]


def shown(given, theirs, ours):
    """Where they differ first."""
    one, other = theirs[1].splitlines(), ours[1].splitlines()
    at = next((i for i, pair in enumerate(zip(one, other)) if pair[0] != pair[1]), min(len(one), len(other)))
    return '\n'.join([given, f'dconf: {theirs[0]} {theirs[2][-300:]}', *one[max(0, at - 6):at + 3], f'ours: {ours[0]} {ours[2][-300:]}', *other[max(0, at - 6):at + 3]])


def main(both):
    program, signals = both.compiled('driver'), 0
    for number in range(SCRIPTS):
        # A bus that has much to do brings dconf's signals late: then once more, with more time.
        for slower in (1, 10, 40):
            given, (theirs, ours) = asked(both, program, number, slower)
            if theirs[:2] == ours[:2]:
                break
        else:
            raise Stop(f'script {number}:\n{shown(given, theirs, ours)}')
        signals += ours[1].count('  changed ')
    return f'{SCRIPTS} random scripts of a client\'s calls: the same answers, and the same {signals} signals'
