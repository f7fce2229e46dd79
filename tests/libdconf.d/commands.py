"""Random commands of dconf's own program, over our library, and over its own and the service: what they print and their status is the same."""
import os
import random

from frame import Stop

DIRS = ['/', '/a/', '/a/b/', '/a/b/c/', '/x/', '/none/', '/bad', 'bad/']
KEYS = ['/k', '/a/k', '/a/l', '/a/b/k', '/a/b/c/k', '/x/k', '/x/locked', '/a/b/locked', '/bad/', 'bad']
VALUES = ['5', "'t'", '1.5', '[1,2]', '@as []', "{'a': <1>}", 'uint32 7', 'true', '(1,"a")', 'oops', '@mi nothing', '<5>', "b'x'"]
KINDS = ['read', 'read', 'read -d', 'list', 'write', 'write', 'write', 'reset', 'reset -f', 'load', 'load -f', 'dump', 'list-locks']
COUNT = int(os.environ.get('COMMANDS', '6000'))


def keyfile(rand):
    rows = [(rand.choice(['/', 'a', 'a/b', 'x', 'q']), rand.choice(['k', 'l', 'locked']), rand.choice(VALUES[:9])) for _ in range(3)]
    return ''.join(f'[{group}]\n{key}={value}\n' for group, key, value in rows)


def command(rand):
    """The words of one, and what it is given."""
    kind = rand.choice(KINDS)
    words = kind.split()
    of_key = words[0] in ('read', 'write') or kind == 'reset'
    words.append(rand.choice(KEYS if of_key else DIRS))
    if kind == 'write':
        words.append(rand.choice(VALUES))
    return words, keyfile(rand) if words[0] == 'load' else ''


def in_order(words, out):
    """Lists and dumps come in any order from dconf."""
    if words[0] == 'dump':
        return sorted(tuple(sorted(group.strip().split('\n'))) for group in out.split('\n\n'))
    return sorted(out.split('\n'))


def main(both):
    rand = random.Random(7)
    for number in range(COUNT):
        words, given = command(rand)
        theirs, ours = (both.ran(whose, ['dconf', *words], given) for whose in ('theirs', 'ours'))
        if (theirs[0], in_order(words, theirs[1])) != (ours[0], in_order(words, ours[1])):
            raise Stop(f'command {number}, {words}: dconf says {theirs}, and ours {ours}')
    return f'{COUNT} random commands of dconf answer as over its own library and service'
