"""Stores of a fixed seed, for alike and real_dconf: two or three databases with values of the user, of
a site and of a third file, and locks. And what capi/tests/answers.c says of them."""
import subprocess

import frame
from frame import Stop

NAMES = ['a', 'b', 'k', 'long-name', 'ü']
VALUES = ["'x'", "'desk'", "''", '5', '-7', 'uint32 24', 'true', 'false']


def some_key(rand):
    return '/' + '/'.join(rand.choice(NAMES) for _ in range(rand.randint(1, 3)))


def some_dir(rand):
    return rand.choice(['/', some_key(rand) + '/'])


def some_lock(rand, keys):
    return rand.choice([some_key(rand), some_key(rand) + '/'] + keys)


def some_lock_of_a_key(rand, keys):
    return rand.choice([some_key(rand)] + keys)


def keyfile(rand, count):
    """The text of a keyfile, and the keys in it."""
    rows = {some_key(rand): rand.choice(VALUES) for _ in range(count)}
    text = ''.join(f'[{path[1:].rpartition("/")[0] or "/"}]\n{path.rpartition("/")[2]}={value}\n' for path, value in rows.items())
    return text, list(rows)


def ran(folder, *words, given=''):
    """The status, out and err of the program in that folder."""
    done = subprocess.run([frame.program(), *words], cwd=folder, input=given, capture_output=True, text=True, check=False)
    return done.returncode, done.stdout, done.stderr.strip()


def compiled(folder, name, text, locks):
    """Makes a database of the store in the folder."""
    (folder / 'keys').write_text(text, encoding='utf-8')
    (folder / 'locks').write_text(''.join(it + '\n' for it in locks), encoding='utf-8')
    status, _, err = ran(folder, 'compile', name, '--locks', 'locks', 'keys')
    if status:
        raise Stop(f'a store could not be made: {err}')


def made(rand, folder, a_lock=some_lock):
    """Makes a store, and gives the lines of its profile and the paths that may be in it."""
    folder.mkdir()
    has_user = rand.random() < 0.9
    lines = (['user-db:me'] if has_user else []) + ['system-db:site'] + (['file-db:far.db'] if rand.random() < 0.5 else [])
    (folder / 'profile').write_text('# a store\n' + '\n'.join(lines) + '\n', encoding='utf-8')
    paths = []
    for name in ['me.user', 'site.db', 'far.db']:
        if rand.random() < 0.15:
            continue
        text, keys = keyfile(rand, rand.randint(0, 6))
        paths += keys
        compiled(folder, name, text, [a_lock(rand, keys) for _ in range(rand.randint(0, 2))])
    return lines, paths + [some_key(rand), some_key(rand)]


def asked(answers, folder, questions):
    """The library's answers, a text each."""
    lines = ''.join(f'{word} {path}\n' for word, path in questions)
    done = subprocess.run([answers, folder, 'ask'], input=lines, capture_output=True, text=True, check=False)
    if done.returncode:
        raise Stop(f'the library: {done.stdout}{done.stderr}')
    texts = ['']
    for line in done.stdout.splitlines():
        if line == '.':
            texts.append('')
        else:
            texts[-1] += line + '\n'
    return [it.rstrip('\n') for it in texts[:-1]]
