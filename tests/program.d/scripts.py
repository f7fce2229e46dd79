"""The scripts and tables of this folder: how they are read, and how the program is asked what they have. The head of tests/program has their form."""
import os
import re
import struct
import subprocess
from concurrent.futures import ThreadPoolExecutor
from pathlib import Path

import gvdb
from frame import Stop

HERE = Path(__file__).resolve().parent
CONTROL = {0x2400 + byte: byte for byte in range(1, 32)}
KINDS = ('-- ', ': ', 'db ', 'mode ', '$ ', '! ', '~ ', '> ', '? ', '= ')
TOO_DEEP = '<' * 127 + '1' + '>' * 127
SECONDS = 120


class Wrong(Exception):
    """A row is not as it should be."""


# What a row may fail by: also a form that can't be read, and a run that doesn't end.
FAULTS = (Wrong, ValueError, KeyError, IndexError, subprocess.TimeoutExpired)


# ---- words

def repeated(line):
    return re.sub(r'@\{(\d+):([^}]*)\}', lambda found: found[2] * int(found[1]), line)


def bytes_of(words):
    """The bytes of words."""
    made = bytearray()
    for word in re.findall(r"'[^']*'|[^ ]+", words):
        if word[0] == "'":
            made += word[1:-1].encode()
        elif word[0] == '%':
            made += gvdb.SAMPLES[word[1:]]
        elif word[0] == ':':
            del made[int(word[1:]):]
        elif word[0] == '~':
            made.append((len(made) + int(word[1:] or 0)) % 256)
        elif word[0] == '=':
            if len(made) != int(word[1:]):
                raise Wrong(f'there are {len(made)} bytes and not {word[1:]}')
        elif '=' in word:
            at, byte = map(int, word.split('='))
            made[at] = byte
        else:
            made += bytes([int(word, 16)])
    return bytes(made)


def text_of(lines):
    return ''.join(f'{line}\n' for line in lines).encode()


def is_kind(line):
    return line.startswith(KINDS) or line == '!'


class Lines:
    """The lines of a script, with their numbers in its file."""

    def __init__(self, numbered):
        self.numbered, self.at = numbered, 0

    def more(self):
        return self.at < len(self.numbered)

    def line(self):
        self.at += 1
        return repeated(self.numbered[self.at - 1][1])

    def number(self):
        return self.numbered[self.at - 1][0]

    def until(self, ends):
        """The lines before one that is such an end."""
        found = []
        while self.more() and not ends(self.numbered[self.at][1]):
            found.append(self.line())
        return found


# ---- the program

class Store:
    """A folder in which the program is run."""

    def __init__(self, folder, program):
        self.folder, self.program = folder, program
        folder.mkdir()

    def run(self, words, given=b''):
        done = subprocess.run([self.program, *words], cwd=self.folder, input=given, capture_output=True, timeout=SECONDS, check=False)
        return done.returncode, done.stdout, done.stderr

    def files(self):
        """Each file's number, bytes and permission bits, by its name, but for the lock, which comes with the first change. A file that is replaced has
        another number."""
        here = (it for it in self.folder.iterdir() if it.name != '.lock')
        return {it.name: (it.stat().st_ino, it.read_bytes(), it.stat().st_mode & 0o777) for it in here}

    def put(self, name, made):
        (self.folder / name).write_bytes(made)

    def compile(self, name, words):
        """Has the program make a database of keys and locks."""
        keys = [word.partition('=') for word in words if '=' in word]
        locks = [word for word in words if word[0] == '/' and '=' not in word]
        apart = Store(self.folder.parent / f'{self.folder.name}.{name}', self.program)
        apart.put('keys', text_of(f"[{path[1:].rpartition('/')[0] or '/'}]\n{path.rpartition('/')[2]}={value}" for path, _, value in keys))
        apart.put('locks', text_of(locks))
        left = apart.run(['compile', '--locks', 'locks', 'made', 'keys'])
        if left != (0, b'', b''):
            raise Wrong(f'the database {name} is not compiled: {left}')
        made = (apart.folder / 'made').read_bytes()
        self.put(name, made[:len(made) + sum(int(word) for word in words if word[0] == '-')])


def is_so(what, found, wanted):
    if found != wanted:
        raise Wrong(f'{what}: {str(found)[:500]}, wanted {str(wanted)[:500]}')


# ---- scripts

def asked(line, lines):
    """The words of a run, its input and its status."""
    words, arrow, status = line.rpartition(' => ')
    if arrow:
        return words.strip(), b'', int(status)
    rows = lines.until(lambda line: line.startswith('=> '))
    if not lines.more():
        raise Wrong('a run without its status')
    status = int(lines.line()[3:])
    return line.strip(), bytes_of(rows[0][2:]) if rows and rows[0].startswith('< ') else text_of(rows), status


def written(lines):
    """What a run is to leave: what it writes to out and to err, parts of out, and files that are replaced."""
    out, err, parts, replaced = lines.until(is_kind), [], [], {}
    for line in lines.until(lambda line: not (line.startswith(('! ', '~ ', '> ', '-- ')) or line == '!')):
        if line[0] == '!':
            err.append(line[2:])
        elif line[0] == '~':
            parts.append(line[2:].encode())
        elif line[0] == '>':
            name, *more = line[2:].split(' ')
            replaced[name] = more
    return text_of(out), text_of(err), parts, replaced


def replaces(store, before, wanted):
    """The run has replaced these files, which have the permission bits of the old ones, and no others are new, gone, or other ones."""
    after = store.files()
    is_so('the files that are replaced', sorted(name for name in {*before, *after} if before.get(name) != after.get(name)), sorted(wanted))
    for name, more in wanted.items():
        if name in before:
            is_so(f'the permission bits of {name}', oct(after[name][2]), oct(before[name][2]))
        for length in more[:1]:
            is_so(f'how many bytes {name} has', len(after[name][1]), int(length))
        for other in more[2:]:
            is_so(f'whether {name} is as {other}', after[name][1] == after[other][1], True)


def row_of_run(store, line, lines):
    words, given, status = asked(line, lines)
    out, err, parts, replaced = written(lines)
    before = store.files()
    found = store.run(words.split(' ') if words else [], given)
    if parts and all(part in found[1] for part in parts):
        out = found[1]
    is_so('it leaves', found, (status, out, err))
    replaces(store, before, replaced)


def row_of_place(store, line):
    """A line `? PATH => A; B; C; D`."""
    path, wanted = line.split(' => ')
    found = []
    for words in [['read', path], ['read', '-d', path], ['origin', path]]:
        status, out, err = store.run(words)
        is_so(words[0], (status, err), (0, b''))
        found.append(out.decode()[:-1] or '-')
    refusals = {b'error: TooLarge\n': 'free', f'error: Locked {path}\n'.encode(): 'locked', b'error: NotWritable\n': 'fixed'}
    before = store.files()
    status, out, err = store.run(['write', path, TOO_DEEP])
    is_so('a value that is too deep', (status, out), (1, b''))
    replaces(store, before, {})
    found.append(refusals.get(err, err))
    is_so('it is', '; '.join(map(str, found)), wanted)


def row_of_bytes(store, line):
    name, path, words = line.split(' ', 2)
    table = gvdb.Table.opened((store.folder / name).read_bytes())
    is_so(f'the bytes of {path}', table and table.value(path.encode()), bytes_of(words))


def row_of_files(store, line, lines):
    """Makes the file of a line, or gives it permission bits, and says whether the line is one of these."""
    kind, _, rest = line.partition(' ')
    name, _, words = rest.partition(' ')
    if kind == ':':
        store.put(name, bytes_of(words) if words else text_of(lines.until(is_kind)))
    elif kind == 'db':
        store.compile(name, words.split())
    elif kind == 'mode':
        (store.folder / name).chmod(int(words, 8))
    return kind in (':', 'db', 'mode')


def script(store, lines):
    """Does the lines of a script, and gives how many rows they are and what is wrong; what follows on that is not tried."""
    rows = 0
    while lines.more():
        line = lines.line()
        number = lines.number()
        if not line or line.startswith('-- '):
            continue
        try:
            if row_of_files(store, line, lines):
                continue
            rows += 1
            if line.startswith('$'):
                row_of_run(store, line[2:], lines)
            elif line.startswith('? '):
                row_of_place(store, line[2:])
            elif line.startswith('= '):
                row_of_bytes(store, line[2:])
            else:
                raise Wrong('no line of a script')
        except FAULTS as why:
            return rows, [f'{number}: {line[:100]}: {why}']
    return rows, []


# ---- tables

# What the program is asked of a file `f`, by the kind of the table.
ASKED = {'check': ['check', 'f'], 'profile': ['origin', '-p', 'f', '/k'], 'keyfile': ['compile', 'out', 'f'],
         'locks': ['compile', '--locks', 'f', 'site.db', 'none'], 'repair': ['repair', 'f', 'out']}


def is_left(found, wanted):
    text = text_of([wanted.removeprefix('! ')] if wanted else [])
    is_so('it leaves', found, (1, b'', text) if wanted.startswith('! ') else (0, text, b''))


def stored(store, text):
    """The bytes that `write` stores for a text: those of its value, a zero byte and its type."""
    is_so(f'write of {text[:100]} leaves', store.run(['write', '--', '/k', text]), (0, b'', b''))
    return gvdb.Table.opened((store.folder / 'me.user').read_bytes()).value(b'/k')


def row_of_text(store, line):
    text, wanted = line.translate(CONTROL).rsplit(' | ', 1)
    store.put('profile', b'user-db:me\n')
    if wanted.startswith('! '):
        return is_left(store.run(['write', '--', '/k', text]), wanted)
    value = stored(store, text)
    status, out, err = store.run(['read', '/k'])
    printed = out.decode()[:-1]
    is_so('it reads', (status, value.rpartition(b'\0')[2].decode() + ' ' + printed, err), (0, wanted, b''))
    return is_so('the bytes of what it reads', stored(store, printed), value)


def row_shown(store, line, kind):
    bytes_and_type, wanted = line.split(' | ')
    asked, _, words = bytes_and_type.partition(' ')
    made = bytes_of(words)
    store.put('f', made)
    is_left(store.run(['show', asked, 'f']), wanted)
    if kind == 'show':
        return
    store.put('profile', b'user-db:me\n')
    value = stored(store, wanted)
    if kind == 'bytes':
        is_so('the bytes that are stored', value, made + b'\0' + asked.encode())
    else:
        is_left(store.run(['read', '/k']), wanted)


def locked(store):
    """The locks of a site's database, in a line."""
    store.put('profile', b'user-db:none\nsystem-db:site\n')
    return store.run(['list-locks', '/'])[1].decode().rstrip('\n').replace('\n', ' ').replace('\r', '\\r')


def kept(store):
    """What a database has: each path with the first byte of its value, and each lock."""
    values, locks = gvdb.salvaged((store.folder / 'out').read_bytes())
    return ' '.join([f'{path.decode()}={value[0]}' for path, value in sorted(values.items())] + [f'lock {path.decode()}' for path in sorted(locks)])


def row_of_table(store, line, kind):
    words, _, wanted = line.rpartition(' |')
    wanted, made = wanted.strip(), bytes_of(words)
    store.put('f', made)
    store.put('none', b'')
    answer, _, after = wanted.partition(': ') if kind == 'repair' and wanted[0] != '!' else (wanted, '', '')
    if kind == 'locks' and not wanted.startswith('!'):
        answer, after = '', wanted
    is_left(store.run(ASKED[kind]), answer)
    if kind == 'check':
        is_so('the slow check says', gvdb.verdict(made), wanted.removeprefix('! '))
    elif kind in ('locks', 'repair') and not wanted.startswith('!'):
        is_so('it is', locked(store) if kind == 'locks' else kept(store), after)


# ---- doubles at any path

NAMED = {**CONTROL, 0x2420: 32, 0x2421: 127}
TRUE, DOUBLE = b'\1\0b', struct.pack('<d', 1.5) + b'\0d'
# What a database has beside a double, and a path that could be no row.
OTHERS, NO_ROW = dict.fromkeys([b'/a/j', b'/org/y/j', b'/z'], TRUE), b'/m[/k'


def path_of(text):
    return re.sub(rb'\\([0-9a-f]{2})', lambda found: bytes.fromhex(found[1].decode()), text.translate(NAMED).encode())


def dumped(store, directory, values, *flags):
    """What the dump of a database of these values leaves."""
    store.put('site.db', gvdb.written(values, set()))
    return store.run(['dump', *flags, '-p', 'named', directory])


def loaded(store, directory, keyfile):
    """What the dump of an empty store leaves into which a keyfile was loaded."""
    (store.folder / 'me.user').unlink(missing_ok=True)
    is_so(f'load {directory} of {keyfile}', store.run(['load', '-p', 'loaded', directory], keyfile), (0, b'', b''))
    return store.run(['dump', '-p', 'loaded', directory])


def is_skipped(store, directory, path):
    """A double at a path refuses the dump as a boolean there does, or a comment names it, and what is printed loads as all others. It isn't skipped
    below a directory with a line feed."""
    found, plain = dumped(store, directory, {**OTHERS, path: DOUBLE}, '--skip-doubles'), dumped(store, directory, {**OTHERS, path: TRUE})
    what = f'dump --skip-doubles {directory}'
    if b'\n' in directory:
        return is_so(what, found, (1, b'', b'error: DoubleText ' + path + b'\n'))
    if plain[0]:
        return is_so(what, found, plain)
    others = dumped(store, directory, OTHERS)
    is_so(what, found, (0, b'# ' + path + b'\n' + others[1], b''))
    return is_so('what is loaded of it', loaded(store, directory, found[1]), others)


def row_named(store, line):
    text, wanted = line.rsplit(' |', 1)
    path, why = path_of(text), wanted.removeprefix(' ! ').encode()
    store.put('named', b'user-db:none\nsystem-db:site\n')
    store.put('loaded', b'user-db:me\n')
    found = dumped(store, b'/', {**OTHERS, path: DOUBLE}, '--skip-doubles')
    is_so('the status, and what is on err', found[::2], (1, b'error: ' + why.replace(b'PATH', path) + b'\n') if why else (0, b''))
    for directory in {path[:at + 1] for at in range(len(path)) if path[at:at + 1] == b'/' and path[at - 1:at] != b'/'}:
        is_skipped(store, directory, path)
    beside = {**OTHERS, NO_ROW: TRUE}
    is_so('beside another path', dumped(store, b'/', {**beside, path: DOUBLE}, '--skip-doubles'), dumped(store, b'/', {**beside, path: TRUE}))


# What tries a row, by the kind of its table.
ROWS = {'text': lambda store, line, _: row_of_text(store, line), 'show': row_shown, 'bytes': row_shown, 'back': row_shown,
        'named': lambda store, line, _: row_named(store, line)}


def table(store, lines, kind):
    rows, faults = 0, []
    while lines.more():
        line = lines.line()
        if line and not line.startswith('-- '):
            rows += 1
            try:
                ROWS.get(kind, row_of_table)(store, line, kind)
            except FAULTS as why:
                faults.append(f'{lines.number()}: {line[:100]}: {why}')
    return rows, faults


# ---- all of them

def numbered(path):
    """The lines of a file with their numbers, those of another one in the place of a line `with NAME`."""
    for number, line in enumerate(path.read_text(encoding='utf-8').rstrip('\n').split('\n'), 1):
        lines = numbered(HERE / line[5:]) if line.startswith('with ') else [(number, line)]
        yield from ((number, it) for _, it in lines)


def cut(path):
    """The scripts and tables of a file: their heads, and their lines without blank ones and comments at their ends."""
    found = []
    for number, line in numbered(path):
        if line.startswith('== '):
            found.append((line[3:], []))
        elif found:
            found[-1][1].append((number, line))
        elif line and not line.startswith('-- '):
            raise Stop(f'{path.name}:{number}: a line before any script')
    for _, lines in found:
        while lines and (not lines[-1][1] or lines[-1][1].startswith('-- ')):
            lines.pop()
    return found


def tried(folder, program, path, number, head, lines):
    """How many rows a script or a table has, and what is wrong."""
    store = Store(folder / f'{path.name}-{number}', program)
    kind, is_table, _ = head.partition(': ')
    rows, faults = table(store, Lines(lines), kind) if is_table and kind in (*ROWS, *ASKED) else script(store, Lines(lines))
    return rows, [f'{path.name}:{fault}' for fault in faults]


def subjects(names):
    """The files of these names, or all."""
    found = [it for it in sorted(HERE.iterdir()) if it.suffix == '.rows']
    unknown = set(names) - {it.stem for it in found}
    if unknown:
        raise Stop(f'there is no file {sorted(unknown)[0]}.rows')
    return [it for it in found if not names or it.stem in names]


def ran(folder, program, names):
    """Tries all scripts and tables, as many at once as there are processors. Gives how many rows there are, and what is wrong."""
    parts = [(path, number, head, lines) for path in subjects(names) for number, (head, lines) in enumerate(cut(path))]
    with ThreadPoolExecutor(os.cpu_count()) as pool:
        found = list(pool.map(lambda it: tried(folder, program, *it), parts))
    return sum(rows for rows, _ in found), [fault for _, faults in found for fault in faults]
