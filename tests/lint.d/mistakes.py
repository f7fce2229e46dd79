"""Keyfiles and lock files of the machine's schemas, by a seed, with mistakes whose places are known.

  mistakes.py SEED COUNT   prints a list of folders with that many mistakes in all: texts by names, and what is wrong by places
"""
import json
import random
import sys

from gi.repository import Gio, GLib

LETTERS = 'abcdefghijklmnopqrstuvwxyz'


class Key:
    """A key of a schema that has a path."""

    def __init__(self, schema, name):
        self.path, self.name, self.key = schema.get_path(), name, schema.get_key(name)
        self.type = self.key.get_value_type().dup_string()
        self.kind, self.range = self.key.get_range().unpack()
        self.right = self.key.get_default_value().print_(True)

    def row(self, text=None, name=None):
        return f'{name or self.name}={self.right if text is None else text}'


class Known:
    """What the installed schemas have."""

    def __init__(self, source):
        fixed, relocatable = source.list_schemas(True)
        schemas = [source.lookup(it, True) for it in fixed]
        self.keys = [Key(schema, name) for schema in schemas for name in schema.list_keys()]
        # A key of two schemas that share a path may have two types.
        paths = [key.path + key.name for key in self.keys]
        self.keys = [key for key, path in zip(self.keys, paths) if paths.count(path) == 1]
        self.paths = {key.path for key in self.keys}
        self.all = {key.path + key.name for key in self.keys}
        self.loose = {name for it in relocatable for name in source.lookup(it, True).list_keys()}


def slip(rng, text):
    """One letter more, less or otherwise, or two swapped."""
    at = rng.randrange(len(text))
    return rng.choice([text[:at] + rng.choice(LETTERS) + text[at:], text[:at] + text[at + 1:], text[:at] + rng.choice(LETTERS) + text[at + 1:],
                       text[:at] + text[at + 1:at + 2] + text[at:at + 1] + text[at + 2:]])


def other_name(known, rng, key):
    while True:
        name = slip(rng, key.name)
        if name and key.path + name not in known.all and '/' not in name:
            return name


def other_group(known, rng, key):
    """A path that is none. Of a key that a relocatable schema has, too, a slip is found all the same."""
    while True:
        path = '/' + slip(rng, key.path[1:-1]) + '/'
        if '//' not in path and path not in known.paths and not any(it.startswith(path) for it in known.paths) and path != '/':
            return path


def other_type(rng, key):
    texts = {'b': 'true', 'i': '5', 's': "'x'", 'as': "['x']", 'u': 'uint32 5', 'd': '1.5', 'x': 'int64 5', '(ii)': '(1, 2)', 'a{sv}': "{'a': <1>}"}
    return rng.choice([text for type_, text in texts.items() if type_ != key.type])


def out_of_range(rng, key):
    """A text of the right type that the key doesn't take; or None."""
    if key.kind == 'enum' and key.type == 's':
        return GLib.Variant('s', rng.choice(key.range) + 'x').print_(True)
    if key.kind == 'enum' and key.type == 'as':
        return GLib.Variant('as', [rng.choice(key.range) + 'x']).print_(True)
    if key.kind == 'flags':
        return GLib.Variant('as', [*key.range[:1], 'no-flag']).print_(True)
    if key.kind == 'range' and key.type in ('i', 'u', 'd', 'x', 't', 'n', 'q', 'y'):
        least, most = key.range
        limits = {'i': (-2**31, 2**31 - 1), 'u': (0, 2**32 - 1), 'd': (-1e300, 1e300), 'x': (-2**63, 2**63 - 1), 't': (0, 2**64 - 1), 'n': (-2**15, 2**15 - 1), 'q': (0, 2**16 - 1), 'y': (0, 255)}[key.type]
        outside = [it for it, is_out in [(least - 1, least - 1 >= limits[0]), (most + 1, most + 1 <= limits[1])] if is_out]
        return GLib.Variant(key.type, rng.choice(outside)).print_(True) if outside else None
    return None


class Folder:
    """Two keyfiles and a file of locks with right lines, and some mistakes."""

    def __init__(self, known, rng):
        self.known, self.rng = known, rng
        self.texts = {'00-first': [], 'zz-second': [], 'locks/all': []}
        self.mistakes = {}
        self.free = rng.sample(known.keys, 60)

    def add(self, name, lines, mistake=None):
        """Lines, the last of which is the mistake."""
        self.texts[name] += lines
        if mistake:
            self.mistakes[f'{name}:{len(self.texts[name])}'] = mistake

    def right(self):
        """Some lines that are right."""
        for _ in range(self.rng.randrange(1, 4)):
            key = self.free.pop()
            self.add(self.rng.choice(['00-first', 'zz-second']), [f'[{key.path[1:-1]}]', key.row()])
            self.add('locks/all', [self.rng.choice([key.path, key.path + key.name, '# a comment', ''])])

    def wrong(self, kind):
        """A mistake of the kind. False: this key can't have it."""
        known, rng, key = self.known, self.rng, self.free.pop()
        name, group = rng.choice(['00-first', 'zz-second']), f'[{key.path[1:-1]}]'
        if kind == 'name':
            self.add(name, [group, key.row(name=other_name(known, rng, key))], 'no schema has the key')
        elif kind == 'group':
            self.add(name, [f'[{other_group(known, rng, key)[1:-1]}]', key.row()], 'no schema has the key')
        elif kind == 'type':
            self.add(name, [group, key.row(other_type(rng, key))], 'the value is of type')
        elif kind == 'range':
            text = out_of_range(rng, key)
            if text is None:
                return False
            self.add(name, [group, key.row(text)], ' is not ')
        elif kind == 'again':
            self.add('00-first', [group, key.row()])
            self.add(name, [group, key.row()], 'is set already')
        elif kind == 'lock':
            self.add('locks/all', [key.path + other_name(known, rng, key)], 'no schema has the locked key')
        else:
            self.add('locks/all', [other_group(known, rng, key)], 'no schema has a key below the locked directory')
        return True


KINDS = ['name', 'group', 'type', 'range', 'again', 'lock', 'directory']


def folders(seed, count):
    """Folders with that many mistakes in all."""
    rng, known = random.Random(seed), Known(Gio.SettingsSchemaSource.get_default())
    made, kinds = 0, dict.fromkeys(KINDS, 0)
    while made < count:
        folder = Folder(known, rng)
        for _ in range(min(rng.randrange(1, 8), count - made)):
            folder.right()
            kind = rng.choice(KINDS)
            if folder.wrong(kind):
                kinds[kind] += 1
        made += len(folder.mistakes)
        yield folder
    assert made < 100 or all(kinds.values()), kinds


if __name__ == '__main__':
    print(json.dumps([[{name: '\n'.join(lines) + '\n' for name, lines in it.texts.items()}, it.mistakes] for it in folders(sys.argv[1], int(sys.argv[2]))]))
