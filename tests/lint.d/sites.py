"""Folders of sites of the machine's schemas, by a seed, with mistakes at ten roles of files, whose places and kinds are known.

  sites.py SEED COUNT   prints a list of folders with that many mistakes in all: what lies in each by its path, and what is wrong by place and kind

What lies there is {'text': ..}, {'link': ..}, {'pipe': true}, {'folder': true}, {'bytes': HEX} or {'database': KEYFILE}, which is compiled.
"""
import json
import random
import sys

from gi.repository import Gio
import mistakes

# Each role of a file, and what may be wrong with such a one.
ROLES = {'keyfile': ['name', 'group', 'type', 'range', 'again', 'text', 'line', 'double'], 'locks': ['lock', 'directory', 'unset', 'no lock', 'keyfile'],
         'profile': ['line', 'service', 'gone'], 'profiles': ['line', 'service'], 'database': ['name', 'type'], 'hidden': ['bad name'],
         'folder in a folder': ['in sources', 'in locks'], 'beside': ['keyfile', 'text', 'folder'], 'no source': ['database', 'zero', 'big'],
         'no file': ['pipe', 'dangling', 'loop', 'bad name', 'barred', 'lock link']}

# Of some there is more to be wrong.
SHARES = {'keyfile': 5, 'locks': 3}


class Site:
    """A folder of a site: NAME.d with two keyfiles and a file of locks, and whatever is added."""

    def __init__(self, known, rng):
        self.known, self.rng = known, rng
        self.texts = {'site.d/00-first': [], 'site.d/zz-second': [], 'site.d/locks/all': [], 'profile': ['user-db:user', 'system-db:site']}
        self.others, self.mistakes, self.made = {'site.d/.00-first.swp': {'text': 'b0VIM'}, '.git/config': {'text': '[core]\n'}}, [], {}
        self.free = rng.sample(known.keys, len(known.keys))
        self.count = 0

    def row(self, key, text=None, name=None):
        return [f'[{key.path[1:-1]}]', key.row(text, name)]

    def key(self, is_double=False):
        """A key that nothing sets yet, whose value has a double, or none."""
        while True:
            key = self.free.pop()
            has_double = 'd' in key.type and not key.row(None, None).endswith('[]')  # an empty list has none
            if has_double == is_double and ('d' in key.type) == is_double and 'v' not in key.type:
                return key

    def add(self, name, lines, kind=None):
        """Lines, the last of which is a mistake of that kind."""
        self.texts.setdefault(name, [])
        self.texts[name] += lines
        if kind:
            self.mistakes.append([name, len(self.texts[name]), kind])

    def put(self, name, what, kind):
        self.others[name] = what
        if kind:
            self.mistakes.append([name, 0, kind])

    def sources(self):
        return self.rng.choice(['site.d/00-first', 'site.d/zz-second'])

    def right(self):
        """What is right: a row, and perhaps a lock of it."""
        key = self.key()
        self.add(self.sources(), self.row(key))
        self.add('site.d/locks/all', [self.rng.choice([key.path, key.path + key.name, '# a comment', ''])])

    def other(self, start):
        self.count += 1
        return f'{start}{self.count}'

    def wrong(self, role, what):
        """A mistake. False: this key can't have it, or the folder has it already."""
        return getattr(self, 'in_' + role.replace(' ', '_'))(what) is not False

    def in_keyfile(self, what):
        rng, known, name = self.rng, self.known, self.sources()
        key = self.key(what == 'double')
        if what == 'name':
            return self.add(name, self.row(key, name=mistakes.other_name(known, rng, key)), 'no-key')
        if what == 'group':
            return self.add(name, [f'[{mistakes.other_group(known, rng, key)[1:-1]}]', key.row()], 'no-key')
        if what == 'type':
            texts = {'b': 'true', 'i': '5', 's': "'x'", 'as': "['x']", 'u': 'uint32 5'}
            return self.add(name, self.row(key, rng.choice([text for type_, text in texts.items() if type_ != key.type])), 'type')
        if what == 'range':
            text = mistakes.out_of_range(rng, key)
            return False if text is None else self.add(name, self.row(key, text), 'range')
        if what == 'again':
            self.add('site.d/00-first', self.row(key))
            return self.add(name, self.row(key), 'set-twice')
        if what == 'text':
            return self.add(name, self.row(key, rng.choice(['oops', "'x", '[1', '(1,', '1 # one', '@q 70000'])), 'no-value')
        if what == 'double':
            return self.add(name, self.row(key), 'double')
        return self.add(name, self.row(key) + [rng.choice(['/org/x', 'hello', '= 1', 'a b c', 'k/k=1'])], 'line')

    def in_locks(self, what):
        rng, known, key, name = self.rng, self.known, self.key(), 'site.d/locks/all'
        if what == 'lock':
            return self.add(name, [key.path + mistakes.other_name(known, rng, key)], 'no-locked-key')
        if what == 'directory':
            return False if known.loose else self.add(name, [mistakes.other_group(known, rng, key)], 'no-locked-directory')
        if what == 'unset':
            return self.add(name, [key.path + key.name], 'not-set')
        if what == 'no lock':
            return self.add(name, [(key.path + key.name)[1:]], 'line')
        return self.add(name, [f'[{key.path[1:-1]}]'], 'line')

    def in_profile(self, what):
        if 'profile' in [it[0] for it in self.mistakes]:
            return False
        if what == 'gone':
            return self.add('profile', ['system-db:gone'], 'no-database')
        return self.add('profile', ['system'] if what == 'line' else ['service-db:keyfile/user'], 'profile')

    def in_profiles(self, what):
        return self.add(self.other('profiles/kiosk'), ['user-db:kiosk', 'oops' if what == 'line' else 'service-db:x'], 'profile')

    def in_database(self, what):
        key = self.key()
        row = self.row(key, name=mistakes.other_name(self.known, self.rng, key)) if what == 'name' else self.row(key, '(true, byte 1)')
        return self.put(self.other('me') + '.user', {'database': '\n'.join(row) + '\n'}, 'no-key' if what == 'name' else 'type')

    def in_hidden(self, what):
        return self.put(f'.{self.other("old")}.d/\udcff{what}', {'text': 'x'}, 'name')

    def in_folder_in_a_folder(self, what):
        folder = self.other('site.d/old' if what == 'in sources' else 'site.d/locks/old')
        self.others[f'{folder}/00'] = {'text': 'oops\n'}
        self.mistakes.append([folder, 0, 'unread'])
        return True

    def in_beside(self, what):
        if what == 'folder':
            return self.put(self.other('old'), {'folder': True}, 'unread')
        return self.put(self.other('site.keys'), {'text': '[a]\nk=1\n' if what == 'keyfile' else 'read me\n'}, 'unread')

    def in_no_source(self, what):
        name = self.other(self.rng.choice(['site.d/50', 'site.d/locks/50']))
        if what == 'database':
            return self.put(name, {'bytes': b'GVariant\0\0\0\0'.hex()}, 'no-source')
        if what == 'zero':
            return self.put(name, {'bytes': b'x\0\n'.hex()}, 'no-source')
        return self.put(name, {'size': 16777217}, 'file')

    def in_no_file(self, what):
        name = self.other(self.rng.choice(['site.d/60', 'site.d/locks/60']))
        if what == 'pipe':
            return self.put(name, {'pipe': True}, 'unread')
        if what == 'dangling':
            return self.put(name, {'link': 'nowhere'}, 'file')
        if what == 'loop':
            return self.put(name, {'link': name.rsplit('/', 1)[1]}, 'file')
        if what == 'bad name':
            return self.put(name + '\udcff', {'text': ''}, 'name')
        if what == 'barred':
            return False if 'site.db' in self.others else self.put('site.db', {'folder': True}, 'in-the-way')
        return False if '.lock' in self.others else self.put('.lock', {'link': 'profile'}, 'in-the-way')

    def lies(self):
        return {name: {'text': '\n'.join(lines) + '\n'} for name, lines in self.texts.items()} | self.others


def sites(seed, count):
    rng, known = random.Random(seed), mistakes.Known(Gio.SettingsSchemaSource.get_default())
    made, roles = 0, dict.fromkeys(ROLES, 0)
    while made < count:
        site = Site(known, rng)
        for _ in range(min(rng.randrange(1, 8), count - made)):
            site.right()
            role = min(roles, key=lambda it: (roles[it] / SHARES.get(it, 1), rng.random()))
            roles[role] += site.wrong(role, rng.choice(ROLES[role]))
        made += len(site.mistakes)
        yield site
    assert count < 100 or all(roles.values()), roles


if __name__ == '__main__':
    print(json.dumps([[it.lies(), it.mistakes] for it in sites(sys.argv[1], int(sys.argv[2]))]))
