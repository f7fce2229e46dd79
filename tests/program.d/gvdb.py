"""A reader and a writer of databases by the format's own words (docs/FORMATS.md). The reader looks at every item of a table, and asks each rule
of a sound database of each item, in the order of the rules. They share nothing with the program."""
import struct
from pathlib import Path

NONE = 0xffff_ffff


def read_samples():
    """The files by hand: a line has a name and the bytes in hexadecimal digits, a `:` between them."""
    lines = (Path(__file__).resolve().parent / 'samples').read_text(encoding='utf-8').split('\n')
    rows = (line.partition(':') for line in lines if ':' in line and not line.startswith('-- '))
    return {name: bytes.fromhex(digits) for name, _, digits in rows}


SAMPLES = read_samples()


def hashed(name):
    """The hash of a name: of its bytes as signed numbers."""
    found = 5381
    for byte in name:
        found = (found * 33 + (byte - 256 if byte > 127 else byte)) % 2**32
    return found


class Item:
    """What occurs in the 24 bytes of an item."""

    def __init__(self, file, words):
        self.hash, self.parent, start, self.size, kind, self.start, self.end = struct.unpack('<IIIHBxII', words)
        self.key = file[start:start + self.size] if start + self.size <= len(file) else None
        self.kind = chr(kind)

    def is_lock(self):
        return self.kind == 'v' and self.parent == NONE and (self.key or b'').startswith(b'/')

    def is_top(self):
        return (self.kind, self.key) in (('L', b'/'), ('H', b'.locks'))

    def is_part(self):
        """Whether it is a key without a slash, or a directory with one, at its end and not alone."""
        if self.kind == 'v':
            return b'/' not in self.key
        return self.kind == 'L' and self.key[-1:] == b'/' and len(self.key) > 1 and b'/' not in self.key[:-1]


class Table:
    """A table: the bytes of its parts, and its items."""

    def __init__(self, file, shift, bloom, buckets, items):
        self.file, self.shift, self.bloom, self.buckets, self.items = file, shift, bloom, buckets, items

    @classmethod
    def between(cls, file, start, end):
        """The table between two places of a file, where one opens there."""
        if start % 4 or end < start + 8 or end > len(file):
            return None
        first, count = struct.unpack_from('<II', file, start)
        items = start + 8 + 4 * (first % 2**27) + 4 * count
        if items > end or (end - items) % 24:
            return None
        numbers = struct.unpack_from(f'<{(items - start) // 4 - 2}I', file, start + 8)
        bloom, buckets = numbers[:first % 2**27], numbers[first % 2**27:]
        return cls(file, first >> 27, bloom, buckets, [Item(file, file[at:at + 24]) for at in range(items, end, 24)])

    @classmethod
    def opened(cls, file):
        """The root table of a database."""
        if len(file) < 24 or file[:12] != b'GVariant\0\0\0\0':
            return None
        return cls.between(file, *struct.unpack_from('<II', file, 16))

    def name(self, item):
        """Its full name: the keys along its parents, the last parent's first."""
        keys = []
        for _ in self.items:
            keys.append(item.key or b'')
            if item.parent >= len(self.items):
                break
            item = self.items[item.parent]
        return b''.join(reversed(keys))

    def full_name(self, item):
        """The same where it has one, else None."""
        keys = []
        for _ in self.items:
            if item.key is None or (item.parent != NONE and not item.key):
                return None
            keys.append(item.key)
            if item.parent == NONE:
                return b''.join(reversed(keys))
            if item.parent >= len(self.items):
                return None
            item = self.items[item.parent]
        return None

    def content(self, item):
        """The bytes to which it points, where its pointer is valid."""
        aligned = item.start % (8 if item.kind == 'v' else 4) == 0
        return self.file[item.start:item.end] if aligned and item.start <= item.end <= len(self.file) else None

    def value(self, name):
        """The bytes of the value of this name."""
        return next((self.content(item) for item in self.items if item.kind == 'v' and self.name(item) == name), None)

    def found(self, name, kind):
        """What a search for a name and kind finds: the bytes of the least item that fits, or None."""
        hash_ = hashed(name)
        if not self.items or not self.buckets or not self.passes(hash_):
            return None
        first, end = self.span(hash_)
        fits = (item for item in self.items[first:end] if (item.hash, item.kind, self.full_name(item)) == (hash_, kind, name))
        return next(map(self.content, fits), None)

    def children(self, name):
        """The keys of the items in the list of this name, in the order of their bytes."""
        held = struct.iter_unpack('<I', self.found(name, 'L') or b'')
        return sorted(self.items[number].key for number, in held if number < len(self.items))

    def locked(self):
        """The names in the table of locks."""
        content = next((item for item in self.items if self.full_name(item) == b'.locks'), None)
        locks = content and Table.between(self.file, content.start, content.end)
        return {locks.full_name(item) for item in locks.items} if locks else set()

    def span(self, hash_):
        """From which item to which one those of a hash lie."""
        bucket = hash_ % len(self.buckets)
        return self.buckets[bucket], [*self.buckets, len(self.items)][bucket + 1]

    def passes(self, hash_):
        """Whether the bloom words let a hash pass."""
        word = self.bloom[hash_ // 32 % len(self.bloom)] if self.bloom else NONE
        return word >> hash_ % 32 & 1 == 1 and word >> (hash_ >> self.shift) % 32 & 1 == 1

    # ---- the rules, each of an item, its number and its full name

    def has_buckets(self):
        """S1. Where there are items there are buckets; the first is 0, they don't fall, and none is past the items."""
        if not self.buckets:
            return not self.items
        return self.buckets[0] == 0 and list(self.buckets) == sorted(self.buckets) and self.buckets[-1] <= len(self.items)

    def keeps_keys(self, _, item, __):
        """S2. The key lies in the file, and is UTF-8 without NUL; the parent is none or an item."""
        try:
            return item.key is not None and '\0' not in item.key.decode() and (item.parent == NONE or item.parent < len(self.items))
        except UnicodeDecodeError:
            return False

    def keeps_chain(self, _, item, __):
        """S3. The item's chain of parents ends, and its key is not empty."""
        at = item
        for _ in self.items:
            if at.parent == NONE:
                return bool(item.key)
            if at.parent >= len(self.items):
                return False
            at = self.items[at.parent]
        return False

    def keeps_hash(self, _, item, name):
        """S4."""
        return item.hash == hashed(name)

    def keeps_span(self, i, item, _):
        """S5. The item lies in the span of its hash."""
        first, end = self.span(item.hash)
        return first <= i < end

    def keeps_bloom(self, _, item, __):
        """S6."""
        return self.passes(item.hash)

    def keeps_once(self, i, _, name):
        """S7. No lower item has its name."""
        return all(self.name(lower) != name for lower in self.items[:i])

    def keeps_content(self, _, item, __):
        """S8. Its kind is one of three, its pointer valid for it; the size of a list is a multiple of 4."""
        content = self.content(item)
        return item.kind in ('v', 'L', 'H') and content is not None and (item.kind != 'L' or len(content) % 4 == 0)

    def keeps_place(self, _, item, name):
        """S9. Without parent it is `/` or `.locks`, else a key or a directory in a list; the full name has at most 65,535 bytes."""
        placed = item.is_top() if item.parent == NONE else self.items[item.parent].kind == 'L' and item.is_part()
        return placed and len(name) <= 65_535

    def keeps_lists(self, i, item, name):
        """S10. A list holds the items whose parent it is, each once; it is empty only at `/`."""
        if item.kind != 'L':
            return True
        held = [number for number, in struct.iter_unpack('<I', self.content(item))]
        children = [number for number, child in enumerate(self.items) if child.parent == i]
        return sorted(held) == children and (bool(held) or name == b'/')

    def keeps_locks(self, _, item, name):
        """S11. What `.locks` points to is a table of locks alone in which S1 to S8 hold."""
        if name != b'.locks':
            return True
        locks = Table.between(self.file, item.start, item.end)
        return bool(locks) and locks.has_buckets() and all(it.is_lock() for it in locks.items) and not locks.broken(OF_NAMES)

    def broken(self, rules):
        """The first of these rules that an item doesn't keep, and the least such item."""
        for rule, keeps in rules:
            for i, item in enumerate(self.items):
                if not keeps(self, i, item, self.name(item)):
                    return f'{rule} item {i}'
        return None

    def verdict(self):
        if not self.has_buckets():
            return 'unsound: S1'
        broken = self.broken(OF_NAMES) or self.broken(OF_PLACES)
        return f'unsound: {broken}' if broken else 'sound'


OF_NAMES = [('S2', Table.keeps_keys), ('S3', Table.keeps_chain), ('S4', Table.keeps_hash), ('S5', Table.keeps_span), ('S6', Table.keeps_bloom),
            ('S7', Table.keeps_once), ('S8', Table.keeps_content)]
OF_PLACES = [('S9', Table.keeps_place), ('S10', Table.keeps_lists), ('S11', Table.keeps_locks)]


def verdict(file):
    """What a file is: sound, or the first rule that it breaks, or why it is no database."""
    table = Table.opened(file)
    if table:
        return table.verdict()
    if len(file) < 24:
        return 'error: Short'
    if file[:8] != b'GVariant':
        return 'error: BadSignature'
    if file[8:12] != bytes(4):
        return 'error: BadVersion'
    start, end = struct.unpack_from('<II', file, 16)
    return 'error: BadTable' if start % 4 == 0 and start + 8 <= end <= len(file) else 'error: BadRoot'


# ---- what is kept of a damaged database

def is_path(name):
    """Whether bytes are a path."""
    try:
        return name.decode().startswith('/') and b'\0' not in name and b'//' not in name and len(name) <= 65_535
    except UnicodeDecodeError:
        return False


def salvaged(file):
    """The values and locks that are kept of a database: of each key's path the lowest value with a valid pointer, and what the lowest table of locks
    that opens names by values."""
    table, values = Table.opened(file), {}
    for item in table.items:
        name = table.full_name(item)
        if item.kind == 'v' and name and is_path(name) and name[-1:] != b'/' and table.content(item) is not None:
            values.setdefault(name, table.content(item))
    tables = (Table.between(file, it.start, it.end) for it in table.items if it.kind == 'H' and table.full_name(it) == b'.locks')
    locks = next(filter(None, tables), None)
    names = (locks.full_name(item) for item in locks.items if item.kind == 'v') if locks else ()
    return values, {name for name in names if name and is_path(name)}


# ---- written databases

LOCK = b'\0\0s'


def in_buckets(names):
    """Names in the order of their buckets, and in a bucket in that of their bytes."""
    return sorted(names, key=lambda it: (hashed(it) % len(names), it))


def head(names):
    """The head of a table of these names, with its bloom words and buckets."""
    words = [0] * ((len(names) + 15) // 16)
    for name in names:
        words[hashed(name) // 32 % len(words)] |= 1 << hashed(name) % 32 | 1 << (hashed(name) >> 5) % 32
    buckets = [sum(hashed(name) % len(names) < i for name in names) for i in range(len(names))]
    return struct.pack(f'<II{len(words) + len(buckets)}I', len(words) | 5 << 27, len(names), *words, *buckets)


def length(names):
    """How many bytes a table of these names has without its keys."""
    return len(head(names)) + 24 * len(names)


def up(place, size):
    return place + -place % size


def parent_of(name):
    """The directory in which a name is, or None."""
    return None if name in (b'/', b'.locks') else name[:name[:-1].rindex(b'/') + 1]


class Writer:
    """The bytes of a database of values and locks, in the order of docs/FORMATS.md: first where each part is, and then the parts."""

    def __init__(self, values, locks):
        self.values, self.locks, self.made = values, in_buckets(locks), bytearray()
        self.directories = {path[:i + 1] for path in [*values, b'/'] for i, byte in enumerate(path) if byte == ord('/')}
        self.names = in_buckets([*self.directories, *values, *([b'.locks'] if locks else [])])
        self.numbers = {name: i for i, name in enumerate(self.names)}
        self.lists = {name: [] for name in self.names if name in self.directories}
        for i, name in enumerate(self.names):
            if parent_of(name):
                self.lists[parent_of(name)].append(i)
        self.places = {}
        self.end = 24 + length(self.names) + sum(map(len, map(self.key, self.names)))

    def key(self, name):
        return name[len(parent_of(name) or b''):]

    def take(self, name, size, alignment):
        """Gives a part its place."""
        start = up(self.end, alignment)
        self.places[name], self.end = (start, start + size), start + size

    def take_value(self, path, value, first):
        if value not in first:
            self.take(path, len(value), 8)
        self.places[path] = first.setdefault(value, self.places.get(path))

    def take_all(self):
        for name, held in self.lists.items():
            self.take(name, 4 * len(held), 4)
        if self.locks:
            self.take(b'.locks', length(self.locks), 4)
            self.end += sum(map(len, self.locks))
        first = {}
        for name in self.names:
            if name in self.values:
                self.take_value(name, self.values[name], first)
        if self.locks:
            self.take_value('the lock', LOCK, first)

    def put(self, place, part):
        self.made += bytes(max(0, place - len(self.made)))
        self.made[place:place + len(part)] = part

    def put_table(self, place, names, keys, rests):
        """A table and its keys. Of each item there is its parent's number, its kind, and where its content is."""
        start = place + length(names)
        made = head(names)
        for name, key, (parent, kind, span) in zip(names, keys, rests):
            made += struct.pack('<IIIHBxII', hashed(name), parent, start, len(key), ord(kind), *span)
            start += len(key)
        self.put(place, made + b''.join(keys))

    def rest(self, name):
        kind = 'L' if name in self.lists else 'v' if name in self.values else 'H'
        return self.numbers.get(parent_of(name), NONE), kind, self.places[name]

    def file(self):
        self.take_all()
        self.put(0, b'GVariant' + struct.pack('<IIII', 0, 0, 24, 24 + length(self.names)))
        self.put_table(24, self.names, list(map(self.key, self.names)), map(self.rest, self.names))
        for name, held in self.lists.items():
            self.put(self.places[name][0], struct.pack(f'<{len(held)}I', *held))
        if self.locks:
            self.put_table(self.places[b'.locks'][0], self.locks, self.locks, [(NONE, 'v', self.places['the lock'])] * len(self.locks))
            self.put(self.places['the lock'][0], LOCK)
        for path, value in self.values.items():
            self.put(self.places[path][0], value)
        return bytes(self.made)


def written(values, locks):
    """The database of these values, each path with its bytes, and of these locks."""
    return Writer(values, locks).file()
