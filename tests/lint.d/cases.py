"""Small files, and folders, and all that `dconfdb lint` says of them."""

DESK = '[org/example/desk]\n'
NO_KEY = 'no schema has the key '
NEAR = '; the nearest is /org/example/desk/'


def desk(lines, *found):
    """Lines of a keyfile below its group, which is line 1, and what is said of each."""
    return {'k': DESK + lines}, [(f'k:{line}', text) for line, text in found]


# Files by name, and what is said, by place. The names are in the order of a command line, and in another one where that matters.
CASES = {
    'all is right': desk("name='x'\non=true\nscale=1.5\nsize='large'\nsides=['left', 'right']\nvolume=10\norder=@as []\n"),
    'two schemas have a path': desk('wide=true\non=false\n'),
    'a key of two types': desk('volume=uint32 11\n'),
    'neither of two types': desk("volume='x'\n", (2, '/org/example/desk/volume: the value is of type s, and the key of type i')),
    'another name of a choice': desk("colour='gray'\n"),
    'comments and blanks': ({'k': '# x\n\n  # y\n \t[org/example/desk]\r\n \ton\t=\t true \t\r\n'}, []),
    'comments alone': ({'k': '# x\n\n'}, []),
    'nothing': ({'k': ''}, []),
    'no line feed at the end': desk('onn=true', (2, f'{NO_KEY}/org/example/desk/onn{NEAR}on')),
    'a name with a slip': desk('naem=1\n', (2, f'{NO_KEY}/org/example/desk/naem{NEAR}name')),
    'a name that nothing is near to': desk('quite-otherwise=1\n', (2, f'{NO_KEY}/org/example/desk/quite-otherwise')),
    'a key of another group': ({'k': "[org/example]\nname='x'\n"}, [('k:2', f'{NO_KEY}/org/example/name{NEAR}name')]),
    'a group with a slip': ({'k': '[org/exampel/desk]\non=true\n'}, [('k:2', f'{NO_KEY}/org/exampel/desk/on{NEAR}on')]),
    'two slips': ({'k': '[org/exampel/desk]\nvolum=1\n'}, [('k:2', f'{NO_KEY}/org/exampel/desk/volum{NEAR}volume')]),
    'another type': desk("on='true'\nname=uint32 5\nscale=1\norder='x'\n", (2, '/org/example/desk/on: the value is of type s, and the key of type b'),
                         (3, '/org/example/desk/name: the value is of type u, and the key of type s'),
                         (4, '/org/example/desk/scale: the value is of type i, and the key of type d'),
                         (5, '/org/example/desk/order: the value is of type s, and the key of type as')),
    'an enumeration': desk("size='middle'\n", (2, "/org/example/desk/size: 'middle' is not one of ['small', 'large']")),
    'a choice': desk("colour='blue'\n", (2, "/org/example/desk/colour: 'blue' is not one of ['grey', 'red']")),
    'flags': desk("sides=['left', 'top']\n", (2, "/org/example/desk/sides: ['left', 'top'] is not made of the flags ['left', 'right']")),
    'a range': desk('volume=11\nvolume=-1\n', (2, '/org/example/desk/volume: 11 is not in the range (0, 10)'),
                    (3, '/org/example/desk/volume: -1 is not in the range (0, 10)'), (3, '/org/example/desk/volume is set already, at k:2')),
    'a text that is no value': desk('name=x y\norder=[]\n', (2, '/org/example/desk/name: the text is no value: BadToken at 0..1'),
                                    (3, '/org/example/desk/order: the text is no value: Ambiguous')),
    'a text with a double': desk('scale=-1e3\nname=1.5\n', (3, '/org/example/desk/name: the value is of type d, and the key of type s')),
    'a value of 126 levels, and of 127': ({'k': '[org/example/lamps/1]\nwatts=' + '(' * 126 + '1' + ',)' * 126 + '\nlabel=' + '<' * 127 + '1' + '>' * 127 + '\n'}, [
        ('k:3', '/org/example/lamps/1/label: the text is no value: the value is nested too deep or too long')]),
    'what only a relocatable schema has': ({'k': "[org/example/lamps/1]\nlabel='x'\nwatts='x'\n"}, []),
    'a relocatable one has no such key': ({'k': '[org/example/lamps/1]\nwats=1\n'}, [('k:2', f'{NO_KEY}/org/example/lamps/1/wats')]),
    'a slip, though a relocatable one has the key': (
        {'k': "[org/example/desk/drawer/left]\nlabel='x'\n"},
        [('k:2', f'{NO_KEY}/org/example/desk/drawer/left/label{NEAR}drawers/left/label')]),
    'a path of a schema, where another is relocatable': desk('watts=uint32 1\n', (2, f'{NO_KEY}/org/example/desk/watts')),
    'twice in a file': desk('on=true\non=false\n', (3, '/org/example/desk/on is set already, at k:2')),
    'in two files, in the order of their names': ({'b': DESK + 'on=true\n', 'a': DESK + '\non=true\n'},
                                                  [('b:2', '/org/example/desk/on is set already, at a:3')]),
    'in two folders': ({'b/k': DESK + 'on=true\n', 'a/k': DESK + 'on=true\n', 'k': DESK + 'on=true\n'}, []),
    'in two files, on either side of the folder of locks': (
        {'site.d/00': DESK + 'on=true\n', 'site.d/locks/l': '/org/example/desk/on\n', 'site.d/zz': DESK + 'on=false\n'},
        [('site.d/zz:2', '/org/example/desk/on is set already, at site.d/00:2')]),
    'one file by two names': ({'site.d/k': DESK + 'on=true\n', './site.d/k': DESK + 'on=true\n'}, []),
    'what update leaves out': (
        {'site.d/00': DESK + 'on=true\n', 'site.d/.00.swp': b'b0VIM\0', 'site.d/.git/config': '[core]\n', 'site.d/.old': DESK + 'onn=1\n', 'site.d/locks/.l': 'x\n'}, []),
    'folders that update does not read': (
        {'site.d/00': DESK + 'on=true\n', 'site.d/locks/old/l': '/org/example/desk/onn\n', 'site.d/old/00': DESK + 'onn=1\n'},
        [(f'site.d/{it}:0', "'update' does not read it: it is in a folder inside site.d") for it in ('locks/old/l', 'old/00')]),
    'folders of other names, and files alone': (
        {'site.dd/old/00': DESK + 'onn=1\n', 'work.d/site/00': DESK + 'onn=1\n'}, [(f'{it}/00:2', f'{NO_KEY}/org/example/desk/onn{NEAR}on') for it in ('site.dd/old', 'work.d/site')]),
    'sources are what their folder makes of them': (
        {'site.d/00': '/org/example/desk/on\n', 'site.d/10': 'hello\n', 'site.d/20': b'GVariant\0\0\0', 'site.d/30': b'x\0\n', 'site.d/locks/k': DESK + 'on=true\n',
         'site.d/locks/l': 'hello\n'},
        [('site.d/00:1', "BadLine: the line is no 'key=value'"), ('site.d/10:1', "BadLine: the line is no 'key=value'"), ('site.d/20:0', 'it is a database, and no source of one'),
         ('site.d/30:0', 'it is neither a keyfile, nor a file of locks, nor a profile, nor a database'), ('site.d/locks/k:1', "the line locks nothing: it doesn't start with '/'"),
         ('site.d/locks/k:2', "the line locks nothing: it doesn't start with '/'"), ('site.d/locks/l:1', "the line locks nothing: it doesn't start with '/'")]),
    'lines that are none': ({'k': 'on=true\n[a//b]\nx=1\n[org/example/desk]\non\n=1\na/b=1\n[org/example/desk\n'}, [
        ('k:1', 'NoGroup: the key comes before the first group'), ('k:2', 'BadGroup: the line names no group; its keys are left out here'),
        ('k:5', "BadLine: the line is no 'key=value'"), ('k:6', 'BadKeyName: the key is empty, or has a slash, a bracket or a control character'),
        ('k:7', 'BadKeyName: the key is empty, or has a slash, a bracket or a control character'),
        ('k:8', 'BadGroup: the line names no group; its keys are left out here')]),
    'what else is wrong below a line that names no group': ({'k': '[org//x]\nk=1\nk\n=1\n[a]\nb/=1\n' + DESK + 'on=true\n'}, [
        ('k:1', 'BadGroup: the line names no group; its keys are left out here'), ('k:3', "BadLine: the line is no 'key=value'"),
        ('k:4', 'BadKeyName: the key is empty, or has a slash, a bracket or a control character'),
        ('k:6', 'BadKeyName: the key is empty, or has a slash, a bracket or a control character')]),
    'bytes that are no text': ({'k': b'# \xff\n' + DESK.encode() + b"name='\xe9'\non=true\n"},
                               [('k:1', 'NotUtf8: the line is not UTF-8'), ('k:3', 'NotUtf8: the line is not UTF-8')]),
    'a zero byte in a line': ({'k': DESK.encode() + b"name='\0'\n"}, [('k:2', "BadLine: the line is no 'key=value'")]),
    'a path that is too long': ({'k': '[' + 'a' * 65530 + ']\nbcdef=1\n'}, [('k:2', 'TooLong: the path of the key has more than 65,535 bytes')]),
    'locks': ({'l': '# x\n/org/example/desk/on\n\n/org/example/\n/\n/org/example/lamps/1/watts\n/org/example/lamps/\n'}, []),
    'locks of nothing': ({'l': '/org/example/desk/onn\n/org/example/desc/\n/org/example/desk/on \norg/example/desk/on\n/a//b\n'}, [
        ('l:1', f'no schema has the locked key /org/example/desk/onn{NEAR}on'),
        ('l:2', f'no schema has a key below the locked directory /org/example/desc/{NEAR}'),
        ('l:3', f'no schema has the locked key /org/example/desk/on {NEAR}on'),
        ('l:4', "the line locks nothing: it doesn't start with '/'"), ('l:5', "LockNotKey: the line starts with '/' and is not a path")]),
    'a profile that names no database in a line': (
        {'profile': '# of all\nuser-db:user\nsystem\nservice-db:keyfile/user\n'}, [('profile:3', 'a line of the profile names no database')]),
    'a profile that names a database of a service': (
        {'profile': 'user-db:user\nservice-db:keyfile/user\n'}, [('profile:2', 'a line of the profile names a service-db')]),
    'a profile that is not of this folder': ({'profiles/kiosk': 'user-db:kiosk\nsystem-db:gone\n'}, []),
    'neither': ({'x': 'hello\n'}, [('x:0', 'it is neither a keyfile, nor a file of locks, nor a profile, nor a database')]),
    'a control character in a name of a file': ({'k\n1': DESK + 'onn=1\n'}, [('k\\0121:2', f'{NO_KEY}/org/example/desk/onn{NEAR}on')]),
}

ON = '/org/example/desk/on'
UNREAD = "nobody reads it: 'update' reads what is in folders NAME.d"
NO_LOCK = "the line locks nothing: it doesn't start with '/'"

# What lies in the folder of a site, and what is said of it; each path begins with it.
FOLDERS = {
    'nothing': ({}, []),
    'all is right': ({'site.d/00': DESK + "name='x'\non=true\n", 'site.d/locks/l': f'# x\n{ON}\n/org/example/desk/\n', 'profile': 'user-db:user\nsystem-db:site\n',
                      'profiles/kiosk': 'user-db:kiosk\nsystem-db:gone\n', 'other': 'user-db:other\n', '.lock': '', 'store': 'dconf\n', '.git/config': 'x\n', 'site.d/.00.swp': 'b0VIM\n'}, []),
    'twice, in the order of the names': ({'site.d/a': DESK + 'on=true\n', 'site.d/b': '\n' + DESK + 'on=false\n', 'lab.d/c': DESK + 'on=true\n'},
                                         [('site.d/b:3', f'{ON} is set already, at ./site.d/a:2')]),
    'a double': ({'site.d/00': DESK + 'scale=1.5\n'}, [('site.d/00:2', "/org/example/desk/scale: DoubleText at 0..3: 'update' refuses a double")]),
    'a double among others, of another type': ({'site.d/00': DESK + "name=(1.5, 'x')\n"}, [
        ('site.d/00:2', "/org/example/desk/name: DoubleText at 1..4: 'update' refuses a double"),
        ('site.d/00:2', '/org/example/desk/name: the value is of type (ds), and the key of type s')]),
    'locked and not set': ({'site.d/00': DESK + "name='x'\n", 'site.d/locks/l': f'{ON}\n/org/example/desk/name\n/org/example/desk/\n'},
                           [('site.d/locks/l:1', f'{ON} is locked, and nothing here sets it')]),
    'locked by one database and set by another': ({'a.d/locks/l': ON + '\n', 'b.d/00': DESK + 'on=true\n'}, []),
    'locked, and nobody has the key': ({'a.d/locks/l': ON + 'n\n'}, [('a.d/locks/l:1', f'no schema has the locked key {ON}n{NEAR}on')]),
    'a file of locks among keyfiles, and a keyfile among locks': ({'a.d/00': ON + '\n', 'a.d/locks/l': DESK + 'on=true\n'}, [
        ('a.d/00:1', "BadLine: the line is no 'key=value'"), ('a.d/locks/l:1', NO_LOCK), ('a.d/locks/l:2', NO_LOCK)]),
    'a file called locks': ({'a.d/locks': DESK + 'on=true\n'}, []),
    'folders in folders': ({'a.d/b.d/00': 'oops\n', 'a.d/locks/b/00': 'oops\n', 'a.d/old/00': 'oops\n', 'old/00': 'oops\n', 'old/a.d/00': 'oops\n', 'profiles/a/b': 'oops\n'}, [
        ('a.d/b.d:0', "'update' does not read it: it is a folder inside ./a.d"), ('a.d/locks/b:0', "'update' does not read it: it is a folder inside ./a.d/locks"),
        ('a.d/old:0', "'update' does not read it: it is a folder inside ./a.d"), ('old:0', UNREAD), ('profiles/a:0', "'update' does not read it: it is a folder inside ./profiles")]),
    'beside them': ({'README': 'hello\n', 'site.keys': DESK + 'onn=true\n', 'site.locks': ON + '\n', 'site.d': DESK}, [(f'{it}:0', UNREAD) for it in ('README', 'site.d', 'site.keys', 'site.locks')]),
    'a profile whose database is made': ({'profile': 'user-db:user\nsystem-db:site\nsystem-db:gone\noops\n', 'site.d/00': ''}, [
        ('profile:3', 'it names system-db:gone, and there is no {made}/gone.db'), ('profile:4', 'a line of the profile names no database')]),
    'wrong profiles': ({'profile': {'folder': True}, 'profiles/a': 'oops\n', 'profiles/b': {'link': 'b'}}, [
        ('profile:0', 'Device: Is a directory'), ('profiles/a:1', 'a line of the profile names no database'), ('profiles/b:0', 'Device: Too many levels of symbolic links')]),
    'no files': ({'a.d/pipe': {'pipe': True}, 'a.d/null': {'link': '/dev/null'}, 'a.d/gone': {'link': 'x'}, 'a.d/loop': {'link': 'loop'}, 'a.d/locks/up': {'link': '..'},
                  'b.d': {'link': 'b.d'}, 'c': {'pipe': True}, 'd': {'link': 'x'}}, [
        ('a.d/gone:0', 'NoFile: there is no such file'), ('a.d/locks/up:0', "'update' does not read it: it is a folder inside ./a.d/locks"),
        ('a.d/loop:0', 'Device: Too many levels of symbolic links'), ('a.d/null:0', "'update' does not read it: it is no regular file"),
        ('a.d/pipe:0', "'update' does not read it: it is no regular file"), ('b.d:0', UNREAD), ('c:0', UNREAD), ('d:0', UNREAD)]),
    'links to files and folders': ({'files/00': DESK + 'onn=1\n', 'a.d': {'link': 'files'}, 'b.d/00': {'link': '../files/00'}, 'b.d/locks': {'link': '../c.d'}, 'c.d/l': '# x\n'}, [
        (f'{it}/00:2', f'{NO_KEY}{ON}n{NEAR}on') for it in ('a.d', 'b.d')] + [('files:0', UNREAD)]),
    'databases': ({'site.d/00': DESK + 'on=true\n', 'site.db': {'database': DESK + 'onn=true\n'}, 'site': {'database': DESK + 'onn=true\n'}, 'me.user': {'database': DESK + 'onn=true\n'},
                   'lab.db': {'database': DESK + 'name=5\n'}, 'site.db.new': 'x'}, [
        ('lab.db:0', '/org/example/desk/name: the value is of type i, and the key of type s'), ('me.user:0', f'{NO_KEY}{ON}n{NEAR}on')]),
    'damaged databases': ({'me.user': '', 'lab.db': 'GVa'}, [(f'{it}:0', "the file is shorter than a database's header") for it in ('lab.db', 'me.user')]),
    'a hidden database': ({'.a.d/00': 'oops\n', '.a.d/locks/l': '/a//b\n', '.a.d/old/00': 'oops\n', '.d/00': 'oops\n'}, []),
    'a store of its own': ({'kiosk/profile': 'user-db:kiosk\n', 'kiosk/site.d/00': 'oops\n', 'site/00': 'oops\n'}, [('site:0', UNREAD)]),
    'in the way': ({'site.d/00': '', 'site.db': {'folder': True}, 'site.db.new': {'folder': True}, '.lock': {'link': 'x'}},
                   [(f'{it}:0', "it is in the way of a file that 'update' writes") for it in ('.lock', 'site.db')] + [('site.db.new:0', UNREAD)]),
    'a loop in the way': ({'site.d/00': '', 'site.db': {'link': 'site.db'}, 'lab.d/00': '', 'lab.db': {'link': 'nowhere'}, 'a.d/00': '', 'a.db': {'link': '..'}}, [
        ('a.db:0', UNREAD), ('lab.db:0', UNREAD), ('site.db:0', "it is in the way of a file that 'update' writes")]),
    'not in the way': ({'lab.d/00': '', 'site.db': {'folder': True}, '.new': {'folder': True}}, [('site.db:0', UNREAD)]),
}
