"""Who watches is told of what other programs change, of three kinds: dconf's command over the library, GSettings by its backend, and dconfdb's own command.
Each change is made to both stores, and the signals are the same. dconf's have a tag of the writer's, ours none."""
import errno
import os
import random
import shutil
import subprocess
import time
from pathlib import Path

import homes
from frame import Stop, needs, program

COUNT = int(os.environ.get('CHANGES', '200'))
SCHEMA = 'org.example.desk'


class Watcher:
    """The driver, which watches, with one of the libraries."""

    def __init__(self, both, whose, driver, **more):
        self.run = subprocess.Popen([driver], env=both.environment(whose) | more, stdin=subprocess.PIPE, stdout=subprocess.PIPE, text=True)

    def says(self, command):
        """What it prints to a command."""
        self.run.stdin.write(f'{command}\nend\n')
        self.run.stdin.flush()
        lines = []
        while (line := self.run.stdout.readline().rstrip('\n')) != 'end':
            if not line and self.run.poll() is not None:
                raise Stop(f'the driver ended amid {command}')
            lines.append(line)
        return [line.removesuffix(' another').removesuffix(' empty') for line in lines[1:]]

    def end(self):
        self.run.stdin.close()
        self.run.wait(10)


def keyfile(rand, number):
    groups = rand.sample(['load/a', 'load/b', 'load/c'], rand.randint(1, 3))
    return ''.join(f'[{group}]\nk={number}\nl={number}\n' for group in groups)


def by_command(rand, number):
    """Words of `dconf` and of `dconfdb`, and what they are given."""
    kind = rand.choice(['write', 'write', 'reset', 'load'])
    if kind == 'load':
        return ['load', '/'], keyfile(rand, number)
    path = rand.choice(['/k', '/w/k', '/w/l', '/w/d/k', '/x/z'])
    return (['reset', path] if kind == 'reset' else ['write', path, str(number)]), ''


def change(both, rand, number, modules, schema):
    """Makes a change to both stores, by the program whose turn it is."""
    kind = ['libdconf', 'dconfdb', 'module'][number % 3]
    words, given = by_command(rand, number)
    for whose in ('theirs', 'ours'):
        more = {}
        ran = ['dconf', *words]
        if kind == 'module':
            ran = ['gsettings', 'set', SCHEMA, 'name', f'at {number}']
            more = {'GSETTINGS_SCHEMA_DIR': str(schema), 'GSETTINGS_BACKEND': 'dconf' if whose == 'theirs' else 'dconfdb', 'LD_LIBRARY_PATH': ''}
            more['GIO_EXTRA_MODULES'] = '' if whose == 'theirs' else str(modules)
        elif kind == 'dconfdb' and whose == 'ours':
            ran = ['sh', '-c', 'cd ~/config/dconfdb && exec "$@"', 'sh', str(program()), *words]
        status, out, err = both.ran(whose, ran, given, **more)
        if status:
            raise Stop(f'{ran}: status {status}, {out}{err}')
    return f'{kind}: {words if kind != "module" else "set"} {given!r}'


def starved(both, watchers):
    """Who has no file descriptor left is told of what is set meanwhile, once there are some."""
    for it in watchers.values():
        it.says('starve')
    for whose in watchers:
        both.ran(whose, ['dconf', 'write', '/w/starved', '1'])
    told = {whose: it.says('settle 1000') for whose, it in watchers.items()}
    for whose, it in watchers.items():
        told[whose] += it.says('feed') + it.says('settle 3000')
    if told['ours'] != told['theirs'] or not told['ours']:
        raise Stop(f'without file descriptors: dconf tells {told["theirs"]}, and ours {told["ours"]}')


def refused_at_first(both, driver):
    """Who watches before the store can be opened is told of all that is in it, once it can, and of what comes then."""
    library, fails = both.folder / 'refuses.so', both.folder / 'fails'
    subprocess.run(['gcc', '-shared', '-fPIC', homes.HERE / 'refuses.c', '-o', library], check=True)
    both.ran('ours', ['dconf', 'write', '/w/early', '1'])
    fails.touch()
    it = Watcher(both, 'ours', driver, LD_PRELOAD=str(library), NAME='user.user', WHILE=str(fails), ERRNO=str(errno.EIO))
    said = it.says('watch sync /w/') + it.says('settle 500')
    fails.unlink()
    said += it.says('settle 3000')
    if not any(line.startswith('  changed ') and 'early' in line for line in said) or it.says('read 0 /w/early') != ['  1']:
        raise Stop(f'a store that could not be opened at first: told {said}')
    both.ran('ours', ['dconf', 'write', '/w/late', '2'])
    if '  changed /w/late []' not in it.says('await 3000'):
        raise Stop('a store that could not be opened at first is not watched')
    it.end()


def without_a_place(both, driver):
    """Who watches before the place is found, as its folder is named by one that is gone, is told of all that is there, once it is. A change says why it
    can't be made till then."""
    store = Path(both.environment('ours').get('DCONFDB_STORE', both.homes['ours'] / 'config' / 'dconfdb'))
    gone = both.folder / 'gone'
    gone.mkdir()
    both.ran('ours', ['dconf', 'write', '/w/early', '1'])
    entered = both.folder / 'entered'
    entered.write_text(f'#!/bin/sh\ncd {gone} && rmdir {gone} && exec {driver}\n', encoding='utf-8')
    entered.chmod(0o755)
    it = Watcher(both, 'ours', entered, DCONFDB_STORE=store.name)
    said = it.says('watch sync /w/') + it.says('settle 300')
    refused = it.says('write sync /w/k 1')
    it.says(f'go {store.parent}')
    said += it.says('settle 3000')
    if not any(line.startswith('  changed ') and 'early' in line for line in said) or it.says('read 0 /w/early') != ['  1']:
        raise Stop(f'a place that is found late: told {said}')
    if not any('the folder of $DCONFDB_STORE' in line for line in refused):
        raise Stop(f'a change without a place: {refused}')
    both.ran('ours', ['dconf', 'write', '/w/late', '3'])
    if '  changed /w/late []' not in it.says('await 3000'):
        raise Stop('a store whose place is found late is not watched')
    it.end()


def on_a_slow_disk(both, driver):
    """Who watches reads without a look at the files, unless something happened to them: no stat is waited for. What another sets is read at once."""
    library, flag = both.folder / 'slow.so', both.folder / 'slow'
    subprocess.run(['gcc', '-shared', '-fPIC', homes.HERE / 'refuses.c', '-o', library], check=True)
    for whose in ('theirs', 'ours'):
        both.ran(whose, ['dconf', 'write', '/w/slow', '1'])
        it = Watcher(both, whose, driver, LD_PRELOAD=str(library), STAT='500', FLAG=str(flag))
        it.says('watch sync /')
        it.says('settle 300')
        flag.touch()
        began = time.monotonic()
        said = [it.says(words) for words in ('read 0 /w/slow', 'writable /w/slow', 'list /w/', 'read 0 /w/slow')]
        took = time.monotonic() - began
        flag.unlink()
        if took > 0.4 or said[0] != ['  1'] or said[3] != ['  1']:
            raise Stop(f'{whose}: four reads of who watches, where each stat takes half a second: {took:.1f} s, {said}')
        for value in ('2', '3'):
            both.ran(whose, ['dconf', 'write', '/w/slow', value])
            if it.says('read 0 /w/slow') != [f'  {value}']:
                raise Stop(f'{whose}: what another set is not read at once')
        it.end()


def with_another_profile(both, driver):
    """A store that is open stays so: what its files hold is seen by who watches, though another profile is in its place by now."""
    profile, site = both.homes['ours'] / 'config' / 'dconfdb' / 'profile', both.folder / 'site'
    named, keys = profile.read_text(encoding='utf-8'), (site / 'd' / 'keys').read_text(encoding='utf-8')
    it = Watcher(both, 'ours', driver)
    it.says('watch sync /')
    it.says('settle 300')
    profile.write_text('user-db:user\n', encoding='utf-8')
    it.says('settle 1500')
    (site / 'd' / 'keys').write_text(keys + '\n[later]\nk=7\n', encoding='utf-8')
    subprocess.run(['dconf', 'compile', site / 'db', site / 'd'], check=True)
    it.says('settle 1500')
    if it.says('read 0 /later/k') != ['  7']:
        raise Stop("beside another profile what changes in the site's database is not seen")
    it.end()
    profile.write_text(named, encoding='utf-8')
    (site / 'd' / 'keys').write_text(keys, encoding='utf-8')
    subprocess.run(['dconf', 'compile', site / 'db', site / 'd'], check=True)


def main(both):
    needs('gsettings', 'libglib2.0-bin')
    rand, driver = random.Random(13), both.compiled('driver')
    modules, schema = homes.module(both.folder), homes.schemas(both.folder)
    theirs, ours = (Watcher(both, whose, driver) for whose in ('theirs', 'ours'))
    for it in (theirs, ours):
        it.says('watch sync /')
        it.says('settle 50')
    told = 0
    for number in range(COUNT):
        done = change(both, rand, number, modules, schema)
        one, other = theirs.says('await 150'), ours.says('await 150')
        if one != other:
            # A bus that has much to do brings a signal late.
            one, other = one + theirs.says('settle 3000'), other + ours.says('settle 3000')
        if one != other:
            raise Stop(f'{done}: dconf tells {one}, and ours {other}')
        told += len(other)
    starved(both, {'theirs': theirs, 'ours': ours})
    for it in (theirs, ours):
        it.end()
    refused_at_first(both, driver)
    without_a_place(both, driver)
    on_a_slow_disk(both, driver)
    with_another_profile(both, driver)
    shutil.rmtree(modules)
    told = f'the same {told} signals as of dconf\'s; without file descriptors; a store that opens late, and a place that is found late'
    return f'{COUNT} changes by dconf\'s command, by dconfdb\'s and by GSettings: {told}; who watches reads without a stat'
