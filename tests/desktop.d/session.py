"""What the parts of tests/desktop share. A part runs as the user desk on a bus of its own; what it sees is rows, each with what is wanted."""
import os
import signal
import subprocess
import sys
import time
from pathlib import Path

HOME = Path(os.environ['HOME'])
# What a program takes to start, and to be told, on a busy machine.
START, SOON = 60, 60


def stop(text):
    print(text, flush=True)
    sys.exit(1)


def row(name, seen, wanted):
    """Shows a row, and stops where it isn't what is wanted, with dconf or without."""
    if seen != wanted:
        stop(f'{name}: {seen!r}, and not {wanted!r}')
    print(f'row {name}: {seen!r}', flush=True)


def run(*words, status=0, **more):
    """What a program prints on stdout, which ends so."""
    ran = subprocess.run([str(it) for it in words], stdin=subprocess.DEVNULL, capture_output=True, text=True, timeout=60, check=False, **more)
    if ran.returncode != status:
        stop(f'{" ".join(map(str, words))}: status {ran.returncode}\n{ran.stdout}{ran.stderr}')
    return ran.stdout.rstrip('\n')


def until(seen, wanted, seconds=SOON):
    """What is seen, at the latest after so many seconds."""
    end = time.monotonic() + seconds
    while (now := seen()) != wanted and time.monotonic() < end:
        time.sleep(0.1)
    return now


def put(schema, key, text):
    """Another process sets a key."""
    run('gsettings', 'set', schema, key, text)


def get(schema, key):
    return run('gsettings', 'get', schema, key)


class Program:
    """One that runs, and of which it is seen what it is told."""

    def __init__(self, *words, pass_fds=(), **variables):
        self.name = Path(words[0]).name
        self.told_of, self.log = HOME / f'{self.name}.told', open(HOME / f'{self.name}.log', 'ab')
        self.told_of.write_text('', encoding='utf-8')
        own = {'LD_PRELOAD': '/given/told.so', 'TOLD': str(self.told_of)}
        self.process = subprocess.Popen(words, stdin=subprocess.DEVNULL, stdout=self.log, stderr=self.log, pass_fds=pass_fds,
                                        env=os.environ | own | variables, start_new_session=True)

    def is_told(self, schema, key, text):
        """Whether it is told when another process sets this key."""
        self.told_of.write_text('', encoding='utf-8')
        put(schema, key, text)
        return until(lambda: f'{schema} {key}\n' in self.told_of.read_text(encoding='utf-8'), True)

    def ends(self):
        """It and what it started."""
        self.process.terminate()
        try:
            self.process.wait(10)
        except subprocess.TimeoutExpired:
            pass
        try:
            os.killpg(self.process.pid, signal.SIGKILL)
        except ProcessLookupError:
            pass
        self.process.wait()
        self.log.close()

    def said(self):
        return (HOME / f'{self.name}.log').read_text(encoding='utf-8', errors='replace')


def warnings():
    """What the logs of all programs say of a backend."""
    words = ['dconf-WARNING', 'dconfdb-WARNING', 'GLib-GIO-WARNING', 'dconf-CRITICAL', 'dconfdb-CRITICAL', 'Failed to load module']
    lines = [line for log in sorted(HOME.glob('*.log')) for line in log.read_text(encoding='utf-8', errors='replace').splitlines()]
    return [line for line in lines if any(it in line for it in words)]


def screen():
    """A screen that nobody sees, of a number that Xvfb chooses; it says which once it is there."""
    said, says = os.pipe()
    words = ['Xvfb', '-displayfd', str(says), '-screen', '0', '1280x1024x24', '-nolisten', 'tcp', '-ac']
    program = Program(*words, pass_fds=[says])
    os.close(says)
    number = os.read(said, 100).decode().strip()
    if not number:
        stop(f'Xvfb did not start: {program.said()[-2000:]}')
    os.environ['DISPLAY'] = f':{number}'
    return program


def files():
    """Which stores' files the user has."""
    names = {'dconf': '.config/dconf/user', 'dconfdb': '.config/dconfdb/user.user', 'keyfile': '.config/glib-2.0/settings/keyfile'}
    return [how for how, name in names.items() if (HOME / name).exists()]
