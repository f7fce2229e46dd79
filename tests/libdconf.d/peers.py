"""dconf's own tests in C, as Debian's source package has them, over our library: those of paths, changesets and clients, and those of the engine that
ask for what the library has. They are fetched by apt into a folder of this run's; nothing of them is kept."""
import subprocess

import both as shared
import dconf_sources
import frame
from frame import Stop

# Each in a run of its own, since some leave a write unanswered. The others of engine.c look into it: at its profiles, its sources, the bus's match rules, the messages that it takes from the bus.
OF_ENGINE = ['/engine/read', '/engine/change/fast', '/engine/change/fast_redundant', '/engine/change/sync', '/engine/sync']
OF_CLIENT = [f'-D{old}={new}' for old, new in (('g_queue_get_length', 'mock_queue_get_length'), ('dconf_client_write_fast', 'mock_client_write_fast'),
                                               ('dconf_client_change_fast', 'mock_client_change_fast'))]
# What dconf's headers hide may be missing.
RENAMED = ['-Dvisibility(x)=unused', '-Dg_log_set_writer_func=mock_log_set_writer_func']


def made(both, sources, name, *more):
    """The test's program, over our library; what it doesn't call may be missing."""
    program = both.folder / f'peers-{name}'
    words = ['gcc', '-g', '-rdynamic', f'-DSRCDIR="{sources}/tests"', '-DSYSCONFDIR="/etc"', f'-I{sources}', *more, sources / 'tests' / f'{name}.c']
    adapter = both.folder / 'peers.o'
    if not adapter.exists():
        subprocess.run(['gcc', *shared.WARNINGS, '-c', shared.HERE / 'peers.c', *shared.flags('dconf', words=('--cflags',)), '-o', adapter], check=True)
    glib = shared.flags('gio-2.0', 'gio-unix-2.0', 'dconf')
    linked = subprocess.run([*words, adapter, '-o', program, *glib, '-lm', '-Wl,--unresolved-symbols=ignore-all'], capture_output=True, text=True, check=False)
    if linked.returncode:
        raise Stop(f'dconf\'s {name}.c is not made: {linked.stderr[-1000:]}')
    return program


def passed(both, program, *words):
    """How many of its cases passed: all, in a store of their own."""
    store = both.folder / 'peers-store'
    subprocess.run(['rm', '-rf', store], check=True)
    store.mkdir()
    status, out, err = both.ran('ours', [program, '--tap', *words], timeout=500, DCONFDB_STORE=str(store), DCONFDB=str(frame.program()))
    cases = [line for line in out.splitlines() if line.startswith('ok ')]
    if status or not cases or 'not ok' in out:
        raise Stop(f'dconf\'s {program.name.removeprefix("peers-")} {words}: status {status}\n{out[-1500:]}\n{err[-1500:]}')
    return len([it for it in cases if 'SKIP' not in it])


def main(both):
    sources = dconf_sources.fetched(both.folder / 'peers')
    counts = {name: passed(both, made(both, sources, name)) for name in ('paths', 'changeset')}
    counts['client'] = passed(both, made(both, sources, 'client', *RENAMED, *OF_CLIENT))
    engine = made(both, sources, 'engine', *RENAMED)
    counts['engine'] = sum(passed(both, engine, '-p', it) for it in OF_ENGINE)
    return 'dconf\'s own tests pass over it: ' + ', '.join(f'{count} of {name}.c' for name, count in counts.items())
