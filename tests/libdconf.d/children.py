"""A child of fork() by its parent's client: what waits in that is its parent's, which writes it; the child reads what the files hold, and writes what it sets."""
from frame import Stop

WANTED = """the parent reads /k: 2
the child reads /k: 1
the child reads /own: 3
the child reads /k: 2
the parent reads /k: 2
the parent reads /own: 3
"""


def main(both):
    program, store = both.compiled('children'), both.homes['ours'] / 'config' / 'dconfdb'
    status, out, err = both.ran('ours', [program, store / '.lock'])
    if status or out != WANTED or err:
        raise Stop(f'a child of fork(): status {status}, {out}{err}')
    return 'a child of fork() leaves to its parent what waits, reads what the files hold, and writes what it sets'
