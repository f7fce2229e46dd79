"""Random calls of changesets, with both libraries: the same answers, but where dconf's filter loses what is set below a directory that is reset."""
import os

from frame import Stop

SEEDS = int(os.environ.get('SEEDS', '2000'))


def main(both):
    program = both.compiled('changesets')
    outs = []
    for whose in ('theirs', 'ours'):
        status, out, err = both.ran(whose, [program, str(SEEDS)])
        if status or err:
            raise Stop(f'changesets, {whose}: status {status}, {err[:500]}')
        outs.append(out.splitlines())
    theirs, ours = outs
    if len(theirs) != len(ours):
        raise Stop(f'changesets: {len(theirs)} lines of dconf, {len(ours)} of ours')
    below = [(one, other) for one, other in zip(theirs, ours) if one != other]
    for one, other in below:
        # What is filtered where a directory is reset: how much is left, and whether that does what the whole would do. What dconf leaves depends on
        # the order of a hash table.
        if not (one.startswith('filtered-below ') and other.startswith('filtered-below ') and other.endswith('holds 1')):
            raise Stop(f'changesets: dconf says {one!r}, and ours {other!r}')
    lost = sum(it.endswith('holds 0') for it in theirs)
    return (f'{SEEDS} seeds of random calls of changesets: {len(ours) - len(below)} lines are those of dconf, and {len(below)} are of filters that keep '
            f'other rows below a reset directory; {lost} of dconf\'s lose a value there, and none of ours')
