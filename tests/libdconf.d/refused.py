"""What must not be given: NULL, texts that are no paths, sealed sets. Both libraries log the same critical and answer the same; where dconf's dies, ours logs
a critical and goes on."""
import re

from frame import Stop

def answers(both, whose, program):
    """What each case prints, by its number; a case whose child died has the signal alone."""
    status, out, err = both.ran(whose, [program])
    if status:
        raise Stop(f'refused, {whose}: status {status}, {err[-500:]}')
    found, given = {}, ''
    for block in re.split(r'^(?=case )', out, flags=re.M)[1:]:
        head, _, rest = block.partition('\n')
        if re.match(r'case (client|changeset) ', head):
            given = head.removeprefix('case ')
        found[f'{given}: {head}'] = rest
    return found


def main(both):
    program = both.compiled('refused')
    theirs, ours = answers(both, 'theirs', program), answers(both, 'ours', program)
    if theirs.keys() != ours.keys():
        raise Stop(f'refused: {len(theirs)} cases of dconf, {len(ours)} of ours')
    dead = 0
    for head, answer in theirs.items():
        mine = ours[head]
        if 'ended by' in mine:
            raise Stop(f'refused: {head}: ours {mine.strip()}')
        if 'ended by' in answer:
            dead += 1
            if 'dconf 8: ' not in mine and not head.endswith(MAY_PASS):
                raise Stop(f'refused: {head}: dconf dies, and ours logs no critical: {mine}')
        elif 'NULL: ' in head and "!= NULL' failed" in mine:
            # dconf reads at a NULL only if there is a database to look into.
            dead += 1
        elif answer != mine:
            raise Stop(f'refused: {head}: dconf answers {answer!r}, and ours {mine!r}')
    return f'{len(theirs) - dead} cases of NULL, bad paths and sealed sets have dconf\'s critical and answer; in {dead} more dconf dies or may die, and ours does not'


# A fast reset of a directory kills dconf 0.40, and is a right call: ours makes it.
MAY_PASS = ('dconf_client_write_fast(it, text, NULL, &error); print_error(is, error)',)
