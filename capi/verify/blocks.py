"""Writes out what goes as its block ends. CBMC 6.6 passes over the attribute `cleanup`, by which g_autoptr and g_autofree do it."""
import re

TOKEN = re.compile(r'/\*.*?\*/|//[^\n]*|"(?:\\.|[^"\\])*"|\'(?:\\.|[^\'\\])*\'|[{}]|\b(?:break|continue|goto)\b|\breturn\b(?P<value>[^;]*);'
                   r'|\bg_autoptr\((?P<type>\w+)\) (?P<name>\w+)|\bg_autofree [\w ]+\*+(?P<text>\w+)', re.S)


def ends_of(blocks):
    """The calls by which all goes that these blocks have, the newest first."""
    return ' '.join(f'{call}(&{name});' for block in reversed(blocks) for call, name in reversed(block))


def returned(match, blocks):
    """What is returned is known before anything goes."""
    value, ends = match['value'].strip(), ends_of(blocks)
    if not ends:
        return match[0]
    return f'{{ __typeof__({value}) returned = {value}; {ends} return returned; }}' if value else f'{{ {ends} return; }}'


def written_out(text, of):
    blocks, parts, at = [[]], [], 0
    for match in TOKEN.finditer(text):
        put = match[0]
        if put == '{':
            blocks.append([])
        elif put == '}':
            ends = ends_of(blocks[-1:])
            put = f'{ends}\n{put}' if ends else put
            blocks.pop()
        elif match['name'] or match['text']:
            blocks[-1].append((f'end_{match["type"]}', match['name']) if match['name'] else ('free_at', match['text']))
        elif match['value'] is not None:
            put = returned(match, blocks)
        elif put in ('break', 'continue', 'goto') and any(blocks[2:]):
            raise SystemExit(f'run: {of} leaves a block by {put}, which blocks.py doesn\'t take')
        parts += [text[at:match.start()], put]
        at = match.end()
    return ''.join([*parts, text[at:]])
