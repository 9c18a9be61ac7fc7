#!/usr/bin/env python3
"""Breaks the lines above 140 characters of .antt files, and of the contracts in .rt files, at the outermost place that is near
enough to 118; a block of comments with such a line is filled again.

    tools/wrap.py FILE..

`rt fmt` keeps the breaks, and lays tuples and lists of imports that stand on several lines out one to a line.
"""
import re
import sys

GOAL, LIMIT = 118, 140
NEVER = 99


def tuples(s):
    """The parentheses of s that have a comma of their own, from where to where."""
    stack, out = [], []
    for i, ch in enumerate(s):
        if ch == '(':
            stack.append([i, False])
        elif ch == ')' and stack:
            start, comma = stack.pop()
            if comma:
                out.append((start, i))
        elif ch == ',' and stack:
            stack[-1][1] = True
    return out


def places(s, indent):
    """The spaces where the line may be broken: (place, depth, the word before, the word after)."""
    depth, quote, out, inside = 0, False, [], tuples(s)
    for i in range(indent, len(s)):
        ch = s[i]
        if ch == '"':
            quote = not quote
        if quote:
            continue
        if ch in '([{⟨':
            depth += 1
        elif ch in ')]}⟩':
            depth -= 1
        elif ch == ' ' and s[i + 1:i + 2] not in (' ', ''):
            before, after = s[:i].split(' ')[-1], s[i + 1:].split(' ')[0]
            around = [t for t in inside if t[0] < i < t[1]]
            extra = 0.8 * len(around) - (0.9 if around and before.endswith(',') else 0)
            out.append((i, depth + extra, before, after))
    return out


def cost(before, after):
    """How bad a break between two words is, of the same depth."""
    if after == '→' or before == 'in' or before.endswith(';'):
        return 0
    if before == '=':
        return 0.15
    if after in ('⊎', '⊛'):
        return 0.2
    if after in ('×', '∙', '++', '∧', '&&', '||'):
        return 0.25
    if after == '∷':
        return 0.5
    if before in ('→', '⊛'):
        return 0.6
    if before.endswith(','):
        return 0.3
    if after == '=':
        return 0.6
    if before in ('λ', 'let', 'abbrev', 'pub', 'record', 'data', 'unfoldable', 'where', '.', 'use', 'module') or after in ('where', 'with'):
        return NEVER
    if after == 'in':
        return 0.5
    if after.startswith('.') and not after.startswith('.('):
        return 0.9
    if re.match(r'^[~+*/<>≤≡-]+\S*$', after):
        return 0.3
    if re.match(r'^[≡≤<+*-]$', before):
        return 0.7
    if after.startswith('(') or before.endswith(')'):
        return 0.75
    return 0.95


def broken(line):
    """The lines that a line of code becomes."""
    if len(line) <= LIMIT:
        return [line]
    out, indent = [], len(line) - len(line.lstrip(' '))
    while len(line) > (GOAL + 8 if out else LIMIT):
        start, best = len(line) - len(line.lstrip(' ')), None
        for place, depth, before, after in places(line, start):
            in_binder = re.search(r'λ [^.]*$', line[:place])
            if place > GOAL or place < start + 30 or in_binder or cost(before, after) == NEVER:
                continue
            total = depth + cost(before, after) + (GOAL - place) / 150.0
            if best is None or total < best[0]:
                best = (total, place)
        if best is None:
            break
        out.append(line[:best[1]])
        line = ' ' * (indent + 4) + line[best[1] + 1:]
    return out + [line]


def filled(block):
    """A block of comment lines of one indent, as one paragraph."""
    indent = len(block[0]) - len(block[0].lstrip(' '))
    mark = re.match(r'(-- ?|///? ?|//! ?)', block[0][indent:]).group(1)
    front = (' ' * indent + mark).rstrip(' ') + ' '
    words = ' '.join(l[indent:][len(mark):].strip() for l in block).split()
    out, line = [], front + words[0]
    for word in words[1:]:
        if len(line) + 1 + len(word) > GOAL:
            out.append(line)
            line = front + word
        else:
            line += ' ' + word
    return out + [line]


def wrapped(text, rattle=False):
    """The text with no line above the limit that can be broken; in Rattle only contracts are."""
    lines, out, i = text.split('\n'), [], 0
    comment = lambda l: l.lstrip().startswith(('-- ', '// ')) and not l.lstrip().startswith('-- ----')
    while i < len(lines):
        line = lines[i]
        if comment(line):
            indent, j = len(line) - len(line.lstrip()), i
            while j < len(lines) and comment(lines[j]) and len(lines[j]) - len(lines[j].lstrip()) == indent:
                j += 1
            block = lines[i:j]
            out += filled(block) if any(len(l) > LIMIT for l in block) else block
            i = j
            continue
        code = not rattle or '⌜' in line or '⌝' in line
        out += broken(line) if code and ' -- ' not in line else [line]
        i += 1
    return '\n'.join(out)


if __name__ == '__main__':
    for name in sys.argv[1:]:
        old = open(name, encoding='utf8').read()
        new = wrapped(old, name.endswith('.rt'))
        if new != old:
            open(name, 'w', encoding='utf8').write(new)
