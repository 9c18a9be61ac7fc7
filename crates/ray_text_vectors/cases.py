#!/usr/bin/env python3
# cases.py: writes the cases of ray_text_vectors (stdin) to standard output. The answers are worked out here, after the text of document 01.
import struct, sys, math

def bits(x): return '%016x' % struct.unpack('>Q', struct.pack('>d', x))[0]
def dbl(h): return struct.unpack('>d', struct.pack('>Q', int(h, 16)))[0]
def line(c, lo, hi): return '%s %s %s\n' % (c, bits(lo), bits(hi))
def raw(c, a, b): return '%s %s %s\n' % (c, a, b)

def parse(text):
    got = {c: [] for c in 'BPCOI'}
    if text == '' or not text.endswith('\n'): return None
    for k, l in enumerate(text[:-1].split('\n')):
        f = l.split(' ')
        if len(f) != 3 or f[0] not in got or len(f[0]) != 1: return None
        for h in f[1:]:
            if len(h) != 16 or any(d not in '0123456789abcdef' for d in h): return None
        if (f[0] == 'B') != (k == 0): return None
        got[f[0]].append((dbl(f[1]), dbl(f[2])))
    if any(len(got[c]) > 64 for c in 'PCOI'): return None
    return got

def sound(l): return all(a < b for a, b in l) and all(l[k][1] < l[k + 1][0] for k in range(len(l) - 1))
def normal(l):
    out = []
    for a, b in sorted((p for p in l if p[0] < p[1]), key=lambda p: p[0]):
        if out and a <= out[-1][1]: out[-1] = (out[-1][0], max(out[-1][1], b))
        else: out.append((a, b))
    return out
def less(l, hits):
    out = []
    for lo, hi in l:
        for a, b in hits:
            if b <= lo or hi <= a: continue
            if lo < a: out.append((lo, a))
            lo = max(lo, b)
            if not lo < hi: break
        if lo < hi: out.append((lo, hi))
    return out
def answer(text):
    g = parse(text)
    if g is None: return 'refused 18\n'
    (lo, hi), = g['B']
    p, c = g['P'], g['C']
    ok = sound(p) and sound(c) and all(lo <= x <= hi for q in p + c for x in q)
    ok = ok and all(any(a <= x and y <= b for a, b in p) for x, y in c)
    if not ok: return 'refused 11\n'
    o, i = normal(g['O']), normal(g['I'])
    p2 = less(p, i); c2 = less(less(c, o), i)
    moved = p2 != p or c2 != c
    p2 = p if p2 == p else p2
    c2 = c if c2 == c else c2
    return ''.join(line('P', *q) for q in p2) + ''.join(line('C', *q) for q in c2) + ('changed\n' if moved else 'same\n')

nan, ninf, pinf = '7ff8000000000000', 'fff0000000000000', '7ff0000000000000'
inf = math.inf
B = line('B', 0.0, 10.0); P = line('P', 0.0, 10.0); C = line('C', 0.0, 10.0)
O = line('O', 1.0, 4.0); I = line('I', 2.0, 3.0)
cases = [
    B + P + C + O + I,                                                    # document 01's example
    B + I + O + C + P,                                                    # any order past B
    B,                                                                    # a ray with no material
    B + P + C,                                                            # no hits: same
    B + P + C + line('O', 20.0, 30.0) + line('I', 20.0, 30.0),            # hits beside the ray: same
    B + P + C + line('O', 10.0, 11.0) + line('I', -1.0, 0.0),             # hits that touch its ends: same
    B + P + C + O,                                                        # an outer hit alone: certain moves
    B + P + line('C', 4.0, 5.0) + line('I', 1.0, 2.0),                    # an inner hit beside certain: possible moves
    B + P + C + line('O', 1.0, 2.0) + line('I', 3.0, 4.0),                # inner sticks out of outer
    B + P + C + line('O', 0.0, 10.0) + line('I', 0.0, 10.0),              # nothing is left
    B + P + C + line('I', 3.0, 4.0) + line('I', 1.0, 2.0) + line('I', 2.0, 3.0),   # unsorted hits that touch
    B + P + C + raw('O', nan, bits(2.0)) + raw('I', bits(1.0), nan),      # a NaN in a hit: dropped
    B + P + C + line('O', 4.0, 1.0) + line('I', 3.0, 3.0),                # hits without lo < hi: dropped
    B + P + C + raw('O', ninf, bits(1.0)) + raw('I', bits(9.0), pinf),    # infinite hits
    B + line('P', 0.0, 2.0) + line('P', 3.0, 5.0) + line('C', 0.0, 1.0) + line('C', 4.0, 5.0) + line('O', 0.5, 4.5) + line('I', 1.0, 4.0),
    raw('B', ninf, pinf) + raw('P', ninf, bits(0.0)) + line('C', -1.0, 0.0) + line('O', -0.5, 0.5),  # infinite bounds
    raw('B', nan, nan),                                                   # a NaN bound and empty lists
    line('B', 10.0, 0.0),                                                 # reversed bounds and empty lists
    line('B', -0.0, 10.0) + line('P', 0.0, 10.0),                         # both zeros are one
    line('B', 0.0, 10.0) + line('P', -0.0, 10.0) + line('O', 1.0, 2.0),   # an unmoved list keeps its bits
    B + line('P', 5e-324, 1e-323) + line('I', 0.0, 5e-324),               # the smallest doubles
    # 11
    raw('B', nan, bits(10.0)) + P,                                        # a NaN bound
    line('B', 10.0, 0.0) + line('P', 1.0, 2.0),                           # reversed bounds
    B + line('P', -1.0, 10.0),                                            # below the bounds
    B + line('P', 0.0, 11.0),                                             # above the bounds
    B + P + line('C', 0.0, 11.0),                                         # certain above the bounds
    B + line('P', 2.0, 1.0),                                              # a pair the wrong way round
    B + line('P', 1.0, 1.0),                                              # an empty pair
    B + line('P', 1.0, 2.0) + line('P', 2.0, 3.0),                        # touching pairs
    B + line('P', 3.0, 4.0) + line('P', 1.0, 2.0),                        # pairs that do not ascend
    B + raw('P', nan, bits(2.0)),                                         # a NaN in the ray
    B + line('P', 1.0, 2.0) + line('C', 1.0, 3.0),                        # certain not within possible
    B + C,                                                                # certain with no possible
    B + line('P', 0.0, 2.0) + line('P', 3.0, 5.0) + line('C', 1.0, 4.0),  # certain over a gap
    # 18
    '',                                                                   # no input
    P + C,                                                                # no B
    P + B,                                                                # a late B
    B + P + B,                                                            # a second B
    B + B,
    (B + P)[:-1],                                                         # no last newline
    B + '\n',                                                             # an empty line
    '\n',
    B + P.replace('P', 'p'),                                              # a small letter
    B + P.replace('P', 'X'),                                              # another letter
    B + P.replace('4024', '402A'),                                        # a capital digit
    B + P.replace('4024', '402g'),                                        # no digit
    B + P.replace(' 4', '  4'),                                           # two spaces
    B + P.replace(' 4', '\t4'),                                           # a tab
    B + P[:-1] + ' \n',                                                   # a space past the line
    B + P[:-1] + '\r\n',                                                  # a carriage return
    B + P[:-2] + '\n',                                                    # a digit too few
    B + P[:-1] + '0\n',                                                   # a digit too many
    B + 'P 0000000000000000\n',                                           # one number
    B + ' ' + P,                                                          # a space in front
    B + '\0' * 36,                                                        # no text
    B + line('P', 3.0, 4.0) + 'P',                                        # 11 too, but 18 comes first
    B + ''.join(line('P', k / 8, k / 8 + 0.0625) for k in range(65)),     # a 65th P
    B + P + ''.join(line('C', k / 8, k / 8 + 0.0625) for k in range(65)), # a 65th C
    B + P + C + O * 65,                                                   # a 65th O
    B + P + C + I * 65,                                                   # a 65th I
    B + ''.join(line('P', k / 8, k / 8 + 0.0625) for k in range(64)) + ''.join(line('C', k / 8, k / 8 + 0.0625) for k in range(64)) + O * 64 + I * 65,
    # 64 of each
    line('B', 0.0, 100.0) + ''.join(line('P', k, k + 0.75) for k in range(64)) + ''.join(line('C', k, k + 0.5) for k in range(64))
        + ''.join(line('O', k + 0.25, k + 0.5) for k in range(64)) + ''.join(line('I', k + 0.3125, k + 0.375) for k in range(64)),
    line('B', 0.0, 100.0) + line('P', 0.0, 100.0) + line('C', 0.0, 100.0)
        + ''.join(line('O', 63 - k + 0.25, 63 - k + 0.5) for k in range(64)) + ''.join(line('I', 63 - k + 0.3125, 63 - k + 0.375) for k in range(64)),
    B + P + C + O * 64 + I * 64,
    B * 400,                                                              # longer than any readable input
]
out = sys.stdout
for c in cases:
    a = answer(c)
    out.write('%04x %04x\n' % (len(c), len(a)) + c + a)
sys.stderr.write('%d cases\n' % len(cases))
