"""The steps `Scans`, `Splits` and `ReadsLiteral` of the crate `yaml` (proofs/Parts.antt) on random kept derivations.   python3 lines.py SEED COUNT"""
import random, sys, collections
from grammar import *


def split_lines(t):
    ls = t.split(b'\n')
    if ls[-1] == b'': ls.pop()
    else: ls[-1] += b'\0'   # no newline behind it: a carriage return there stays
    return [l[:-1] if l.endswith(b'\r') or l.endswith(b'\0') else l for l in ls]


def events(n, s):
    if tabbed(s): return [('bad', 4, n)]
    t = significant(s)
    if t == b'': return []
    if t in (b'---', b'...'): return [('bad', 5, n)]
    return [(indent_of(s), t, n)]


def scan(lines):
    out, lit, waiting = [], None, 0
    for n, s in enumerate(lines, 1):
        if lit is not None and all_white(s):
            waiting += 1
            continue
        if lit is not None and indent_of(s) > lit:
            i = indent_of(s)
            if tabbed(s): out.append(('bad', 4, n))
            else: out += [(i, b'', n - k) for k in range(waiting, 0, -1)] + [(i, trim_end(s[i:]), n)]
        else:
            out += events(n, s)
            t = significant(s)
            lit = indent_of(s) if opens(t) else None
        waiting = 0
    return out


def lines_of(rows):
    out = []
    for n, r in enumerate(rows, 1):
        if r[0] == 'node': out.append((r[1], r[2], n))
        elif r[0] == 'body': out.append((r[1] + indent_of(r[2]), r[2][indent_of(r[2]):], n))
        elif r[0] == 'blank': out.append((next(x[1] + indent_of(x[2]) for x in rows[n:] if x[0] == 'body'), b'', n))
    return out


def main():
    rng = random.Random(int(sys.argv[1]))
    n = collections.Counter()
    while n['kept'] < int(sys.argv[2]):
        d = Gen(rng).document()
        if d is None or d[2]: continue
        rows = d[0]
        n['kept'] += 1
        a, b, c = scan(split_lines(text_of(rows))), scan([raw(r) for r in rows]), lines_of(rows)
        if a != b: n['Splits FAILS'] += 1; print('Splits', rows)
        if b != c: n['Scans FAILS'] += 1; print('Scans', rows, b, c)
    print(dict(n))


if __name__ == '__main__':
    main()
