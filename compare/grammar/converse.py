"""The other way round, by counting. For texts that the Rust reads and libfyaml reads as the same tree: is there a derivation that is kept?
And once more the theorem itself: where `derive` finds a kept derivation, does the Rust read its tree?
python3 converse.py RUST FY all LETTERS LENGTH      every text of these letters up to a length (\\n and \\t as such)
python3 converse.py RUST FY stream                  a stream of texts on standard input, as `generate` writes it
python3 converse.py RUST FY files FILE..."""
import collections, itertools, re, struct, sys
from grammar import *
from derive import derive, broken, No
from run import ask_rust, ask_fy, quirk, ask_py


def texts():
    kind = sys.argv[3]
    if kind == 'all':
        letters = [c.encode() for c in sys.argv[4].encode().decode('unicode_escape')]
        for n in range(int(sys.argv[5]) + 1):
            for p in itertools.product(letters, repeat=n): yield b''.join(p)
    elif kind == 'stream':
        while n := sys.stdin.buffer.read(4): yield sys.stdin.buffer.read(struct.unpack('<I', n)[0])
    else:
        for f in sys.argv[4:]: yield open(f, 'rb').read()


def main():
    n, why, first = collections.Counter(), collections.Counter(), {}
    fails = []
    it = texts()
    while True:
        b = list(itertools.islice(it, 20000))
        if not b: break
        ru, fo = ask_rust(sys.argv[1], b), ask_fy(sys.argv[2], b)
        for t, got, f in zip(b, ru, fo):
            n['texts'] += 1
            try:
                d = derive(t)
                bad = broken(d)
                rep = d['rep']
                try: y = as_yaml(None if rep == 'none' else rep)
                except NoYaml as e: bad, y = bad + ['no tree: ' + str(e)], None
                reason = ', '.join(sorted(set(bad)))
            except (No, UnicodeDecodeError) as e:
                d, bad, reason = None, ['none'], 'not derived: ' + re.sub(r"[: ]*b['\"].*| at \d+", '', str(e))
            if d is not None and not any(c < 0x20 and c not in (9, 10, 13) or c == 0x7f for c in t):
                n['derived'] += 1
                if f != d['rep'] and not quirk(d['rep'], f, bad):
                    n['derived, libfyaml differs'] += 1
                    if ask_py(t) != d['rep']:
                        n['derived, libfyaml and PyYAML differ'] += 1
                        if not bad: first.setdefault('kept, both parsers differ', (t, f, ask_py(t)))
            if not bad:
                n['kept'] += 1
                if got != encode(y).hex():
                    n['FAILS'] += 1
                    fails.append(t)
            if got is not None:
                n['the Rust reads'] += 1
                try:
                    ff = as_yaml(None if f == 'none' else f) if f not in ('error', 'multi') else f
                    agree = f not in ('error', 'multi') and encode(ff).hex() == got
                except NoYaml: agree = False
                if agree:
                    n['of these libfyaml reads alike'] += 1
                    if not bad: n['of these kept'] += 1
                    else:
                        why[reason] += 1
                        if reason not in first or len(t) < len(first[reason]): first[reason] = t
    for k in sorted(n): print('%9d %s' % (n[k], k))
    for t in sorted(fails, key=len)[:10]: print('FAIL', t)
    if 'kept, both parsers differ' in first: print('kept, both parsers differ:', first['kept, both parsers differ'])
    for k, v in why.most_common(25): print('   %7d %-60s %r' % (v, k, first[k]))


if __name__ == '__main__':
    main()
