"""python3 run.py SEED COUNT RUST FY     RUST: the oracle program, FY: the program of fy.c"""
import collections, random, struct, subprocess, sys
from grammar import *
import yaml as pyyaml


def ask_rust(prog, texts):
    """for each text the item that the Rust reads, in hexadecimal, or None; where a request changes a text, what the changed copy reads"""
    out = subprocess.run([prog, '--requests', 'tree'], input=b''.join(struct.pack('<I', len(t)) + t for t in texts), stdout=subprocess.PIPE, check=True).stdout.decode().split('\n')[:-1]
    assert len(out) == len(texts)
    return [l[3:] if l.startswith('ok ') else None for l in out]


def parse_fy(line):
    if line in ('error', 'multi', 'none'): return line
    words = line.split()
    pos = 0
    def one():
        nonlocal pos
        w = words[pos]; pos += 1
        if w == '[':
            xs = []
            while words[pos] != ']': xs.append(one())
            pos += 1
            return ('seq', xs)
        if w == '{':
            xs = []
            while words[pos] != '}': xs.append((one(), one()))
            pos += 1
            return ('map', xs)
        if w == 'ALIAS': return ('alias',)
        s = bytes.fromhex(w[1:])
        return core(s)[0] if w[0] == 'P' else ('str', s)
    return one()


def ask_fy(prog, texts):
    done = subprocess.run([prog], input=b''.join(struct.pack('<I', len(t)) + t for t in texts), stdout=subprocess.PIPE, stderr=subprocess.DEVNULL)
    if done.returncode != 0:   # libfyaml crashes on a few texts
        if len(texts) == 1: return ['error']
        h = len(texts) // 2
        return ask_fy(prog, texts[:h]) + ask_fy(prog, texts[h:])
    out = done.stdout.decode().split('\n')[:-1]
    assert len(out) == len(texts), (len(out), len(texts))
    return [parse_fy(l) for l in out]


def from_py(n):
    if isinstance(n, pyyaml.ScalarNode):
        v = n.value.encode()
        return core(v)[0] if not n.style else ('str', v)
    if isinstance(n, pyyaml.SequenceNode): return ('seq', [from_py(x) for x in n.value])
    return ('map', [(from_py(k), from_py(v)) for k, v in n.value])


LOADER = getattr(pyyaml, 'CSafeLoader', pyyaml.SafeLoader)


def ask_py(t, loader=None):
    try:
        docs = list(pyyaml.compose_all(t.decode(), Loader=loader or LOADER))
        if len(docs) > 1: return 'multi'
        return from_py(docs[0]) if docs else 'none'
    except Exception as e:
        return 'error'


def quirk(rep, f, bad):
    """two slips of libfyaml: an empty literal is a zero byte there, and clip at the end of the input gives a newline"""
    if rep == f: return True
    if isinstance(rep, tuple) and isinstance(f, tuple) and rep[0] == f[0]:
        if rep[0] == 'str': return rep[1] == b'' and f[1] == b'\0' or 'clip-at-end' in bad and rep[1] + b'\n' == f[1]
        if rep[0] == 'seq': return len(rep[1]) == len(f[1]) and all(quirk(a, b, bad) for a, b in zip(rep[1], f[1]))
        if rep[0] == 'map': return len(rep[1]) == len(f[1]) and all(quirk(a, c, bad) and quirk(b, d, bad) for (a, b), (c, d) in zip(rep[1], f[1]))
    return False


def batch(rng, n):
    out = []
    while len(out) < n:
        g = Gen(rng)
        try:
            d = g.document()
        except RecursionError:
            continue
        if d is None: continue
        rows, rep, bad = d
        out.append((text_of(rows), rows, rep, bad, g.cov))
    return out


def main():
    seed, count, rust, fy = int(sys.argv[1]), int(sys.argv[2]), sys.argv[3], sys.argv[4]
    rng = random.Random(seed)
    n = collections.Counter()
    fails, fyd, pyd = [], collections.defaultdict(list), collections.defaultdict(list)
    loose = collections.defaultdict(lambda: [0, 0, None])
    seen, both, distinct, covered = set(), [], set(), collections.Counter()
    while n['texts'] < count:
        b = batch(rng, 5000)
        texts = [x[0] for x in b]
        ru, fo = ask_rust(rust, texts), ask_fy(fy, texts)
        for (t, rows, rep, bad, cov), got, f in zip(b, ru, fo):
            n['texts'] += 1
            seen.add(hash(t))
            try:
                y = as_yaml(None if rep == 'none' else rep)
            except NoYaml as e:
                y = e
            if f != rep and quirk(rep, f, bad):
                n['libfyaml, its two slips'] += 1
            elif f != rep:
                n['libfyaml differs'] += 1
                fyd[str(f)[:5] if isinstance(f, str) else 'value'].append((len(t), t, rep, f, bad))
            if n['texts'] % 4 == 0 or (f != rep and not quirk(rep, f, bad)):
                p = ask_py(t)
                n['PyYAML asked'] += 1
                if p != rep:
                    n['PyYAML differs'] += 1
                    pyd[str(p)[:5] if isinstance(p, str) else 'value'].append((len(t), t, rep, p, f == rep))
                    if f != rep and not quirk(rep, f, bad):
                        n['both differ'] += 1
                        n['both differ, kept'] += not bad
                        both.append((bool(bad), t, rep, p, f, bad))
            if isinstance(y, NoYaml):
                n['no tree: ' + str(y)] += 1
                continue
            same = got == encode(y).hex()
            if not bad:
                n['kept'] += 1
                distinct.add(hash(t))
                covered.update(cov)
                if f != rep and not quirk(rep, f, bad): n['kept, libfyaml differs'] += 1
                if any(r[0] != 'note' for r in rows[1:]): n['kept, several lines'] += 1
                if any(r[0] == 'body' for r in rows): n['kept, with a literal'] += 1
                if levels(y) > 32: n['deep'] += 1
                if not same:
                    n['FAILS'] += 1
                    fails.append((len(t), t, rep, got, rows))
            else:
                n['not kept'] += 1
                n['not kept but read alike'] += same
                if len(set(bad)) == 1:
                    l = loose[bad[0]]
                    l[0] += 1
                    l[1] += same
                    if not same and (l[2] is None or len(t) < len(l[2])): l[2] = t
    n['different texts'] = len(seen)
    n['kept, different'] = len(distinct)
    for k in sorted(n): print('%9d %s' % (n[k], k))
    for f in sorted(fails, key=lambda f: f[0])[:15]: print('FAIL', f[1], f[2], f[3], f[4])
    print('-- kept texts with: ' + ', '.join('%s %d' % kv for kv in sorted(covered.items())))
    print('-- conditions, broken alone: texts, of them read alike, shortest that is not')
    for k, l in sorted(loose.items()): print('  %-30s %7d %7d %r' % (k, l[0], l[1], l[2]))
    print('-- both differ')
    for x in sorted(both, key=lambda f: f[0])[:40]: print('   ', x[1:])
    for name, d in (('libfyaml', fyd), ('PyYAML', pyd)):
        for k, l in d.items():
            print('--', name, k, len(l))
            for x in sorted(l, key=lambda f: f[0])[:int(sys.argv[5]) if len(sys.argv) > 5 else 12]: print('   ', x[1:])


if __name__ == '__main__':
    main()
