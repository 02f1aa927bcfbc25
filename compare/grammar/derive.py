"""Finds a derivation of a text in the grammar (deterministic, for texts written in the usual way), says which conditions of `kept` it
breaks, and can write both down as antt terms.   python3 derive.py NAME < text"""
import re, sys
from grammar import *


class No(Exception):
    pass


# ---- flow nodes: (derivation, end). A derivation is (constructor, text, representation, parts)
def spaces_at(s, i):
    j = i
    while j < len(s) and s[j] == SP: j += 1
    return j


def whites_at(s, i):
    j = i
    while j < len(s) and s[j] in b' \t': j += 1
    return j


def flow(ctx, s, i):
    if i >= len(s): raise No('no node at %d' % i)
    b = s[i]
    if b == 0x22:
        j, v, parts = i + 1, b'', []
        while True:
            if j >= len(s): raise No('open quote')
            if s[j] == 0x22: break
            if s[j] == 0x5c:
                if j + 1 >= len(s) or s[j + 1] not in b'ntr0"\\/': raise No('escape')
                e = s[j + 1]
                v += {ord('n'): b'\n', ord('t'): b'\t', ord('r'): b'\r', ord('0'): b'\0'}.get(e, bytes([e]))
                parts.append(('esc', e))
                j += 2
            else:
                if not nb_char(s[j]): raise No('character')
                v += s[j:j + 1]
                parts.append(('char', s[j]))
                j += 1
        return ('double', s[i:j + 1], ('str', v), parts), j + 1
    if b == 0x27:
        j, v, parts = i + 1, b'', []
        while True:
            if j >= len(s): raise No('open quote')
            if s[j] == 0x27:
                if s[j + 1:j + 2] == b"'":
                    parts.append(('twice', 0x27)); v += b"'"; j += 2
                    continue
                break
            if not nb_char(s[j]): raise No('character')
            v += s[j:j + 1]
            parts.append(('char', s[j]))
            j += 1
        return ('single', s[i:j + 1], ('str', v), parts), j + 1
    if b in b'[{':
        j = spaces_at(s, i + 1)
        first, parts, reps = j - i - 1, [], []
        close = 0x5d if b == 0x5b else 0x7d
        while True:
            if j >= len(s): raise No('open bracket')
            if s[j] == close:
                parts.append(('close',))
                break
            if b == 0x5b:
                d, j = flow('in', s, j)
                reps.append(d[2])
            else:
                d, j = pair(s, j)
                reps.append((d[2], d[3]))
            k = spaces_at(s, j)
            if s[k:k + 1] == bytes([close]):
                parts.append(('last', d, k - j)); j = k
                break
            if s[k:k + 1] != b',': raise No('no comma')
            e = spaces_at(s, k + 1)
            parts.append(('more', d, k - j, e - k - 1)); j = e
        return ('seq' if b == 0x5b else 'map', s[i:j + 1], ('seq' if b == 0x5b else 'map', reps), (first, parts)), j + 1
    # plain
    if not plain_first(ctx, b, s[i + 1:]): raise No('no plain at %d' % i)
    j, a, last = i + 1, b, i + 1
    while j < len(s):
        if s[j] in b' \t': pass
        elif plain_char(ctx, a, s[j], s[j + 1:]): last = j + 1
        else: break
        a = s[j]
        j += 1
    t = s[i:last]
    if not is_plain(ctx, t): raise No('colon, dash or question mark last in a plain text')
    return ('plain', t, core(t)[0], ctx), last


def pair(s, i):
    d, j = flow('in', s, i)
    k = spaces_at(s, j)
    if s[k:k + 1] != b':': raise No('no colon')
    e = spaces_at(s, k + 1)
    if e >= len(s): raise No('open bracket')
    if s[e] in b',}':
        return ('null', (d, k - j), d[2], None), k + 1
    if e > k + 1:
        v, f = flow('in', s, e)
        return ('value', (d, k - j, e - k - 2, v), d[2], v[2]), f
    if d[0] == 'plain': raise No('no space behind the colon')
    v, f = flow('in', s, e)
    return ('adjacent', (d, k - j, v), d[2], v[2]), f


def is_tail(w):
    i = 0
    while i < len(w) and w[i] in b' \t': i += 1
    return i == len(w) or (i > 0 and w[i] == 0x23)


def is_comment(s):
    t = s.lstrip(b' \t')
    return t == b'' or t[:1] == b'#'


class Parse:
    def __init__(self, text):
        self.lines = []
        i = 0
        while i < len(text):
            j = text.find(b'\n', i)
            if j < 0:
                self.lines.append((text[i:], 'eof')); break
            if j > i and text[j - 1] == 0x0d: self.lines.append((text[i:j - 1], 'crlf'))
            else: self.lines.append((text[i:j], 'lf'))
            i = j + 1
        if b'\r' in b''.join(l for l, _ in self.lines): raise No('carriage return')
        self.i = 0

    def comments(self):
        rows = []
        while self.i < len(self.lines) and is_comment(self.lines[self.i][0]):
            s, b = self.lines[self.i]
            rows.append(('note', s, b))
            self.i += 1
        return rows

    def indent(self):
        """of the next line, or -1"""
        return indent_of(self.lines[self.i][0]) if self.i < len(self.lines) else -1

    def key_at(self, s):
        try:
            d, j = flow('out', s, 0)
        except No:
            return None
        k = whites_at(s, j)
        if s[k:k + 1] == b':' and (k + 1 == len(s) or s[k + 1] in b' \t'):
            if len(s[:k].decode()) > 1024: raise No('long key')
            return d, k
        return None

    def row(self, m, s, at, brk):
        return ('node', m, s[:at], s[at:], brk)

    def block(self, m):
        s = self.lines[self.i][0][m:]
        if s == b'-' or s[:2] == b'- ' or s[:2] == b'-\t':
            items, rows = [], []
            while self.indent() == m and (lambda x: x == b'-' or x[:1] == b'-' and x[1:2] in (b' ', b'\t'))(self.lines[self.i][0][m:]):
                d = self.item(m)
                items.append(d)
                rows += d['rows']
            return dict(k='b_seq', items=items, rows=rows, rep=('seq', [d['rep'] for d in items]))
        if self.key_at(s):
            return self.pairs(m)
        b = self.lines[self.i][1]
        d, j = flow('out', s, 0)
        if not is_tail(s[j:]): raise No('text behind a node: %r' % s)
        self.i += 1
        cs = self.comments()
        return dict(k='b_flow', flow=d, w=s[j:], cs=cs, rows=[self.row(m, s, j, b)] + cs, rep=d[2])

    def pairs(self, m):
        es, rows = [], []
        while self.indent() == m and self.key_at(self.lines[self.i][0][m:]):
            d = self.entry(m, self.lines[self.i][0][m:])
            es.append(d)
            rows += d['rows']
        return dict(k='b_map', es=es, rows=rows, rep=('map', [(d['key'], d['rep']) for d in es]))

    def item(self, m):
        s, b = self.lines[self.i]
        s = s[m:]
        j = spaces_at(s, 1)
        if is_tail(s[1:]):
            self.i += 1
            cs = self.comments()
            row = self.row(m, s, 1, b)
            if self.indent() > m:
                d = self.block(self.indent())
                return dict(k='i_block', w=s[1:], cs=cs, block=d, rows=[row] + cs + d['rows'], rep=d['rep'])
            return dict(k='i_null', w=s[1:], cs=cs, rows=[row] + cs, rep=None)
        if j == 1: raise No('tab behind a dash')
        if s[j:j + 2] in (b'- ', b'-') : raise No('sequence behind a dash')
        if s[j:j + 1] == b'\t':
            j = whites_at(s, j)
            if self.key_at(s[j:]): raise No('tab before a key behind a dash')
        if self.key_at(s[j:]):
            k = m + j
            es = [self.entry(k, s[j:])]
            rows = list(es[0]['rows'])
            while self.indent() == k and self.key_at(self.lines[self.i][0][k:]):
                d = self.entry(k, self.lines[self.i][0][k:])
                es.append(d)
                rows += d['rows']
            _, _, c, w, b = rows[0]
            return dict(k='i_map', j=j - 2, es=es, rows=[('node', m, s[:j] + c, w, b)] + rows[1:], inner=rows, rep=('map', [(d['key'], d['rep']) for d in es]))
        d, e = flow('out', s, j)
        if not is_tail(s[e:]): raise No('text behind a node: %r' % s)
        self.i += 1
        cs = self.comments()
        return dict(k='i_flow', x=s[2:j], flow=d, w=s[e:], cs=cs, rows=[self.row(m, s, e, b)] + cs, rep=d[2])

    def entry(self, n, s):
        b = self.lines[self.i][1]
        kd, k = self.key_at(s)
        key = (kd, s[len(kd[1]):k])
        base = dict(keyd=key, key=kd[2], s=s[:k])
        if is_tail(s[k + 1:]):
            row = self.row(n, s, k + 1, b)
            self.i += 1
            cs = self.comments()
            if self.indent() > n:
                d = self.block(self.indent())
                return dict(base, k='e_block', w=s[k + 1:], cs=cs, block=d, rows=[row] + cs + d['rows'], rep=d['rep'])
            return dict(base, k='e_null', w=s[k + 1:], cs=cs, rows=[row] + cs, rep=None)
        if s[k + 1:k + 2] != b' ': raise No('tab behind a colon')
        j = whites_at(s, k + 1)
        if s[j:j + 1] == b'|':
            e = j + 1
            chomp = 'clip'
            if s[e:e + 1] == b'-': chomp, e = 'strip', e + 1
            if not is_tail(s[e:]): raise No('header')
            self.i += 1
            lit = self.literal(n, chomp)
            return dict(base, k='e_literal', x=s[k + 2:j], chomp=chomp, w=s[e:], lit=lit, rows=[self.row(n, s, e, b)] + lit['rows'], rep=('str', lit['v']))
        d, e = flow('out', s, j)
        if not is_tail(s[e:]): raise No('text behind a node: %r' % s)
        self.i += 1
        cs = self.comments()
        return dict(base, k='e_flow', x=s[k + 2:j], flow=d, w=s[e:], cs=cs, rows=[self.row(n, s, e, b)] + cs, rep=d[2])

    def literal(self, n, chomp):
        # the first line that is not empty
        p = self.i
        while p < len(self.lines) and self.lines[p][0].strip(b' ') == b'': p += 1
        m = indent_of(self.lines[p][0]) if p < len(self.lines) else -1
        if m > n and any(len(self.lines[q][0]) > m for q in range(self.i, p)): raise No('leading blank line too deep')
        if m <= n:
            trail = []
            while self.i < p:
                s, b = self.lines[self.i]
                trail.append(('blank', s, b)); self.i += 1
            if self.i < len(self.lines) and self.lines[self.i][0].lstrip(b' ')[:1] == b'#':
                s, b = self.lines[self.i]
                self.i += 1
                trail.append(('comment', s, b)); trail += [('after',) + r[1:] for r in self.comments()]
            top = max([len(t[1]) for t in trail if t[0] == 'blank'], default=0)
            return dict(k='l_nothing', m=top, trail=trail, rows=[('note', t[1], t[2]) for t in trail], v=b'')
        lines, blanks, rows = [], [], []
        while self.i < len(self.lines):
            s, b = self.lines[self.i]
            if s.strip(b' ') == b'' and len(s) <= m:
                blanks.append((len(s), b))
            elif indent_of(s) >= m:
                if not all(nb_char(c) for c in s): raise No('character')
                rows += [('blank', k, c) for k, c in blanks] + [('body', m, s[m:], b)]
                lines.append((blanks, s[m:], b))
                blanks = []
            else:
                break
            self.i += 1
        trail = [('blank', b' ' * k, c) for k, c in blanks]
        if self.i < len(self.lines) and self.lines[self.i][0].lstrip(b' ')[:1] == b'#':
            s, b = self.lines[self.i]
            self.i += 1
            trail.append(('comment', s, b)); trail += [('after',) + r[1:] for r in self.comments()]
        v = b'\n'.join(b'\n' * len(bl) + t for bl, t, _ in lines)
        if chomp == 'clip' and lines[-1][2] != 'eof': v += b'\n'
        return dict(k='l_lines', m=m, lines=lines, trail=trail, rows=rows + [('note', t[1], t[2]) for t in trail], v=v)

    def document(self):
        cs = self.comments()
        if self.i == len(self.lines):
            return dict(k='d_none', rows=cs, rep='none')
        d = self.block(self.indent())
        if self.i != len(self.lines): raise No('lines left: %r' % self.lines[self.i][0])
        rows = cs + d['rows']
        for r in rows:
            s = raw(r)
            if s[:3] in (b'---', b'...') and (len(s) == 3 or s[3] in b' \t'): raise No('marker')
        return dict(k='d_one', cs=cs, block=d, rows=rows, rep=d['rep'])


# ---- the conditions
def broken_flow(d):
    if d[0] == 'plain':
        return (['plain-white'] if trim(d[1]) != d[1] else []) + core(d[1])[1]
    if d[0] == 'seq': return [b for p in d[3][1] if p[0] != 'close' for b in broken_flow(p[1])]
    if d[0] == 'map':
        out = []
        for p in d[3][1]:
            if p[0] == 'close': continue
            q = p[1]
            out += broken_flow(q[1][0]) + (broken_flow(q[1][-1]) if q[0] != 'null' else [])
        return out
    return []


def broken(d):
    k = d['k']
    if k == 'd_none': return kept_rows(d['rows'])
    if k == 'd_one': return broken(d['block']) + kept_rows(d['rows'])
    if k == 'b_seq': return [b for i in d['items'] for b in broken(i)]
    if k in ('b_map', 'i_map'): return [b for e in d['es'] for b in broken(e)]
    if k == 'b_flow': return broken_flow(d['flow']) + (['key-found'] if key_end(d['flow'][1]) is not None else []) + (['marker'] if d['flow'][1] in (b'---', b'...') else [])
    if k == 'i_flow': return broken_flow(d['flow']) + (['key-found'] if key_end(d['flow'][1]) is not None else [])
    if k == 'i_null': return []
    if k == 'i_block': return broken(d['block'])
    out = broken_flow(d['keyd'][0]) + (['question'] if d['s'][:1] == b'?' else [])
    c = d['rows'][0][2]
    if key_end(c) != len(d['s']): out.append('key-end')
    if k == 'e_flow': out += broken_flow(d['flow'])
    if k == 'e_block': out += broken(d['block'])
    if k == 'e_literal' and d['lit']['k'] == 'l_lines' and d['chomp'] == 'clip' and d['lit']['lines'][-1][2] == 'eof': out.append('clip-at-end')
    return out


def printable(c):
    return c in (9, 10, 13) or 0x20 <= c <= 0x7e or c == 0x85 or 0xa0 <= c <= 0xd7ff or 0xe000 <= c <= 0xfffd and c != 0xfeff or c >= 0x10000


def derive(text):
    if not all(printable(ord(c)) for c in text.decode()): raise No('not printable')
    return Parse(text).document()


# ---- antt terms
def lit(b):
    """a text as an antt term"""
    if b == b'': return '[]'
    try:
        s = b.decode('ascii')
    except UnicodeDecodeError:
        return '(' + ' ∷ '.join(str(x) for x in b) + ' ∷ [])'
    s = s.replace('\\', '\\\\').replace('"', '\\"').replace('\n', '\\n').replace('\t', '\\t').replace('\r', '\\r')
    return '(bytes "%s")' % s


def rep_term(r):
    if r is None: return 'null'
    if r is True or r is False: return '(bool %s)' % str(r).lower()
    if isinstance(r, int): return '(int (pos %d))' % r if r >= 0 else '(int (negsuc %d))' % (-r - 1)
    if r[0] in ('str', 'float'): return '(%s %s)' % (r[0], lit(r[1]))
    if r[0] == 'seq':
        out = 'end'
        for x in reversed(r[1]): out = '(%s ▸ %s)' % (rep_term(x), out)
        return '(seq %s)' % out
    out = 'done'
    for k, v in reversed(r[1]): out = '(pair %s %s %s)' % (rep_term(k), rep_term(v), out)
    return '(map %s)' % out


def tree_term(r):
    y = as_yaml(r) if r != 'none' else None
    def go(y):
        if y is None: return 'Tree.null'
        if y is True or y is False: return '(Tree.bool %s)' % str(y).lower()
        if isinstance(y, int): return '(Tree.int (pos %d))' % y if y >= 0 else '(Tree.int (negsuc %d))' % (-y - 1)
        if y[0] == 'str': return '(Tree.str %s)' % lit(y[1])
        if y[0] == 'seq':
            out = 'Tree.end'
            for x in reversed(y[1]): out = '(Tree.◌▸◌ %s %s)' % (go(x), out)
            return '(Tree.seq %s)' % out
        out = 'Tree.done'
        for k, v in reversed(y[1]): out = '(Tree.pair %s %s %s)' % (lit(k), go(v), out)
        return '(Tree.dict %s)' % out
    return go(y)


def core_name(t):
    if t in NULLS: return 'to_null tt'
    if t in TRUES: return 'to_true tt'
    if t in FALSES: return 'to_false tt'
    if R_INT.match(t): return 'to_decimal tt'
    if R_OCT.match(t): return 'to_octal tt'
    if R_HEX.match(t): return 'to_hex tt'
    if R_FLOAT.match(t) or R_INF.match(t): return 'to_float tt tt'
    return 'to_str tt'


def flow_term(d):
    k = d[0]
    if k == 'plain': return '(f_plain (is_plain_lem %s %s tt) (%s))' % ('flow_' + d[3], lit(d[1]), core_name(d[1]))
    if k == 'double':
        out = 'd_end'
        for p in reversed(d[3]):
            if p[0] == 'char': out = '(d_char tt %s)' % out
            else: out = '(d_escaped %s %s)' % ({ord('n'): 'esc_n', ord('t'): 'esc_t', ord('r'): 'esc_r', ord('0'): 'esc_0', 0x22: 'esc_quote', 0x5c: 'esc_back', 0x2f: 'esc_slash'}[p[1]], out)
        return '(f_quoted (q_double {t = %s} {v = %s} %s refl))' % (lit(d[1][1:-1]), lit(d[2][1]), out)
    if k == 'single':
        out = 's_end'
        for p in reversed(d[3]): out = '(%s)' % ('s_char tt ' + out if p[0] == 'char' else 's_twice ' + out)
        return '(f_quoted (q_single {t = %s} {v = %s} %s refl))' % (lit(d[1][1:-1]), lit(d[2][1]), out)
    first, parts = d[3]
    pre = 's' if k == 'seq' else 'F.m'
    out = None
    for p in reversed(parts):
        if p[0] == 'close': out = '(%s_close refl)' % pre
        elif p[0] == 'last': out = '(%s_last %d %s refl)' % (pre, p[2], flow_term(p[1]) if k == 'seq' else pair_term(p[1]))
        else: out = '(%s_more %d %d %s %s refl)' % (pre, p[2], p[3], flow_term(p[1]) if k == 'seq' else pair_term(p[1]), out)
    return '(f_%s %d %s refl)' % (k, first, out)


def pair_term(p):
    q = p[1]
    if p[0] == 'null': return '(p_null %d %s refl)' % (q[1], flow_term(q[0]))
    if p[0] == 'value': return '(p_value %d %d %s %s refl)' % (q[1], q[2], flow_term(q[0]), flow_term(q[3]))
    return '(p_adjacent %d %s tt %s refl)' % (q[1], flow_term(q[0]), flow_term(q[2]))


def row_term(r):
    if r[0] == 'node': return 'node %d %s %s %s' % (r[1], lit(r[2]), lit(r[3]), r[4])
    if r[0] == 'note': return 'note %s %s' % (lit(r[1]), r[2])
    if r[0] == 'body': return 'body %d %s %s' % (r[1], lit(r[2]), r[3])
    return 'blank %d %s' % (r[1], r[2])


def rows_list(rows): return ''.join('%s ∷ ' % ('(%s)' % row_term(r)) for r in rows) + '[]'


def rows_term(rows):
    """rows as a part of all rows of the text, from a place on; a row behind a dash is not among them"""
    name, every = rows_term.text
    for k in range(len(rows)):
        for a in range(len(every)):
            if every[a:a + len(rows) - k] == rows[k:]:
                return '(%s%s_from %d %d)' % (''.join('(%s) ∷ ' % row_term(r) for r in rows[:k]), name, a, len(rows) - k)
    return '(%s)' % rows_list(rows) if rows else '[]'


def comments_term(cs):
    out = 'c_end'
    for c in cs: out = '(c_more tt %s)' % out
    return out


def trail_term(trail):
    out = 't_none'
    after = [t for t in trail if t[0] == 'after']
    for t in reversed(trail):
        if t[0] == 'comment':
            k = indent_of(t[1])
            out = '(t_comment %d %s (omega arith) tt %s refl)' % (k, lit(t[1][k + 1:]), comments_term(after))
        elif t[0] == 'blank': out = '(t_blank %d (omega arith) %s refl)' % (len(t[1]), out)
    return out


def literal_term(d):
    l = d['lit']
    if l['k'] == 'l_nothing': return '(l_nothing %d %s)' % (l['m'], trail_term(l['trail']))
    out = None
    for bl, t, b in reversed(l['lines']):
        bs = 'l_none'
        for k, _ in reversed(bl): bs = '(l_empty {k = %d} (omega arith) %s)' % (k, bs)
        blanks = [('blank', k, c) for k, c in bl]
        mine = blanks + [('body', l['m'], t, b)]
        one = '(l_text {bs = %s} %s %s tt tt refl refl)' % (rows_term(blanks), lit(t), bs)
        out, rest = ('(l_last %s)' % one, mine) if out is None else ('(l_next {xs = %s} {ys = %s} %s %s refl refl)' % (rows_term(mine), rows_term(rest), one, out), mine + rest)
    return '(l_lines {xs = %s} {ys = %s} {m = %d} (omega arith) %s tt %s refl refl)' % (rows_term(rest), rows_term([('note', t[1], t[2]) for t in l['trail']]), l['m'], out, trail_term(l['trail']))


def key_term(d): return '(key %s %s tt refl tt)' % (lit(d['keyd'][1]), flow_term(d['keyd'][0]))


def pairs_term(es):
    out = None
    for e in reversed(es):
        out, rest = ('(B.m_last %s)' % term(e), e['rows']) if out is None else ('(B.m_more {xs = %s} {ys = %s} %s %s refl)' % (rows_term(e['rows']), rows_term(rest), term(e), out), e['rows'] + rest)
    return out


def term(d):
    k = d['k']
    cs = comments_term(d['cs']) if 'cs' in d else None
    if k == 'b_seq':
        out = None
        for e in reversed(d['items']):
            out, rest = ('(i_last %s)' % term(e), e['rows']) if out is None else ('(i_more {xs = %s} {ys = %s} %s %s refl)' % (rows_term(e['rows']), rows_term(rest), term(e), out), e['rows'] + rest)
        return '(b_seq %s)' % out
    if k == 'b_map': return '(b_map %s)' % pairs_term(d['es'])
    if k == 'b_flow': return '(b_flow %s tt %s refl)' % (flow_term(d['flow']), cs)
    if k == 'i_flow': return '(i_flow %s tt %s tt %s refl)' % (lit(d['x']), flow_term(d['flow']), cs)
    if k == 'i_null': return '(i_null tt %s refl)' % cs
    if k == 'i_block': return '(i_block {m = %d} {k = %d} {cs = %s} {xs = %s} tt %s (omega arith) %s refl)' % (d['rows'][0][1], d['block']['rows'][0][1], rows_term(d['cs']), rows_term(d['block']['rows']), cs, term(d['block']))
    if k == 'i_map': return '(i_map {t = %s} %d refl %s refl)' % (lit(d['inner'][0][2]), d['j'], pairs_term(d['es']))
    if k == 'e_flow': return '(e_flow %s %s tt %s tt %s refl)' % (lit(d['x']), key_term(d), flow_term(d['flow']), cs)
    if k == 'e_null': return '(e_null %s tt %s refl)' % (key_term(d), cs)
    if k == 'e_block': return '(e_block {n = %d} {m = %d} {cs = %s} {xs = %s} %s tt %s (omega arith) %s refl)' % (d['rows'][0][1], d['block']['rows'][0][1], rows_term(d['cs']), rows_term(d['block']['rows']), key_term(d), cs, term(d['block']))
    if k == 'e_literal': return '(e_literal {n = %d} %s %s %s tt tt %s refl)' % (d['rows'][0][1], lit(d['x']), d['chomp'], key_term(d), literal_term(d))
    if k == 'd_none': return '(d_none %s)' % comments_term(d['rows'])
    return '(d_one {cs = %s} {xs = %s} {m = %d} %s %s refl)' % (rows_term(d['cs']), rows_term(d['block']['rows']), d['block']['rows'][0][1], cs, term(d['block']))


def kept_flow(d):
    if d[0] == 'plain': return '(refl, tt)'
    if d[0] in ('double', 'single'): return 'tt'
    out = 'tt'
    one = kept_flow if d[0] == 'seq' else kept_pair
    for i, p in enumerate(reversed(d[3][1])):
        if p[0] == 'last': out = one(p[1])
        elif p[0] == 'more': out = '(%s, %s)' % (one(p[1]), out)
    return out


def kept_pair(p):
    if p[0] == 'null': return kept_flow(p[1][0])
    return '(%s, %s)' % (kept_flow(p[1][0]), kept_flow(p[1][-1]))


def kept_many(xs):
    out = None
    for x in reversed(xs): out = kept_term(x) if out is None else '(%s, %s)' % (kept_term(x), out)
    return out


def kept_term(d):
    k = d['k']
    if k == 'd_none': return 'tt'
    if k == 'd_one': return kept_term(d['block'])
    if k == 'b_seq': return kept_many(d['items'])
    if k in ('b_map', 'i_map'): return kept_many(d['es'])
    if k == 'b_flow': return '(%s, refl, refl)' % kept_flow(d['flow'])
    if k == 'i_flow': return '(%s, refl)' % kept_flow(d['flow'])
    if k == 'i_null': return 'tt'
    if k == 'i_block': return kept_term(d['block'])
    key = '(%s, refl)' % kept_flow(d['keyd'][0])
    if k == 'e_flow': return '(%s, refl, %s)' % (key, kept_flow(d['flow']))
    if k == 'e_null': return '(%s, refl)' % key
    if k == 'e_block': return '(%s, refl, %s)' % (key, kept_term(d['block']))
    return '(%s, refl, tt)' % key


def rows_kept_term(rows):
    """one proof for each row, by the states of `KeptRows`"""
    out = []
    d, gap = None, False
    for row in rows:
        s = raw(row)
        if row[0] == 'node':
            if d is not None and row[1] > d: out.append('(refl, %s)')
            elif gap: out.append('(omega arith, refl, %s)')
            else: out.append('(refl, %s)')
            if not (d is not None and row[1] > d): d, gap = (row[1], False) if opens(row[2]) else (None, False)
        elif row[0] == 'note':
            if d is None: out.append('(refl, %s)')
            elif all_white(s): gap = True
            else:
                out.append('(omega arith, refl, %s)')
                d, gap = None, False
        elif row[0] == 'body' and d is None:
            k = indent_of(row[2])
            out.append('((refl, refl), refl, refl, %s)')
            d, gap = (row[1] + k, False) if opens(row[2][k:]) else (None, False)
        elif row[0] == 'body':
            out.append('(omega arith, (refl, refl), %s)')
            gap = False
        else: gap = True
    t = 'tt'
    for o in reversed(out): t = o % t
    return t


def wrapped(text, width=150):
    """with no line longer than this, where a space outside of a string literal allows it"""
    out = []
    for line in text.split('\n'):
        words, quoted = [''], False
        for i, c in enumerate(line):
            if c == '"' and (i == 0 or line[i - 1] != '\\'): quoted = not quoted
            if c == ' ' and not quoted: words.append('')
            else: words[-1] += c
        now = words[0]
        for w in words[1:]:
            if len(now) + 1 + len(w) > width:
                out.append(now)
                now = '    ' + w
            else: now += ' ' + w
        out.append(now)
    return '\n'.join(out)


def example(name, text):
    d = derive(text)
    bad = broken(d)
    assert not bad, bad
    pts = name + '_text' if all(b < 0x80 for b in text) else '(' + ' ∷ '.join(str(ord(c)) for c in text.decode()) + ' ∷ [])'
    rep = 'none' if d['rep'] == 'none' else 'some ' + rep_term(d['rep'])
    rows_term.text = name, d['rows']
    return '''%(name)s_text : List ℕ
%(name)s_text = %(t)s

%(name)s_rows : List Row
%(name)s_rows = %(rows)s

-- so many of them from a place on
%(name)s_from : ℕ → ℕ → List Row
%(name)s_from a n = take n (drop a %(name)s_rows)

abbrev %(name)s_means : Option Rep
%(name)s_means = %(rep)s

%(name)s-is : Document %(name)s_rows %(name)s_means
unfolding %(name)s_rows %(name)s_from All-open
%(name)s-is = %(term)s

%(name)s : Stream %(name)s_text %(name)s_means
unfolding %(name)s_text %(name)s_rows All-open
%(name)s = record { rows = %(name)s_rows; is = refl; ends = tt; bare = tt; printable = record { points = %(pts)s; is = refl; are = tt }; document = %(name)s-is }

%(name)s-kept : Kept %(name)s
unfolding %(name)s %(name)s_rows %(name)s-is %(name)s_from All-open
%(name)s-kept = record { document = %(kept)s; lines = %(lines)s }

%(name)s-tree : tree_of %(name)s_means ≡ some %(tree)s
unfolding All-open
%(name)s-tree = refl
''' % dict(name=name, t=lit(text), rows=rows_list(d['rows']), rep=rep, term=term(d), pts=pts, kept=kept_term(d), lines=rows_kept_term(d['rows']), tree=tree_term(d['rep']))


if __name__ == '__main__':
    text = sys.stdin.buffer.read()
    print(wrapped(example(sys.argv[1], text)))
