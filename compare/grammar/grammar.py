"""The grammar of the crate `yaml`, as a generator of random derivations, and its conditions `kept`, function by function as in antt.
All texts are bytes."""
import random

SP, TAB = 0x20, 0x09
INDICATORS = b"-?:,[]{}#&*!|>'\"%@`"
FLOW_INDICATORS = b",[]{}"

# ---- definitions of the reader that the conditions speak of (White, Lines, Key)
WHITE = ['\t', '\n', '\x0b', '\x0c', '\r', ' ', '\x85', '\xa0', '\u1680'] + [chr(c) for c in range(0x2000, 0x200b)] + ['\u2028', '\u2029', '\u202f', '\u205f', '\u3000']
WS = ''.join(WHITE)


def trim_start(s): return s.decode('utf-8', 'surrogateescape').lstrip(WS).encode('utf-8', 'surrogateescape')
def trim_end(s): return s.decode('utf-8', 'surrogateescape').rstrip(WS).encode('utf-8', 'surrogateescape')
def trim(s): return trim_end(trim_start(s))
def all_white(s): return trim_start(s) == b''
def indent_of(s): return len(s) - len(s.lstrip(b' '))
def tabbed(s): return b'\t' in s[:len(s) - len(trim_start(s))]


def strip_comment(s):
    p = 'fresh'
    for i, b in enumerate(s):
        if p == 'fresh' and b == 0x23:
            return s[:i]
        if p in ('fresh', 'plain'):
            p = 'fresh' if b == SP else 'single' if b == 0x27 else 'double' if b == 0x22 else 'plain'
        elif p == 'single':
            p = 'plain' if b == 0x27 else 'single'
        elif p == 'double':
            p = 'plain' if b == 0x22 else 'hidden' if b == 0x5c else 'double'
        else:
            p = 'double'
    return s


def significant(raw): return trim_end(strip_comment(raw[indent_of(raw):]))


def key_end(s):
    q, depth = 0, 0
    for i, b in enumerate(s):
        if q == 0 and b == 0x3a and depth == 0 and (i + 1 == len(s) or s[i + 1] == SP):
            return i
        if q == 0:
            if b in b"'\"": q = b
            elif b in b'{[': depth += 1
            elif b in b'}]': depth = max(0, depth - 1)
        elif b == q:
            q = 0
    return None


# ---- characters
def ns_char(b): return b > 0x20 and b != 0x7f
def nb_char(b): return b == TAB or b >= 0x20
def plain_safe(ctx, b): return ns_char(b) and not (ctx == 'in' and b in FLOW_INDICATORS)
def safe_next(ctx, s): return len(s) > 0 and plain_safe(ctx, s[0])
def plain_first(ctx, b, s): return (ns_char(b) and b not in INDICATORS) or (b in b'?:-' and safe_next(ctx, s))
def plain_char(ctx, a, b, s):
    return (plain_safe(ctx, b) and b not in b':#') or (b == 0x23 and ns_char(a)) or (b == 0x3a and safe_next(ctx, s))


def is_plain(ctx, t):
    if not t or not plain_first(ctx, t[0], t[1:]) or t[-1] in b' \t':
        return False
    a = t[0]
    for i in range(1, len(t)):
        b = t[i]
        if b not in b' \t' and not plain_char(ctx, a, b, t[i + 1:]):
            return False
        a = b
    return True


# ---- the core schema (10.3.2)
import re
R_INT = re.compile(rb'[-+]?[0-9]+\Z')
R_JSON = re.compile(rb'-?(0|[1-9][0-9]*)\Z')
R_OCT = re.compile(rb'0o[0-7]+\Z')
R_HEX = re.compile(rb'0x[0-9a-fA-F]+\Z')
R_FLOAT = re.compile(rb'[-+]?(\.[0-9]+|[0-9]+(\.[0-9]*)?)([eE][-+]?[0-9]+)?\Z')
R_INF = re.compile(rb'[-+]?\.(inf|Inf|INF)\Z|\.(nan|NaN|NAN)\Z')
NULLS = [b'', b'~', b'null', b'Null', b'NULL']
TRUES = [b'true', b'True', b'TRUE']
FALSES = [b'false', b'False', b'FALSE']


def core(t):
    """the representation, and the conditions that it breaks"""
    if t in NULLS: return None, []
    if t in TRUES: return True, []
    if t in FALSES: return False, []
    if R_INT.match(t): return int(t), [] if R_JSON.match(t) else ['zero-or-plus']
    if R_OCT.match(t): return int(t[2:], 8), ['octal']
    if R_HEX.match(t): return int(t[2:], 16), ['hexadecimal']
    if R_FLOAT.match(t) or R_INF.match(t): return ('float', t), []
    return ('str', t), []


# ---- as_yaml
class NoYaml(Exception):
    pass


def key_text(r):
    if r is True: return b'true'
    if r is False: return b'false'
    if isinstance(r, int): return str(as_yaml(r)).encode()
    if isinstance(r, tuple) and r[0] == 'str': return r[1]
    raise NoYaml('key')


def as_yaml(r):
    if r is None or r is True or r is False: return r
    if isinstance(r, int):
        if not -2 ** 63 <= r < 2 ** 63: raise NoYaml('wide')
        return r
    if r[0] == 'alias': raise NoYaml('alias')
    if r[0] == 'float': raise NoYaml('float')
    if r[0] == 'str': return r
    if r[0] == 'seq': return ('seq', [as_yaml(x) for x in r[1]])
    es = [(key_text(k), as_yaml(v)) for k, v in r[1]]
    if len({k for k, _ in es}) < len(es): raise NoYaml('twice')
    return ('map', es)


def item(kind, c): return len(c).to_bytes(4, 'little') + kind.to_bytes(2, 'little') + c


def encode(y):
    if y is None: return item(0, b'')
    if y is True or y is False: return item(1, bytes([y]))
    if isinstance(y, int): return item(2, (y % 2 ** 64).to_bytes(8, 'little'))
    if y[0] == 'str': return item(3, y[1])
    if y[0] == 'seq': return item(4, b''.join(encode(x) for x in y[1]))
    return item(5, b''.join(item(3, k) + encode(v) for k, v in y[1]))


def levels(y):
    if isinstance(y, tuple) and y[0] == 'seq': return 1 + max([levels(x) for x in y[1]], default=0)
    if isinstance(y, tuple) and y[0] == 'map': return 1 + max([levels(v) for _, v in y[1]], default=0)
    return 0


# ---- rows
BREAKS = {'lf': b'\n', 'crlf': b'\r\n', 'eof': b''}


def raw(row):
    if row[0] == 'node': return b' ' * row[1] + row[2] + row[3]
    if row[0] == 'note': return row[1]
    if row[0] == 'body': return b' ' * row[1] + row[2]
    return b' ' * row[1]


def text_of(rows): return b''.join(raw(r) + BREAKS[r[-1]] for r in rows)


# ---- the condition on rows: the lines that section 1 of document 01 finds are those of the grammar
def opens(c): return c.endswith(b': |') or c.endswith(b': |-')


def kept_rows(rows):
    """the broken conditions, in the order of the rows; the states are closed (None), under d, gap d"""
    bad = []
    d, gap = None, False
    for row in rows:
        s = raw(row)
        if row[0] == 'node':
            _, i, c, w, _ = row
            if d is not None and i > d:
                if gap: bad.append('blank-in-region')
                if trim_end(c + w) != c: bad.append('tail-in-region')
            else:
                if trim_end(strip_comment(c + w)) != c: bad.append('comment-cut')
                d, gap = (i, False) if opens(c) else (None, False)
        elif row[0] == 'note':
            if d is not None:
                if all_white(s): gap = True
                else:
                    if indent_of(s) > d: bad.append('deep-comment-behind-literal')
                    if tabbed(s): bad.append('tab')
                    d, gap = None, False
            elif tabbed(s): bad.append('tab')
        elif row[0] == 'body':
            t = row[2]
            if trim_end(t) != t: bad.append('body-end')
            if tabbed(s): bad.append('tab-in-body')
            if d is None:
                k = indent_of(t)
                if strip_comment(t[k:]) != t[k:]: bad.append('comment-in-closed-body')
                if t[k:] in (b'---', b'...'): bad.append('marker-in-closed-body')
                d, gap = (row[1] + k, False) if opens(t[k:]) else (None, False)
            else:
                if row[1] <= d: bad.append('body-not-deeper')
                gap = False
        elif d is None: bad.append('blank-in-closed-body')
        else: gap = True
    return bad


def counted(rows): return sum(r[0] != 'note' for r in rows)


# ---- random derivations
WORDS = [b'a', b'b', b'c', b'x', b'k', b'strike', b'noon', b'wait', b'name', b'steps', b"it's", b"don't", b'a#b', b'#b', b'x:y', b'http://x/y?z=1', b'5', b'-3', b'+5', b'007', b'-0',
         b'true', b'True', b'false', b'null', b'~', b'1.5', b'0x1F', b'0o17', b'.inf', b'1e3', b'9223372036854775807', b'9223372036854775808', b'-9223372036854775808',
         b'\xc3\xa9', '日本'.encode(), b'\xc2\xa0a', b'a\xc2\xa0', b'a\xc2\xa0b', b'\xc2\x85', b'?a', b'-a', b':a', b'---', b'...', b'--- a', b'a b', b'a  b', b'a\tb', b'say "hi"', b'a[b', b'a{b}', b'b]',
         b'a,b', b'a|', b'|', b'a"', b"a'", b'x y z', b'key one', b'a\\b', b'\\', b'!a', b'a!', b'%a', b'a%', b'a@b', b'\xe2\x80\xa8', b'a:', b'a::b', b'-', b'?', b'*a', b'=', b'<<', b'12:30', b'2024-01-01', b'yes', b'no', b'0', b'00', b'+', b'--1', b'1_0', b'[', b'nul', b'x #y', b'a:b:c', b'\xf0\x9f\xa5\x81']
LETTERS = [bytes([c]) for c in b"ab19 :#'\"-?,[]{}|\\~.\t"] + [b'\xc2\xa0', b'\xc3\xa9', b'a', b' ', b'b']


class Gen:
    def __init__(self, rng, plainish=0.5):
        self.r = rng
        self.wild = rng.random() < 0.4      # edge cases
        self.notes = rng.choice([0, 0.1, 0.1, 0.4])
        self.left = rng.choice([4, 8, 12, 20, 40])
        self.crlf = rng.choice(['lf', 'lf', 'lf', 'crlf', 'mixed'])
        self.bad = []
        self.cov = set()
        self.lit = None

    def p(self, x): return self.r.random() < x

    def word(self):
        r = self.r
        if not self.wild and self.p(0.8):
            return r.choice([b'a', b'b', b'c', b'd', b'strike', b'noon', b'wait', b'name', b'steps', b'5', b'-3', b'true', b'null', b'x y', b"it's", b'key one', b'h\xc3\xa9', b'7', b'id', b'a#b', b'x:y', b'some plain words', b'e', b'f', b'g'])
        if self.p(0.6): return r.choice(WORDS)
        if self.p(0.3): return r.choice(WORDS) + r.choice([b' ', b'', b'-', b':']) + r.choice(WORDS)
        return b''.join(r.choice(LETTERS) for _ in range(r.randint(1, 6)))

    def plain(self, ctx):
        for _ in range(50):
            t = self.word()
            if is_plain(ctx, t): return t
        return b'z'

    def quoted(self):
        r = self.r
        k = r.randint(0, 5)
        if self.p(0.5):
            t, v = b'', b''
            for _ in range(k):
                if self.p(0.3 if self.wild else 0.1):
                    e = r.choice(b'ntr0"\\/')
                    t += b'\\' + bytes([e])
                    v += {ord('n'): b'\n', ord('t'): b'\t', ord('r'): b'\r', ord('0'): b'\0'}.get(e, bytes([e]))
                else:
                    c = r.choice(LETTERS) if self.wild else r.choice([b'a', b'b', b' ', b'# ', b': ', b"'", b'[', b'1', b'\xc3\xa9'])
                    c = c.replace(b'"', b'').replace(b'\\', b'')
                    t += c
                    v += c
            return b'"' + t + b'"', v
        t, v = b'', b''
        for _ in range(k):
            c = r.choice(LETTERS) if self.wild else r.choice([b'a', b'b', b' ', b'# ', b': ', b"'", b'"', b'[', b'1', b'\xc3\xa9'])
            if c == b"'" and v[-1:] == b"'" and self.p(0.95): continue   # libfyaml misreads four quotes in a row
            t += c.replace(b"'", b"''")
            v += c
        return b"'" + t + b"'", v

    def scalar(self, ctx):
        """text, representation, is it json-like"""
        if self.p(0.3):
            t, v = self.quoted()
            self.cov.add('f-double' if t[:1] == b'"' else 'f-single')
            return t, ('str', v), True
        t = self.plain(ctx)
        if t in NULLS and self.p(0.7): t = b'n'
        self.cov.add('f-plain-' + ctx)
        if b"'" in t or b'"' in t: self.cov.add('plain with a quote')
        if b'#' in t: self.cov.add('plain with #')
        rep, bad = core(t)
        self.bad += bad
        if trim(t) != t: self.bad.append('plain-white')
        return t, rep, False

    def sp(self, least=0): return b' ' * (least + (self.r.choice([0, 0, 0, 1, 2]) if self.p(0.5) else 0))

    def white(self):
        """[66] behind its first space: spaces and tabs"""
        if self.wild and self.p(0.1): return self.r.choice([b'\t', b' \t', b'\t ', b'\t\t'])
        return self.sp()

    def flow(self, ctx, depth=3):
        self.left -= 1
        if depth == 0 or self.left <= 0 or self.p(0.6): return self.scalar(ctx)
        if self.p(0.5):
            self.cov.add('f-seq')
            out, reps = b'[' + self.sp(), []
            n = self.r.choice([0, 1, 1, 2, 3])
            for i in range(n):
                t, r, _ = self.flow('in', depth - 1)
                reps.append(r)
                out += t + self.sp()
                if i < n - 1 or self.p(0.15): out += b',' + (b' ' if not self.wild else b'') + self.sp()
            return out + b']', ('seq', reps), True
        self.cov.add('f-map')
        out, reps = b'{' + self.sp(), []
        n = self.r.choice([0, 1, 1, 2, 3])
        for i in range(n):
            t, k, json = self.scalar('in') if self.p(0.97) else self.flow('in', 1)
            kind = self.r.choice(['value', 'value', 'null', 'adjacent'])
            if kind == 'adjacent' and not json: kind = 'value'
            self.cov.add('p-' + kind)
            if kind == 'null':
                out += t + self.sp() + b':'
                v = None
            else:
                u, v, _ = self.flow('in', depth - 1)
                out += t + self.sp() + b':' + self.sp(1 if kind == 'value' else 0) + u
            reps.append((k, v))
            out += self.sp()
            if i < n - 1 or self.p(0.15): out += b',' + (b' ' if not self.wild else b'') + self.sp()
        return out + b'}', ('map', reps), True

    def comment_text(self):
        return b'#' + self.r.choice([b'', b' c', b' it\'s', b' a: b', b'#', b' "x', b' \xc3\xa9', b' c \t', b' - x', b' x: |', b'c'])

    def tail(self):
        """[77] without its break"""
        if self.p(self.notes):
            w = b' ' * self.r.randint(1, 3)
            if self.wild and self.p(0.2): w = self.r.choice([b'\t', b' \t', b'\t ', b'\t\t'])
            return w + self.comment_text()
        if self.wild and self.p(0.1): return self.r.choice([b' ', b'  ', b'\t', b' \t '])
        return b''

    def note(self):
        if self.p(0.5):
            w = self.r.choice([b'', b'', b' ', b'   '])
            if self.wild and self.p(0.1): w = self.r.choice([b'\t', b' \t'])
            return ('note', w)
        w = b' ' * self.r.choice([0, 0, 1, 2, 3, 4, 6])
        if self.wild and self.p(0.05): w += b'\t'
        return ('note', w + self.comment_text())

    def comments(self):
        rows = []
        while self.p(self.notes) and len(rows) < 4: rows.append(self.note())
        return rows

    def key(self):
        """[193]: text with the white space before the colon, representation"""
        t, r, _ = self.scalar('out')
        if self.p(0.02): t, r, _ = self.flow('out', 2)
        if t[:1] == b'?': self.bad.append('question')
        return t + (self.r.choice([b' ', b'  ', b'\t', b' \t']) if self.p(0.06) else b''), r

    def literal(self, n):
        """rows behind the header, the lines' text; m is the content's indentation"""
        r = self.r
        if self.p(0.08):
            rows = []
            blanks = [('note', b' ' * r.randint(0, n + 2)) for _ in range(r.choice([0, 0, 0, 1, 2]))] if self.p(self.notes + 0.1) else []
            trail = []
            if self.p(self.notes):
                trail = [('note', b' ' * r.randint(0, n) + self.comment_text())] + self.comments()
            return rows + blanks + trail, None
        m = n + r.choice([1, 2, 2, 2, 4])
        rows = []
        body = []
        count = r.choice([1, 1, 2, 3, 5])
        for j in range(count):
            if self.p(0.2):
                for _ in range(r.randint(1, 2)):
                    rows.append(('blank', r.choice([0, 0, m, r.randint(0, m)])))
                    body.append(b'')
            while True:
                t = r.choice([b'x', b'y z', b'# no comment', b'- a', b'k: v', b'k: |', b"it's", b'"', b'---', b'  deeper', b' one', b'    x: 1', b'a # b', b'\xc3\xa9', b'[', b'a:', b'\xe3\x80\x80x'] if not self.wild else WORDS + [b'x ', b'  x', b' ', b'   ', b'\t', b'\tx', b' \tx', b'x\t', b'x\xc2\xa0', b'# c', b'\xc2\xa0', b' #c'])
                if j == 0 and t[:1] == b' ': continue
                if j == 0 and t.strip(b' ') == b'': continue
                break
            rows.append(('body', m, t))
            body.append(t)
        blanks = [('note', b' ' * r.choice([0, 0, m, r.randint(0, m)])) for _ in range(r.choice([0, 1, 2]))] if self.p(0.3) else []
        trail = []
        if self.p(self.notes):
            trail = [('note', b' ' * r.choice([0, n, n, r.randint(0, m - 1)]) + self.comment_text())] + self.comments()
        return rows + blanks + trail, body

    def entry(self, n, depth):
        """[188]: first content, tail, the rows behind, key, value"""
        self.left -= 1
        k, kr = self.key()
        kind = self.r.choice(['flow', 'flow', 'null', 'block', 'block', 'literal'])
        if depth == 0 or self.left <= 0:
            kind = self.r.choice(['flow', 'flow', 'null', 'literal'])
        at = len(k)
        self.cov.add('e-' + kind)
        if kind == 'flow':
            t, v, _ = self.flow('out')
            c = k + b': ' + self.white() + t
            w = self.tail()
            rest = self.comments()
        elif kind == 'null':
            c, v = k + b':', None
            w = self.tail()
            rest = self.comments()
        elif kind == 'block':
            c = k + b':'
            w = self.tail()
            rows, v = self.block(n + self.r.choice([1, 2, 2, 2, 2, 3, 4]), depth - 1)
            rest = self.comments() + rows
        else:
            chomp = self.r.choice([b'', b'', b'-'])
            gap = b' ' + self.white() if self.wild else b' '
            c = k + b':' + gap + b'|' + chomp
            w = self.tail()
            rest, body = self.literal(n)
            v = ['lit', body, chomp]
            self.cov.add('strip' if chomp else 'clip')
            if body is None: self.cov.add('empty literal')
            if any(r[0] == 'blank' for r in rest): self.cov.add('blank row in a literal')
            if body and any(x[:1] == b' ' for x in body): self.cov.add('deeper row in a literal')
            if any(r[0] == 'note' and b'#' in r[1] for r in rest): self.cov.add('comment behind a literal')
            self.lit = v
            if body is not None:
                v.append([i for i, r in enumerate(rest) if r[0] == 'body'][-1])
        if key_end(c) != at: self.bad.append('key-end')
        return c, w, rest, kr, v

    def entries(self, n, depth):
        c, w, rest, k, v = self.entry(n, depth)
        rows, es = [('node', n, c, w)] + rest, [(k, v)]
        while self.left > 0 and self.p(0.55):
            c, w, rest, k, v = self.entry(n, depth)
            rows += [('node', n, c, w)] + rest
            es.append((k, v))
        return rows, ('map', es)

    def item(self, m, depth):
        self.left -= 1
        kind = self.r.choice(['flow', 'flow', 'null', 'block', 'compact', 'compact'])
        if depth == 0 or self.left <= 0: kind = self.r.choice(['flow', 'null'])
        self.cov.add('i-' + kind)
        if kind == 'flow':
            t, v, _ = self.flow('out')
            if key_end(t) is not None: self.bad.append('key-found')
            return [('node', m, b'- ' + self.white() + t, self.tail())] + self.comments(), v
        if kind == 'null':
            return [('node', m, b'-', self.tail())] + self.comments(), None
        if kind == 'block':
            w, cs = self.tail(), self.comments()
            rows, v = self.block(m + self.r.choice([1, 2, 2, 2, 3]), depth - 1)
            return [('node', m, b'-', w)] + cs + rows, v
        s = self.sp(1)
        rows, v = self.entries(m + 1 + len(s), depth - 1)
        _, _, c, w = rows[0]
        if opens(c):
            self.cov.add('literal under a first key')
            if len(v[1]) > 1: self.cov.add('literal under a first key, more keys')
        return [('node', m, b'-' + s + c, w)] + rows[1:], v

    def block(self, m, depth):
        x = self.r.random()
        if x < (0.2 if depth < self.top else 0.04) or depth == 0:
            t, v, _ = self.flow('out')
            if key_end(t) is not None: self.bad.append('key-found')
            if t in (b'---', b'...'): self.bad.append('marker')
            self.cov.add('b-flow')
            return [('node', m, t, self.tail())] + self.comments(), v
        if x < 0.55:
            rows, reps = self.item(m, depth)
            reps = [reps]
            while self.left > 0 and self.p(0.55):
                more, v = self.item(m, depth)
                rows += more
                reps.append(v)
            return rows, ('seq', reps)
        return self.entries(m, depth)

    def document(self):
        """rows with breaks, the representation ('none' for an empty stream), the conditions broken; None if it is no document"""
        r = self.r
        rows = self.comments()
        if self.p(0.02):
            rep = 'none'
        else:
            self.top = r.choice([0, 1, 2, 2, 3, 3, 4, 4, 5, 6])
            more, rep = self.block(r.choice([0, 0, 0, 0, 0, 0, 1, 2, 3]), self.top)
            rows = rows + more
        def brk(): return r.choice(['lf', 'crlf']) if self.crlf == 'mixed' else self.crlf
        rows = [row + (brk(),) for row in rows]
        open_lit = None
        if rows and self.p(0.25):
            rows[-1] = rows[-1][:-1] + ('eof',)
            if rows[-1][0] == 'body': open_lit = self.lit
        for row in rows:   # [206]
            if row[0] == 'node' and row[1] == 0:
                s = raw(row)
                if s[:3] in (b'---', b'...') and (len(s) == 3 or s[3] in b' \t'): return None
        bad = list(self.bad)
        def done(v):
            if isinstance(v, list):   # a literal
                _, body, chomp = v[:3]
                if body is None: return ('str', b'')
                out = b'\n'.join(body)
                if chomp == b'': 
                    if v is open_lit: bad.append('clip-at-end')
                    else: out += b'\n'
                return ('str', out)
            if isinstance(v, tuple) and v[0] == 'seq': return ('seq', [done(x) for x in v[1]])
            if isinstance(v, tuple) and v[0] == 'map': return ('map', [(done(k), done(x)) for k, x in v[1]])
            return v
        rep = done(rep)
        bad += kept_rows(rows)
        if any(r[0] == 'node' and len(r[2]) > 900 for r in rows): return None
        if any(r[0] == 'node' and b'#' in r[3] for r in rows): self.cov.add('comment behind a node')
        if any(r[0] == 'note' for r in rows): self.cov.add('l-comment')
        self.cov |= {r[-1] for r in rows}
        return rows, rep, bad
