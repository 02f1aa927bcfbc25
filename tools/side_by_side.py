#!/usr/bin/env python3
"""What changed between two commits, old and new side by side, as docs/DESIGN-PASS.md has it.

usage: python3 tools/side_by_side.py OLD NEW   at the top of the repository

Prints four tables, of the libraries alone: public functions with their clauses, public types and constants, impls of traits with what they promise, and
the definitions of specs/; then three lists of the lemmas of proofs/ that are gone from their crate under any spelling: those that stand in another crate
now, the others, and those that were private to their module. A row is left out where only white space changed."""
import re
import subprocess
import sys

PROGRAMS = {'replay', 'drumcheck', 'drumread', 'drumrecord', 'drumshow', 'replay_utf8'}
START = re.compile(r'( *)(?:abbrev pub|unfoldable pub|pub record|pub data|pub(?! mod)|abbrev|record|data|unfoldable) (?:abbrev |unfoldable )?(\S+)')
LEMMA = re.compile(r'( *)(?:(?:abbrev|unfoldable|pub|record|data) )*([^\s:({]+)(?: [^:]*)? :(?: |$)')


def git(*words):
    return subprocess.run(['git', *words], capture_output=True, text=True, check=True).stdout


def files(commit, pattern):
    for path in git('ls-tree', '-r', '--name-only', commit).split('\n'):
        found = re.fullmatch(pattern, path)
        if found and found.group(1) not in PROGRAMS:
            yield (*found.groups(), git('show', f'{commit}:{path}'))


def flat(text):
    return re.sub(r'\s+', ' ', text).strip().replace('|', '\\|')


def functions(commit):
    rows = {}
    for crate, text in files(commit, r'crates/([^/]+)/src/.*\.rt'):
        impls = [(m.start(), m.end(), None if ' for ' in m.group(1) else re.match(r'\w+', m.group(1)).group(0))
                 for m in re.finditer(r'^impl(?:<[^\n{]*?>)? ([^\n{]*?)\s*\{\n(.*?)^\}', text, re.S | re.M)]
        for m in re.finditer(r'^( *)pub (?:extern "C" )?fn (.*?)(?:\{$|^\1\{$)', text, re.S | re.M):
            clauses = re.sub(r', \)', ')', re.sub(r'\( ', '(', flat(m.group(2))))
            owner = next((n for a, b, n in impls if a <= m.start() < b and n), None)
            name = re.match(r'\w+', clauses).group(0)
            rows[f'{crate} {owner}::{name}' if owner else f'{crate} {name}'] = clauses
    return rows


def types(commit):
    rows = {}
    for crate, text in files(commit, r'crates/([^/]+)/src/.*\.rt'):
        text = re.sub(r'^\s*//.*\n', '', text, flags=re.M)
        for m in re.finditer(r'^((?:#\[[^\n]*\]\n)*)pub ((?:struct|enum|trait) (\w+)(?:[^\n]*;$|.*?^\}$)|(?:const|type) (\w+)[^\n]*;|const (\w+)[^;]*;)', text, re.S | re.M):
            rows[f'{crate} {m.group(3) or m.group(4) or m.group(5)}'] = flat(f'{m.group(1)}pub {m.group(2)}')
        for m in re.finditer(r'^impl(?:<[^\n{]*?>)? (\w+)[^\n{]*\{\n(.*?)^\}', text, re.S | re.M):
            for k in re.finditer(r'^    pub const (\w+).*?;$', m.group(2), re.S | re.M):
                rows[f'{crate} {m.group(1)}::{k.group(1)}'] = flat(k.group(0))
    return rows


def impls(commit):
    rows = {}
    for crate, text in files(commit, r'crates/([^/]+)/src/.*\.rt'):
        text = re.sub(r'^\s*//.*\n', '', text, flags=re.M)
        for m in re.finditer(r'^impl(?:<[^\n{]*?>)? ([^\n{]*? for [^\n{]*?)\s*\{\n(.*?)^\}', text, re.S | re.M):
            told = re.findall(r'^    ghost (?!use)[^\n]*;$|^    fn .*?(?= \{$|\n    \{$)', m.group(2), re.S | re.M)
            if told:
                rows[f'{crate} {flat(m.group(1))}'] = flat(' '.join(t if t.endswith(';') else t + ';' for t in told))
    return rows


def definitions(commit):
    rows = {}
    for crate, module, text in files(commit, r'crates/([^/]+)/specs/(.*)\.antt'):
        if module.endswith('Lib'):
            continue
        open_, blocks = None, []
        for line in text.split('\n'):
            if re.match(r'\s*--', line):
                continue
            if re.match(r'use |pub mod|module ', line):
                open_ = None
                continue
            begins = START.match(line)
            if begins and (open_ is None or len(begins.group(1)) <= open_[2]):
                open_ = (begins.group(2), [line], len(begins.group(1)))
                blocks.append(open_)
            elif open_:
                open_[1].append(line)
        rows.update({f'{crate}/{module} {name}': flat('\n'.join(lines)) for name, lines, _ in blocks})
    return rows


def lemmas(commit):
    rows = {}
    for crate, module, text in files(commit, r'crates/([^/]+)/proofs/(.*)\.antt'):
        if '/' in module and module.endswith(('Answers', 'Invariants')) or module.endswith('Lib'):
            continue
        depth = 0
        for line in text.split('\n'):
            indent = len(line) - len(line.lstrip(' '))
            if line.strip():
                depth = min(depth, indent)
            if re.match(r' *module .* where$', line):
                depth = indent + 2
                continue
            found = LEMMA.match(line)
            public = re.match(r' *(?:\w+ )*?pub ', line) is not None
            if found and (public or indent == depth) and found.group(2) not in ('use', 'unfolding', '--', 'module'):
                rows.setdefault(crate, {}).setdefault(found.group(2), (module, public))
    return rows


def table(title, old, new):
    print(f'| {title} | Old | New |\n|---|---|---|')
    for name in sorted(set(old) | set(new)):
        before, now = old.get(name), new.get(name)
        if before != now:
            print(f"| {name} | {f'`{before}`' if before else '(new)'} | {f'`{now}`' if now else '(gone)'} |")
    print()


def spelled(name):
    return name.replace('-', '_')


def listed(title, rows):
    print(title)
    for crate in sorted(rows):
        print(f'- **{crate}.** ' + '; '.join(f'`{module}`: ' + ', '.join(names) for module, names in sorted(rows[crate].items())) + '.')
    print()


def gone(old, new):
    homes = {}
    for crate in new:
        for name in new[crate]:
            homes.setdefault(spelled(name), []).append(crate)
    moved, lost, private = {}, {}, {}
    for crate in old:
        for name, (module, public) in sorted(old[crate].items()):
            home = homes.get(spelled(name), [])
            if crate in home:
                continue
            rows = private if not public else moved if home else lost
            told = f'`{name}`' + (f" ({', '.join(sorted(home))})" if public and home else '')
            rows.setdefault(crate, {}).setdefault(module, []).append(told)
    listed('Gone from their crate, of a name that stands in another:', moved)
    listed('Gone:', lost)
    listed('Gone, private to their module:', private)


if __name__ == '__main__':
    if len(sys.argv) != 3:
        sys.exit(__doc__)
    before, now = sys.argv[1:]
    table('Function', functions(before), functions(now))
    table('Type', types(before), types(now))
    table('Impl', impls(before), impls(now))
    table('Definition', definitions(before), definitions(now))
    gone(lemmas(before), lemmas(now))
