#!/usr/bin/env python3
"""Counts in crates/*/src what docs/DESIGN-PASS.md lists, point by point: the forms of the older language.

python3 tools/design_places.py [POINT]
"""
import collections
import glob
import re
import sys


def functions(text):
    """Name, parameters, clauses and body of each function of a file."""
    for m in re.finditer(r'^( *)(?:pub(?:\([a-z]+\))? )?(?:extern "C" )?fn (\w+)(?:<(?:->|[^<>]|<[^<>]*>)*>)?\(', text, re.M):
        depth, i = 1, m.end()
        while depth:
            depth += {'(': 1, ')': -1}.get(text[i], 0)
            i += 1
        params = text[m.end():i - 1]
        open_at = re.compile(r'\n' + m.group(1) + r'\{\n|[^\n]* \{\n|;\n').search(text, i)
        if not open_at or open_at[0].startswith(';'):
            continue
        end = text.find('\n' + m.group(1) + '}', open_at.end() - 1)
        yield m.group(2), params, text[i:open_at.start()], text[open_at.end():end + 1]


def bare(code):
    return re.sub(r'//[^\n]*|"(?:\\.|[^"\\])*"', lambda x: '' if x[0][0] == '/' else '""', code)


def shape(code):
    """Code without its names, numbers and texts."""
    code = re.sub(r'\b(?!if|else|while|for|in|let|mut|return|match|true|false|loop|break)[A-Za-z_]\w*\b', 'x', bare(code))
    return re.sub(r'\s+', '', re.sub(r'\b\d\w*\b', '0', code))


def clauses(text):
    for m in re.finditer(r'\b(requires|ensures)\b[^{]*\{', text):
        depth, i = 1, m.end()
        while depth:
            depth += {'{': 1, '}': -1}.get(text[i], 0)
            i += 1
        yield m.group(1), re.sub(r'\s+', ' ', text[m.end():i - 1]).strip()


def parts(clause):
    """The conjuncts of a clause."""
    depth, start = 0, 0
    for i, c in enumerate(clause):
        depth += {'(': 1, ')': -1}.get(c, 0)
        if c == '×' and not depth:
            yield from parts(clause[start:i].strip())
            start = i + 1
    rest = clause[start:].strip()
    if rest.startswith('(') and rest.endswith(')'):
        inner, depth, whole = rest[1:-1], 0, True
        for c in inner:
            depth += {'(': 1, ')': -1}.get(c, 0)
            whole = whole and depth >= 0
        if whole:
            yield from parts(inner)
            return
    if rest:
        yield rest


def main():
    wanted = sys.argv[1:]
    files = {f: open(f).read() for f in sorted(glob.glob('crates/*/src/**/*.rt', recursive=True))}
    every = [(f.split('/')[1], n, p, c, b) for f, t in files.items() for n, p, c, b in functions(t)]

    def show(point, title, rows):
        if not wanted or point in wanted:
            print(f'{point}: {title}: {len(rows)}')
            for r in rows:
                print('   ', r)

    show('1', 'enums', [f'{f.split("/")[1]}::{m[1]}' for f, t in files.items() for m in re.finditer(r'^\s*(?:pub )?enum (\w+)', t, re.M)])
    show('1', 'flags in fields and parameters', [f'{f.split("/")[1]}: {m[0].strip()}' for f, t in files.items()
                                                for m in re.finditer(r'\b\w+: bool\b', bare(t))])
    groups = collections.defaultdict(list)
    for crate, n, p, c, b in every:
        if b.count('\n') > 1:
            groups[shape(b)].append(f'{crate}::{n}')
    show('2', 'bodies of one shape', [' '.join(g) for g in groups.values() if len(g) > 1])
    show('3', 'while and loop', [f'{crate}::{n} {k}' for crate, n, p, c, b in every
                                 if (k := len(re.findall(r'^\s*(?:while|loop)\b', bare(b), re.M)))])
    show('4', 'casts', [f'{crate}::{n} {k}' for crate, n, p, c, b in every
                        if (k := len(re.findall(r'\bas (?:[ui](?:8|16|32|64)|usize)\b', bare(b))))])
    facts = collections.Counter(x for _, n, p, c, b in every for kind, t in clauses(c) if kind == 'requires' for x in set(parts(t)))
    show('5', 'facts in three or more contracts', [f'{k} {x}' for x, k in facts.most_common() if k > 2])
    runs = collections.Counter()
    for _, n, p, c, b in every:
        ps = [re.sub(r'\s+', ' ', x).strip() for x in re.split(r',\s*', p) if ':' in x]
        for i in range(len(ps)):
            for j in range(i + 2, len(ps) + 1):
                runs[', '.join(ps[i:j])] += 1
    longest = [(x, k) for x, k in runs.most_common() if k > 4 and not any(x in y and k <= j + 1 for y, j in runs.items() if x != y)]
    show('5', 'parameters side by side in five or more functions', [f'{k} {x}' for x, k in longest])
    show('6', 'arrays', [f'{f.split("/")[1]}: {m[0].strip()}' for f, t in files.items()
                         for m in re.finditer(r'[^\n]*\[[^\[\]\n]*; ?[A-Za-z0-9_:]+\][^\n]*', bare(t))])
    show('7', 'matches', [f'{crate}::{n} {k}' for crate, n, p, c, b in every
                          if (k := len(re.findall(r'\bmatch\b', bare(b))))])


main()
