#!/usr/bin/env python3
"""Counts in crates/*/src the places of older forms, point by point: python3 tools/forms.py [--list] [CRATES-FOLDER]

Each row is a pattern over the source text without comments. What a pattern finds is a place to look at, not a fault."""
import glob, os, re, sys

ROOT = [a for a in sys.argv[1:] if not a.startswith('--')]
ROOT = ROOT[0] if ROOT else os.path.join(os.path.dirname(os.path.abspath(__file__)), '..', 'crates')
LIST = '--list' in sys.argv

FILES = {f[len(ROOT):].lstrip('/'): re.sub(r'//[^\n]*', '', open(f).read())
         for f in sorted(glob.glob(ROOT + '/*/src/**/*.rt', recursive=True))}


def grep(pattern):
    return [(f, m.group(0).strip().split('\n')[0]) for f, s in FILES.items() for m in re.finditer(pattern, s, re.M)]


def functions():
    for f, s in FILES.items():
        for m in re.finditer(r'\bfn (\w+)(?:<[^>]*>)?\(((?:[^()]|\([^()]*\))*)\)', s):
            parts = [p.strip() for p in re.split(r',(?![^\[]*\])', m.group(2)) if p.strip()]
            yield f, m.group(1), {p.split(':')[0].strip() for p in parts}, len(parts)


def together(*names):
    return [(f, n) for f, n, ps, _ in functions() if set(names) <= ps]


def long_lists(least):
    return [(f, f'{n}: {k}') for f, n, _, k in functions() if k >= least]


ROWS = [
    ('1 own enums', lambda: grep(r'^\s*(?:pub )?enum \w+')),
    ('1 flags in structs', lambda: grep(r'^\s+(?:pub )?\w+: bool,')),
    ('1 refusals and reasons as numbers', lambda: grep(r'\bfn \w*(?:refus|fault)\w*\((?:[^()]|\([^()]*\))*\) -> u32|refuse_unless\(|\b(?:refusal|reason): [ui]32|return (?:k2?|9|1\d|2\d);')),
    ('1 numbers that stand for none', lambda: grep(r'\bNO_NUMBER\b|[=!]= ROWS\b|return ROWS;|^\s*ROWS$|-> isize|^\s*-1$')),
    ('2 own minima, maxima and places', lambda: grep(r'\bfn (?:smaller|larger|highest|first_highest|first_equal|lower_bound)\(|if (\w+) (?:<=?) (\w+) \{ (?:\1 \} else \{ \2|\2 \} else \{ \1) \}')),
    ('2 twins of engine and tracker', lambda: [(f, n) for f, n, _, _ in functions() if f.split('/')[0] in ('engine', 'tracker') and f.split('/')[-1] in ('event.rt', 'victims.rt')]),
    ('3 while loops', lambda: grep(r'^\s*(?:\'\w+: )?while .*')),
    ('3 indices counted by hand', lambda: grep(r'^\s*(?:i|k|w|j|row|above|done|count|at|low|next)(?: \+= 1| -= 1| = \w+ [+-] 1);')),
    ('4 fields compared or copied one by one', lambda: grep(r'^\s*[(&|]+\s*\(?\w+\.\w+ == \w+\.\w+|^\s*\w+: (\w+)\.\w+,$')),
    ('5 rows, counts', lambda: together('rows', 'counts')),
    ('5 counts, marks', lambda: together('counts', 'marks')),
    ('5 out, at', lambda: together('out', 'at')),
    ('5 seven or more parameters', lambda: long_lists(7)),
    ('6 a slice with a length beside', lambda: [(f, n) for f, n, ps, _ in functions() if ps & {'used', 'len'} or {'list', 'count'} <= ps or {'picks', 'count'} <= ps or {'numbers', 'count'} <= ps or {'answers', 'count'} <= ps]),
    ('7 function pointers and switches on a step', lambda: grep(r'\bfn\(|\bdyn\b|\bmatch (?:op|step|what)\b|if op == \d')),
]

for name, find in ROWS:
    places = find()
    print(f'{len(places):5}  {name}')
    if LIST:
        for place in places:
            print('        ', *place)
