#!/usr/bin/env python3
"""Counts, in the sources of the crates (crates/*/src), the places that docs/DESIGN-PASS.md speaks of. Run at the top of the repository:

    python3 tools/design_counts.py [--places]

With --places each place is printed, not their number alone.
"""
import glob
import itertools
import re
import sys
from collections import defaultdict

show = '--places' in sys.argv
files = sorted(glob.glob('crates/*/src/**/*.rt', recursive=True))
text = {f: open(f, encoding='utf-8').read() for f in files}
lines = [(f, n + 1, line) for f in files for n, line in enumerate(text[f].split('\n'))]


def told(what, places):
    print(f'{len(places):4}  {what}')
    if show:
        for place in places:
            print('        ' + place)


def matching(pattern):
    return [f'{f}:{n}: {line.strip()}' for f, n, line in lines if re.search(pattern, line)]


def functions():
    """Name, file, parameters and result of each function."""
    for f in files:
        for m in re.finditer(r'\bfn (\w+)(<[^>]*>)?\(([^{}]*?)\)( -> ([^\n{]+))?\n?', text[f]):
            parameters = [p.strip() for p in re.split(r',\s*(?![^<(]*[>)])', m.group(3)) if p.strip()]
            yield m.group(1), f, parameters, m.group(5) or ''


# 1
enums = []
for f in files:
    for m in re.finditer(r'enum (\w+) \{(.*?)\n\}', text[f], re.S):
        if re.search(r'^\s+(Refused|None|Failed|Found|Done|Taken)\b', m.group(2), re.M):
            enums.append(f'{f}: {m.group(1)}')
told('1  enums with a case Refused, None or Failed beside a value', enums)
told('1  numbers that stand for kinds (constants)', matching(r'const (HEAD|BLOCK|NOTE|END|MEAN|LAST|PAIR): (usize|u64)'))
told('1  results that are a place, or a number of cells where there is none',
     matching(r'or the number of (cells|weights) where (there is none|none does)'))
told('1  structs of an answer and what goes with it', matching(r'struct (Located|Found|Heard|Split) '))
# 2
where = defaultdict(list)
for name, f, parameters, result in functions():
    if name != 'main' and '&impl Print' not in ' '.join(parameters):
        where[name].append(f'{f} {name}({", ".join(parameters)})')
told('2  names of functions that stand in more than one place, programs\' printing aside',
     [name + ': ' + '; '.join(p.split('/')[1] for p in places) for name, places in sorted(where.items()) if len(places) > 1])
told('2  functions of one crate whose names differ in a size', matching(r'\bfn \w+_(two|four|eight|sixteen|thirty_two|16|32|64)\b'))
told('2  rooms of a fixed size, each in a branch of its own', matching(r'= \[0i64; (SMALL|MIDDLE|BlockKind::LARGEST|\w*LINES|\w*QUARTER|\d+)\]'))
# 3
told('3  loops by `while` or `loop`', matching(r'^\s*(while|loop)\b'))
# 4
told('4  comparisons, copies and conversions by hand',
     matching(r'\bfn (magnitude|larger|smaller|louder|copy|exchange|put|signed_entry|negated_entry|signed|negated|wide|signed_of_word|word_of_signed|'
              r'signed_of_16|unsigned_16|unsigned_64|put_16|put_32|put_64|print_unsigned|print_signed|print_refusal|print_text|passed_as)\('))
# 5
pairs = defaultdict(set)
for name, f, parameters, result in functions():
    plain = [p for p in parameters if ':' in p and not p.startswith('rt:')]
    for a, b in itertools.combinations(plain, 2):
        pairs[(a, b)].add(f'{f.split("/")[1]}::{name}')
told('5  pairs of parameters of one name and type that five functions or more take',
     [f'{a} + {b}: {len(fs)} ({", ".join(sorted(fs))})' for (a, b), fs in sorted(pairs.items(), key=lambda x: -len(x[1])) if len(fs) >= 5])
# 6
told('6  lent bytes or cells with a number of cells beside them',
     [f'{f.split("/")[1]}::{name}' for name, f, parameters, result in functions()
      if any(re.search(r': &(mut )?\[(u8|i64)\]', p) for p in parameters) and any(re.match(r'(count|lines|len|samples): usize', p) for p in parameters)])
# 7
told('7  a parameter that says which step to run', [f'{f.split("/")[1]}::{name}' for name, f, parameters, result in functions()
      if any(re.match(r'which: ', p) for p in parameters)])
