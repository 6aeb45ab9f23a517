#!/usr/bin/env python3
"""Lists the places in crates/*/src where an older form may stand, point by point; docs/DESIGN-PASS.md has the counts.

tools/places.py [POINT ..] [--at FOLDER]   points are 1 to 7; FOLDER is a checkout, this one if none is given
"""
import glob
import os
import re
import sys


FN = re.compile(r'^( *)(pub(\(crate\))? )?(final )?fn (\w+)')


def functions(text):
    """Each function with its line number, its signature with its clauses, and its body."""
    lines = text.split('\n')
    at = 0
    while at < len(lines):
        start = FN.match(lines[at])
        if not start:
            at += 1
            continue
        indent, end = start[1], at
        while end < len(lines) and lines[end] not in (indent + '}',) and not lines[end].rstrip().endswith(';'):
            end += 1
        body = at
        while body < end and lines[body] != indent + '{' and not lines[body].rstrip().endswith('{'):
            body += 1
        yield at + 1, start[5], '\n'.join(lines[at:body + 1]), '\n'.join(lines[body + 1:end])
        at = end + 1


def in_head(pattern):
    return lambda name, head, body: re.search(pattern, head, re.M)


def in_body(pattern):
    return lambda name, head, body: re.search(pattern, body, re.M)


def in_name(pattern):
    return lambda name, head, body: re.fullmatch(pattern, name)


# point, what is looked for, whether by functions or by lines, the test
LOOK = [
    (1, 'enums (by eye: the shape of Option or Result?)', 'line', r'^\s*(pub(\(crate\))? )?enum '),
    (1, 'an error handed on without `?`', 'line', r'take!\(|Err\((\w+)\) => (return )?Err\(\2?'),
    (1, 'an Option or Result taken apart to make another', 'fn', in_body(r'(Ok|Some)\(\w+\) => (Ok|Some)\(|None => (Err\(|Ok\(|false)|\(Some\(\w+\), Some\(\w+\)\) =>')),
    (1, 'a table of numbers', 'fn', in_body(r'=> \d+,$')),
    (1, 'a kind, an answer or nothing as a number', 'line', r'^    pub (letter|answer): u8|fn law_\w+\(\) -> u8'),
    (1, 'a flag or an outcome beside a value', 'line', r'-> \(\w+, (bool|Result)|^\s*let \(\w+, (has|is)_\w+\)'),
    (2, 'the limit of an input, and its test', 'line', r'65_53[67]|input\.len\(\) > LIMIT|const LIMIT'),
    (2, 'functions of one name in two types or files (by eye: twins?)', 'twins', None),
    (3, 'loops over an index, or by hand', 'line', r'^\s*(while |loop )|^\s*for .* in .*\.\.|\.enumerate\(\)'),
    (4, 'equality by a table', 'fn', in_body(r'=> (true|false),$')),
    (4, 'conversions by hand', 'fn', in_name(r'(from|to|into|as)_\w+|of|\w+_code|toward')),
    (4, 'functions that make a String (by eye: to be pasted into another?)', 'fn', in_head(r'-> Result<String, AllocError>')),
    (5, 'facts in `requires`', 'line', r'^\s*requires '),
    (5, 'clauses that the lender stays', 'line', r'ensures \w+ \{ .*ghost_name ≡'),
    (5, 'a plan taken along', 'line', r'&(mut )?self, plan: &Plan'),
    (6, 'arrays and lent slices with a count beside', 'line', r'^    (pub(\(crate\))? )?\w+: (\[\w+; \d+\]|\[Option<\w+>; \d+\]|&\'a (mut )?\[\w+\])|let mut rows ='),
    (7, 'a match on which step to run', 'fn', in_body(r'(PlanRule::\w+ => (layout\.|shares|lever|!|signal|Flaw))|Call::\w+ => self\.')),
]


def main(args):
    root = os.path.join(os.path.dirname(os.path.abspath(__file__)), '..')
    if '--at' in args:
        root = args.pop(args.index('--at') + 1)
        args.remove('--at')
    points = [int(a) for a in args] or list(range(1, 8))
    os.chdir(root)
    files = sorted(f for f in glob.glob('crates/*/src/**/*.rt', recursive=True))
    texts = {f: open(f, encoding='utf-8').read() for f in files}
    for point, what, how, test in LOOK:
        if point not in points:
            continue
        if how == 'line':
            hits = ['%s:%d: %s' % (f, i + 1, line.strip()) for f in files for i, line in enumerate(texts[f].split('\n')) if re.search(test, line)]
        elif how == 'fn':
            hits = ['%s:%d: %s' % (f, at, name) for f in files for at, name, head, body in functions(texts[f]) if test(name, head, body)]
        else:
            named = {}
            for f in files:
                for at, name, head, body in functions(texts[f]):
                    named.setdefault(name, []).append('%s:%d' % (f, at))
            hits = ['%s: %s' % (name, ' '.join(where)) for name, where in sorted(named.items()) if len(where) > 1]
        print('== %d. %s: %d' % (point, what, len(hits)))
        for hit in hits:
            print('   ' + hit)


main(sys.argv[1:])
