#!/usr/bin/env python3
"""Lists the places of src/ that a pass over the design looks at, one a line, and how many there are.

    tools/design_places.py [POINT..] [--counts]      of 1 to 7, in the tree that it stands in or that --tree names

1  enums, with what they hold: those of the shape of Option or Result are told apart by hand; numbers for kinds or refusals
2  functions that differ in names, numbers and types alone, by their text with those left out
3  loops by `while` or `loop`, and `for` over a range whose variable is an index
4  conversions and comparisons written by hand: a match of every variant to a number, fields compared one by one
5  parts of a `requires` that three or more functions of a crate have, and three or more parameters that five or more functions have
6  a slice with a count beside it as parameters, numbers in a lent slice by fixed places
7  function pointers, dyn, and a match on a number that tells what to do
"""
import difflib, os, re, sys
from collections import defaultdict

here = os.path.dirname(os.path.dirname(os.path.abspath(__file__)))
args = sys.argv[1:]
if '--tree' in args:
    i = args.index('--tree')
    here = args[i + 1]
    del args[i:i + 2]
counts = '--counts' in args
points = [int(a) for a in args if a.isdigit()] or [1, 2, 3, 4, 5, 6, 7]

def sources():
    for crate in sorted(os.listdir(os.path.join(here, 'crates'))):
        folder = os.path.join(here, 'crates', crate, 'src')
        for name in sorted(os.listdir(folder)) if os.path.isdir(folder) else []:
            if name.endswith('.rt'):
                yield crate, 'crates/%s/src/%s' % (crate, name), open(os.path.join(folder, name)).read()

FUNCTION = re.compile(r'^( *)(?:pub(?:\(crate\))? )?(?:extern "C" )?fn (\w+)(?:<[^>]*>)?\(', re.M)

def functions():
    """Each function: crate, path, line, name, parameters, clauses, body."""
    for crate, path, text in sources():
        for m in FUNCTION.finditer(text):
            end = text.find('\n' + m.group(1) + '}', m.end())
            whole = text[m.start():end]
            depth, i = 1, m.end()
            while depth and i < len(text):
                depth += {'(': 1, ')': -1}.get(text[i], 0)
                i += 1
            parameters = [p.strip() for p in text[m.end():i - 1].split(',') if p.strip()]
            brace = whole.find('\n' + m.group(1) + '{\n')
            head, body = (whole, '') if brace < 0 else (whole[:brace], whole[brace + len(m.group(1)) + 3:])
            yield crate, path, text.count('\n', 0, m.start()) + 1, m.group(2), parameters, head, body

def code(line):
    return line.split('//')[0]

def lines(pattern):
    for crate, path, text in sources():
        for n, line in enumerate(text.split('\n'), 1):
            if re.search(pattern, code(line)) and not line.lstrip().startswith('ghost'):
                yield '%s:%d: %s' % (path, n, line.strip())

def point1():
    for crate, path, text in sources():
        for m in re.finditer(r'^(?:pub(?:\(crate\))? )?enum (\w+) \{\n(.*?)^\}', text, re.M | re.S):
            variants = re.findall(r'^    (\w+(?:\([^)]*\))?)', m.group(2), re.M)
            yield '%s:%d: enum %s { %s }' % (path, text.count('\n', 0, m.start()) + 1, m.group(1), ', '.join(variants[:6]))
    yield from lines(r'(Refused|NotReady|NotYet|Item)\(.*u8\)|^pub fn first_bad\w*\(.*-> u8')

def point2():
    bodies = []
    for crate, path, line, name, parameters, head, body in functions():
        if body.count('\n') < 3:
            continue
        names = {}
        tokens = re.findall(r'\w+|[^\w\s]', re.sub(r'//.*', '', body))
        shape = [t if not re.match(r'\w', t) or t in ('if', 'return', 'let', 'while', 'for', 'match', 'mut') else names.setdefault(t, 'v%d' % len(names))
                 for t in tokens]
        bodies.append((path, line, name, len(parameters), shape))
    for i, a in enumerate(bodies):
        for b in bodies[i + 1:]:
            if abs(len(a[4]) - len(b[4])) <= 4 and a[3] == b[3] and len(a[4]) >= 14:
                if difflib.SequenceMatcher(None, a[4], b[4], False).ratio() >= 0.97:
                    yield '%s:%d: %s ~ %s:%d: %s' % (a[0], a[1], a[2], b[0], b[1], b[2])

def point3():
    yield from lines(r'^\s*(while|loop)\b|^\s*for \w+ in [\w.]+\.\.')

def point4():
    for crate, path, line, name, parameters, head, body in functions():
        arms = re.findall(r'^\s*\w+::\w+ => [\w:]+,$', body, re.M)
        if len(arms) >= 3 and 'match self' in body:
            yield '%s:%d: %s: a match of %d variants to values' % (path, line, name, len(arms))
        if len(re.findall(r'\(?\w+\.(\w+) == \w+\.\1\b', body)) >= 2:
            yield '%s:%d: %s: fields compared one by one' % (path, line, name)
        if re.match(r'(from_|to_|as_|smaller|larger)', name):
            yield '%s:%d: %s' % (path, line, name)

def point5():
    facts, groups = defaultdict(set), defaultdict(set)
    for crate, path, line, name, parameters, head, body in functions():
        for clause in re.findall(r'requires(?: \w+)? \{(.*?)\}(?=\n|$)', head, re.S):
            for part in re.split(r' × ', re.sub(r'\s+', ' ', clause.strip())):
                facts[crate, part.strip('() ')].add(name)
        plain = [p for p in parameters if ':' in p]
        for i in range(len(plain) - 2):
            groups[tuple(plain[i:i + 3])].add((crate, name))
    for (crate, part), names in sorted(facts.items()):
        if len(names) >= 3:
            yield '%s: `%s` in %d: %s' % (crate, part, len(names), ', '.join(sorted(names)))
    for group, names in sorted(groups.items()):
        if len(names) >= 5:
            yield '`%s` in %d functions of %s' % (', '.join(group), len(names), ', '.join(sorted({c for c, n in names})))

def point6():
    for crate, path, line, name, parameters, head, body in functions():
        slices = [i for i, p in enumerate(parameters) if re.search(r': &(?:mut )?\[', p)]
        counts = [p for p in parameters if re.match(r'(count|n|len|run|size): (usize|u64|u32)', p)]
        if slices and counts:
            yield '%s:%d: %s: %s beside a slice' % (path, line, name, ', '.join(counts))
    yield from lines(r'state\[\d+')

def point7():
    yield from lines(r'\bdyn\b|: fn\(|\[fn\(')
    for crate, path, line, name, parameters, head, body in functions():
        m = re.search(r'match (\w+) \{\n\s*(\d+|0x\w+) =>', body)
        if m:
            yield '%s:%d: %s: a match on the number %s' % (path, line, name, m.group(1))

for p in points:
    found = list(globals()['point%d' % p]())
    print('point %d: %d' % (p, len(found)))
    if not counts:
        for f in found:
            print('  ' + f)
