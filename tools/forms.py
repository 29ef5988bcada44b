#!/usr/bin/env python3
"""Counts places in src/ that are written in an older language's way, point by point (docs/DESIGN-PASS.md).

    python3 tools/forms.py [POINT..]     from the top of the repository; with points, each place too
"""
import collections
import glob
import re
import sys

FUNCTION = re.compile(r'^(?:pub )?(?:extern "C" )?fn (\w+)(?:<[^>]*>)?\((.*?)\)(?: -> ([^\n{]+?))?\n?(.*?)^\{\n(.*?)^\}', re.M | re.S)


def functions():
    for path in sorted(glob.glob('crates/*/src/*.rt')):
        text = open(path).read()
        for m in FUNCTION.finditer(text):
            yield path.split('/')[1], m


def place(crate, name):
    return f'{crate}::{name}'


def lines(pattern):
    found = []
    for path in sorted(glob.glob('crates/*/src/*.rt')):
        for n, line in enumerate(open(path), 1):
            if re.search(pattern, line):
                found.append(f'{path}:{n}: {line.strip()}')
    return found


def enums():
    found = []
    for path in sorted(glob.glob('crates/*/src/*.rt')):
        for m in re.finditer(r'^pub enum (\w+) \{(.*?)^\}', open(path).read(), re.M | re.S):
            if re.search(r'^    (Refused|Stopped|Unreadable|None)\b', m[2], re.M) and m[1] != 'Refusal':
                found.append(f'{path}: enum {m[1]}')
    return found


def codes():
    """Functions that answer a number where there is nothing, and fields or parameters that hold a kind or a refusal as a number."""
    found = [place(c, m[1]) + ': a number for none' for c, m in functions() if re.search(r'return NO_|    NO_[A-Z]+\n|PageNumber\(NO_PAGE\)\n', m[5]) and m[3]]
    found += lines(r'^    (pub )?(kind|number|rule|edition): u8') + lines(r'^pub const [A-Z_]+: u8 = \d')
    return found


def twins():
    """Groups of functions whose bodies are the same but for names and numbers."""
    groups = collections.defaultdict(list)
    for c, m in functions():
        body = re.sub(r'//[^\n]*', '', m[5])
        tokens = re.findall(r'\w+|[^\w\s]', body)
        keep = {'if', 'else', 'while', 'for', 'in', 'return', 'let', 'mut', 'match', 'as', 'true', 'false'}
        if len(tokens) > 25:
            groups[tuple(t if t in keep or not re.match(r'\w', t) else '_' for t in tokens)].append(place(c, m[1]))
    return [' ~ '.join(g) for g in groups.values() if len(g) > 1]


def copies():
    found = lines(r'PageNumber\([a-z_.]+\.0\)')
    for c, m in functions():
        same = re.findall(r'^\s+(\w+): (\w+)(?:\.(\w+))?(?:\.0\))?,$', m[5], re.M)
        if sum(1 for a, b, f in same if a == b or a == f) >= 2:
            found.append(place(c, m[1]) + ': fields copied one by one')
    found += [place(c, m[1]) + ': min, max or subtraction by hand' for c, m in functions()
              if re.search(r'if (\w+) <=? (\w+)(?: as \w+)? \{ (0|\1|\2) \} else \{ (\1|\2|\1 - \2)', m[5])]
    return found


def facts():
    """Facts about a value in the contracts of three or more functions of a crate, and parameters that travel together."""
    found, by = [], collections.defaultdict(set)
    together = collections.Counter()
    for c, m in functions():
        for clause in re.findall(r'requires \{ (.*) \}', m[4]):
            for fact in clause.split(' × '):
                by[c, fact.strip('() ')].add(m[1])
        names = [p.split(':')[0] for p in re.split(r',\s*', m[2].strip()) if ':' in p]
        for group in (('pool', 'w'), ('pool', 'w', 'pages'), ('pool', 'w', 'n'), ('out', 'n')):
            if all(g in names for g in group):
                together[group] += 1
    found += [f'{c}: {fact}: {len(fs)} functions' for (c, fact), fs in sorted(by.items()) if len(fs) >= 3]
    found += [f'{", ".join(g)}: {n} functions' for g, n in together.items() if n >= 3]
    return found


def buffers():
    return [place(c, m[1]) + ': a buffer with a length' for c, m in functions() if re.search(r'out: &mut \[u8\],\s+n: usize|n: usize,\s+out: &mut', m[2])] + \
        lines(r': \[\w+; \d+\],?$')


def switches():
    return [place(c, m[1]) + ': the same call for each edition' for c, m in functions() if 'is_second(' in m[5] and m[5].count('EDITION_') == 2] + \
        [place(c, m[1]) + ': a list by its number' for c, m in functions() if re.search(r'\blist: u8', m[2])]


def answers():
    texts = collections.defaultdict(list)
    for path in sorted(glob.glob('crates/*/proofs/*/Answers.antt')):
        body = re.sub(r'^use [^\n]*\n', '', open(path).read(), flags=re.M)
        for m in re.finditer(r'^pub \S+ : \S+\n((?:unfolding[^\n]*\n)?\S+ c = .*(?:\n +.*)*)', body, re.M):
            texts[re.sub(r'^\S+ c', '', m[1].split('\n', 1)[-1] if m[1].startswith('unfolding') else m[1])].append(path)
    return [f'{len(v)} answers of {v[0].split("/")[1]}: {t.strip()[:60]}' for t, v in texts.items() if len(v) >= 3 and len({p for p in v}) >= 1]


POINTS = {1: (enums, codes), 2: (twins,), 3: (lambda: lines(r"^\s*('\w+: )?while "),), 4: (copies,), 5: (facts,), 6: (buffers,), 7: (switches,), 8: (answers,)}
for point, ways in POINTS.items():
    found = [x for way in ways for x in way()]
    print(f'point {point}: {len(found)} places')
    if str(point) in sys.argv[1:]:
        print(*found, sep='\n')
