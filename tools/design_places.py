#!/usr/bin/env python3
"""The places of docs/DESIGN-PASS.md in crates/*/src/*.rt: `python3 tools/design_places.py [FOLDER] [--list]`."""
import re, sys, glob, os, collections

root = next((a for a in sys.argv[1:] if not a.startswith('-')), '.')
listing = '--list' in sys.argv
FN = re.compile(r'(?:^|\n)([ ]*)(?:pub )?(?:extern "C" )?fn (\w+)(?:<[^(]*>)?\((.*?)\)(?: -> ([^\n{]*?))?\s*\n(.*?)\n\1\}', re.S)
ONE = re.compile(r'(?:^|\n)([ ]*)(?:pub )?(?:extern "C" )?fn (\w+)(?:<[^(]*>)?\(')


def functions():
    for path in sorted(glob.glob(root + '/crates/*/src/*.rt')):
        crate = path.split('/')[-3]
        text = open(path).read()
        plain = re.sub(r'(?m)^\s*//.*$', '', text)
        for m in FN.finditer(plain):
            rest = m.group(5)
            i = rest.find('\n' + m.group(1) + '{')
            i = 0 if rest.lstrip().startswith('{') else i
            contract, body = (rest[:i], rest[i:]) if i >= 0 else ('', rest)
            yield crate, m.group(2), m.group(3), (m.group(4) or '').strip(), contract, body
    return


def sources():
    for path in sorted(glob.glob(root + '/crates/*/src/*.rt')):
        text = open(path).read()
        yield path.split('/')[-3], re.sub(r'(?m)^\s*//.*$', '', text)


def params(text):
    found = re.findall(r'(?:mut )?(«?\w+»?): ([^,]+(?:\[[^\]]*\])?[^,]*)', text)
    return [(n, t.strip()) for n, t in found]


places = collections.OrderedDict()


def add(key, where):
    places.setdefault(key, []).append(where)


for key in ['1a enums of the shape of Option or Result', '1b functions that answer a refusal as a number',
            '1c a refusal handed on by hand', '1d structs of a flag with a value', '1e families of numbers for kinds',
            '2 twins', '3 loops that count by hand', '4 written by hand: equality, copying, conversion, rebuilding',
            '5a facts in three or more contracts', '5b parameters that travel together', '6a a buffer with a length beside',
            '6b parallel arrays', '7 switches on which step to run', '8 hand-written proofs of functions']:
    places[key] = []
keys = list(places)

for crate, text in sources():
    for m in re.finditer(r'enum (\w+) \{(.*?)\n\}', text, re.S):
        cases = re.findall(r'^\s+(\w+)(\([^)]*\))?,', m.group(2), re.M)
        names = [c for c, _ in cases]
        if any(n in ('Refused', 'Nothing', 'Unread', 'Silent', 'Missing', 'None') for n in names):
            add(keys[0], f'{crate}::{m.group(1)}')
    for m in re.finditer(r'struct (\w+)(?:<[^>]*>)? \{(.*?)\n\}', text, re.S):
        fields = re.findall(r'(\w+): ([^,\n]+)', m.group(2))
        if any(t == 'bool' for _, t in fields) and len(fields) > 1:
            add(keys[3], f'{crate}::{m.group(1)}')
        if sum(t.startswith('[') for _, t in fields) >= 2:
            add(keys[11], f'{crate}::{m.group(1)}')
    family = []
    for m in re.finditer(r'(?m)^(?:pub )?const (\w+): (u8|u32) = (\d+|b\'.\');', text):
        family.append((m.start(), m.group(1), m.group(2)))
    run = []
    for k, item in enumerate(family):
        if run and (item[2] != run[-1][2] or text[run[-1][0]:item[0]].count(';') > 1):
            if len(run) >= 3:
                add(keys[4], f'{crate}::{run[0][1]}..{run[-1][1]}')
            run = []
        run.append(item)
    if len(run) >= 3:
        add(keys[4], f'{crate}::{run[0][1]}..{run[-1][1]}')

all_functions = list(functions())
shapes = collections.defaultdict(list)
facts = collections.defaultdict(list)
groups = collections.defaultdict(set)
for crate, name, given, answer, contract, body in all_functions:
    at = f'{crate}::{name}'
    if answer == 'u32' and re.search(r'refusal|number', contract + name):
        add(keys[1], at)
    for m in re.finditer(r'if (\w+(?:\.\w+)?) != (?:settings::)?(?:PASSED|0) \{\s*return', body):
        add(keys[2], at)
    for m in re.finditer(r'\bwhile\b', body):
        add(keys[6], at)
    if re.match(r'(same\w*|copy\w*|copied|clear|store|put_row|put_times|row_of|times_of|flag_of|wide\w*|byte|read[248]|with_\w+|number_of|number)$', name):
        add(keys[7], at)
    tokens = re.findall(r'"[^"]*"|\w+|[^\w\s]', given + ' -> ' + answer + body)
    if len(tokens) > 40:
        local, shape = {}, []
        for t in tokens:
            if re.match(r'\d', t) or t[0] == '"':
                shape.append('0')
            elif re.match(r'(if|else|while|for|in|let|mut|return|match|true|false|as|self|fn)$', t):
                shape.append(t)
            elif re.match(r'\w', t):
                shape.append('x')
            else:
                shape.append(t)
        shapes[' '.join(shape)].append(at)
    for clause in re.findall(r'requires (?:\w+ )?\{(.*?)\}\n', contract + '\n', re.S):
        for fact in re.split(r' × ', clause):
            fact = fact.strip().strip('()')
            head = re.match(r'([A-Z]\w+)', fact)
            facts[head.group(1) if head else re.sub(r'\s+', ' ', fact)].append(at)
    names = [f'{n}: {t}' for n, t in params(given)]
    for k in range(len(names)):
        for j in range(k + 3, len(names) + 1):
            groups[tuple(names[k:j])].add(at)
    types = [t for _, t in params(given)]
    if any(re.match(r'\[\w+; ', t) for t in types) and any(n in ('count', 'k', 'n') and t == 'usize' for n, t in params(given)):
        add(keys[10], at)
    if sum(bool(re.match(r'\[\w+; ', t)) for t in types) >= 2:
        add(keys[11], at)
    chain = collections.Counter(re.findall(r'if ([\w.]+) == [\w:]*[A-Z_]{3,} \{\s*return', body))
    chain.update(re.findall(r'if (same_word)\(word', body))
    if any(v >= 3 for v in chain.values()):
        add(keys[12], at)

for shape, where in shapes.items():
    if len(where) > 1:
        add(keys[5], ' = '.join(where))
for fact, where in sorted(facts.items()):
    if len(set(where)) >= 3:
        add(keys[8], f'{fact} ({len(set(where))}: {", ".join(sorted(set(where)))})')
best = [(g, w) for g, w in groups.items() if len(w) >= 5]
best = [(g, w) for g, w in best if not any(len(h) != len(g) and set(g) & set(h) and len(h) * len(v) > len(g) * len(w) for h, v in best)]
for g, w in sorted(best, key=lambda x: (-len(x[1]) * len(x[0]))):
    add(keys[9], f'({", ".join(g)}) in {len(w)}: {", ".join(sorted(w))}')
for path in sorted(glob.glob(root + '/crates/*/proofs/**/Proof.antt', recursive=True)):
    add(keys[13], path.split('crates/')[1])

for key, found in places.items():
    print(f'{key}: {len(found)}')
    if listing:
        for item in found:
            print('   ', item)
stays = sum(len(re.findall(r'// stays:', open(p).read())) for p in glob.glob(root + '/crates/*/src/*.rt'))
print(f'lines that say why a place stays: {stays}')
