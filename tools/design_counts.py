#!/usr/bin/env python3
"""Counts, in src/ of the crates below a folder, the places that docs/DESIGN-PASS.md speaks of, point by point.

    tools/design_counts.py [FOLDER] [--list]

Each count is of what a search finds, not of what must change: docs/DESIGN-PASS.md says what became of the places."""
import collections, glob, re, sys

args = [a for a in sys.argv[1:] if not a.startswith('-')]
root = args[0] if args else '.'
listed = '--list' in sys.argv
files = sorted(glob.glob(f'{root}/crates/*/src/**/*.rt', recursive=True))
texts = {f[len(root) + 1:].replace('crates/', ''): open(f).read() for f in files}


def code(s):
    """Without comments, contracts and imports for proofs."""
    s = re.sub(r'//[^\n]*', '', s)
    s = re.sub(r'^\s*ghost [^;]*;', '', s, flags=re.M)
    out, i = [], 0
    for m in re.finditer(r'\b(requires|ensures)\b[^{\n]*\{', s):
        if m.start() < i:
            continue
        out.append(s[i:m.start()])
        d, j = 1, m.end()
        while d:
            d += {'{': 1, '}': -1}.get(s[j], 0)
            j += 1
        i = j
    return ''.join(out) + s[i:]


codes = {f: code(s) for f, s in texts.items()}
found = collections.OrderedDict()


def put(key, place):
    found.setdefault(key, []).append(place)


def line(f, at, s):
    return f'{f}:{s.count(chr(10), 0, at) + 1}'


FN = re.compile(r'^( *)(?:pub )?fn (\w+)(<[^(]*>)?\(([^)]*)\)([^{;]*)\{', re.M)


def functions():
    for f, s in codes.items():
        for m in FN.finditer(s):
            d, j = 1, m.end()
            while d:
                d += {'{': 1, '}': -1}.get(s[j], 0)
                j += 1
            yield f, m.group(2), m.group(4), m.group(5), s[m.end():j - 1]


# 1
for f, s in codes.items():
    for m in re.finditer(r'enum (\w+)[^{]*\{(.*?)\n\}', s, re.S):
        variants = [v for v in re.split(r',\s*\n', m.group(2)) if v.strip()]
        bare = [v for v in variants if not re.search(r'[({]', v)]
        if len(variants) == 2 and len(bare) <= 1 or len(variants) == 3 and len(bare) == 1 and len(variants) - len(bare) == 2:
            put('1 enum of the shape of Option or Result', f'{f} {m.group(1)}')
    for m in re.finditer(r'struct (\w+)[^{;]*\{(.*?)\n\}', s, re.S):
        if re.search(r'(known|inside|found|up|back|some|is_\w+|has_\w+): bool', m.group(2)):
            put('1 struct with a flag beside a value', f'{f} {m.group(1)}')
    for m in re.finditer(r'Refused\(\d+\)', s):
        put('1 a refusal said by a literal number', f'{f} {m.group(0)}')
for f, name, params, result, body in functions():
    if re.search(r'-> (u8|u32|usize|isize|u64)', result) and re.search(r'(return (64|0|-1|255|4294967296)|\n\s*(64|-1|4294967296)\s*$|=> -1)', body) and not name.startswith(('min', 'max')):
        put('1 a number that may stand for none or for a kind', f'{f} {name}')

# 2
shapes = collections.defaultdict(list)
for f, name, params, result, body in functions():
    t = re.sub(r'\b[A-Z][A-Z_0-9]+\b', 'C', body)
    t = re.sub(r'\b\d+\b', 'N', t)
    t = re.sub(r'\b(privilege|authorization|rule|object|subject|mode|number|instant|term|sign|option_term|option|operator|kind|label|administrators?|referrers?|objects|rules|authorizations)\b', 'X', t)
    t = re.sub(r'\b\w*_(at|in|test|of|by|for)\b', 'g', t)
    t = re.sub(r'\b\w+\(', 'h(', t)
    t = re.sub(r'[A-Z]\w+::\w+|[A-Z]\w+', 'T', t)
    t = re.sub(r'\s+', ' ', t)
    if len(t) > 110:
        shapes[t].append(f'{f} {name}')
for t, fs in shapes.items():
    if len(fs) > 1:
        for x in fs:
            put('2 functions with the same body but for names, types and numbers', x)
for f, name, params, result, body in functions():
    if re.search(r'while i (\+ 1 )?< n \{\s+if !?\w+\(.*?return (true|false);', body, re.S):
        put('2 loops over records that differ in the record and its test', f'{f} {name}')
for f, s in codes.items():
    for m in re.finditer(r'struct (\w+) \{\s*pub (known|value)', s):
        put('2 structs that differ in a type', f'{f} {m.group(1)}')

# 3
for f, s in codes.items():
    for m in re.finditer(r'\n( *)while [^\n]*\{\n(.*?)\n\1\}', s, re.S):
        if re.search(r'\b\w+ [+-]= 1;', m.group(2)):
            put('3 loop that counts an index by hand', line(f, m.start() + 1, s))
        elif 'next_bit(' in m.group(2):
            put('3 loop over the bits of a word by hand', line(f, m.start() + 1, s))
        else:
            put('3 other while', line(f, m.start() + 1, s))

# 4
for f, s in codes.items():
    for m in re.finditer(r'fields::(lesser|larger|alike|same|copy|as_bit|u16_of|zeros|fill_bytes|clear_bytes|move_up|move_down)\b|\b(lesser|larger|alike|as_bit|u16_of)\(', s):
        put("4 a call of what std has (lesser, larger, alike, same, copy, as_bit, u16_of, ..)", line(f, m.start(), s))
for f, name, params, result, body in functions():
    if len(re.findall(r'\b(\w+)\.(\w+) == (\w+)\.\2\b', body)) > 1:
        put('4 equality or order of a struct by its fields', f'{f} {name}')
    if re.match(r'\s*match \w+ \{(\s*(\w+::)?\w+ => (\w+::)?\w+,)+\s*\}\s*$', body):
        put('4 conversion between an enum and numbers', f'{f} {name}')

# 5
clauses, groups = collections.Counter(), collections.Counter()
for f, s in texts.items():
    for m in re.finditer(r'\brequires\b[^{\n]*\{(.*?)\}\n', s, re.S):
        t = re.sub(r'\s+', ' ', m.group(1)).strip()
        parts, d, cur = [], 0, ''
        for ch in t:
            d += {'(': 1, ')': -1}.get(ch, 0)
            if ch == '×' and d == 0:
                parts.append(cur)
                cur = ''
            else:
                cur += ch
        for p in parts + [cur]:
            p = p.strip()
            if p.startswith('(') and p.endswith(')'):
                p = p[1:-1]
            p = re.sub(r'\b\w+(\.\w+)*\.(now|old)\b', 'X.now', p)
            p = re.sub(r'\bn[ofar]?\b', 'n', p)
            clauses[p] += 1
for p, n in clauses.items():
    if n >= 3 and len(p) > 9:
        put('5 a fact in the contracts of three or more functions (facts)', f'{n} times: {p}')
        for _ in range(n):
            put('5 the same, clauses', p)
for f, name, params, result, body in functions():
    names = [p.split(':')[0].replace('mut ', '').strip() for p in params.split(',') if ':' in p]
    if len(names) >= 6:
        put('5 function with six or more parameters', f'{f} {name}')

# 6
for f, name, params, result, body in functions():
    if re.search(r'\w+: &(mut )?\[\w+(; \d+)?\], n\w?: usize|\w+: &(mut )?\[\w+(; \d+)?\], (m|k|count|len): usize', params):
        put('6 a buffer with a length beside it', f'{f} {name}')
    if re.search(r'/ 2;\s', body) and 'low' in body:
        put('6 searched by hand', f'{f} {name}')
    if name in ('heap', 'unheap', 'sink', 'larger_below'):
        put('6 sorted by hand', f'{f} {name}')

# 7
for f, name, params, result, body in functions():
    if re.search(r': bool', params) and re.search(r'if (every|wide|ranked|up|lasting|root|wanted)\b', body):
        put('7 a flag that chooses what a step does', f'{f} {name}')
    if re.search(r': fn\(', params):
        put('7 function pointer', f'{f} {name}')

# 8
lines = collections.Counter()
for f in glob.glob(f'{root}/crates/*/proofs/**/*.antt', recursive=True):
    t = open(f).read()
    kind = 'lines of ' + (f.split('/')[-1] if f.endswith(('Answers.antt', 'Invariants.antt')) else 'lemma files in proofs/')
    lines[kind] += t.count('\n')
    lines['answers that say only that a search finds them'] += len(re.findall(r'^[\w-]+ (= λ c\. |c = )search [\w-]+$', t, re.M))
    lines['names given to what has one (let c₁ = c in)'] += len(re.findall(r'let \w+[₀-₉]* = \w+[₀-₉]* in', t))

for key, places in found.items():
    print(f'{len(places):5}  {key}')
    if listed:
        for p in places:
            print(f'         {p}')
for key, n in sorted(lines.items()):
    print(f'{n:5}  8 {key}')
