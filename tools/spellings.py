#!/usr/bin/env python3
"""Spells the repository's own definitions and lemmas as today's Rattle does: words in snake case, a dash between two names
only, a prime as an apostrophe. usage: spellings.py [--table FILE] [--check] ROOT

It takes the names that the files of specs/ and proofs/ declare. Types, facts and modules (a capital first) keep their letters.
Names of functions of src/ are left alone, as is whatever stands behind a dot and is no field that specs/ or proofs/ declare."""
import os, re, sys, collections

root = sys.argv[-1]
check = '--check' in sys.argv
rest_alone = '--rest' in sys.argv  # only what is bound within a declaration, or named behind a module
TOKEN = re.compile(r"[^\s(){}.;,@\"«»\[\]|\\]+")
SIG = re.compile(r"^\s*((?:abbrev |unfoldable |pub )*)([^\s(){}:.;,|\[\]λ\\\"]+)((?: \{ℓ[^}]*\})?)\s+:(?:\s|$)")
REC = re.compile(r"^\s*(?:abbrev |unfoldable |pub )*(?:record|data) (\S+)")

def files(*exts):
    for d, ds, fs in os.walk(os.path.join(root, 'crates')):
        ds[:] = sorted(x for x in ds if x != 'out')
        for f in sorted(fs):
            if f.endswith(exts): yield os.path.join(d, f)

texts = {p: open(p, encoding='utf-8').read() for p in files('.antt', '.rt', '.edit')}
declared, definitions, fields = set(), set(), set()
tie = set()
for p, t in texts.items():
    if not p.endswith('.antt'): continue
    walk = p.endswith('/Proof.antt')
    inrec = None
    for l in t.split('\n'):
        m = REC.match(l)
        if m:
            inrec = (len(l) - len(l.lstrip()), m.group(0)); definitions.add(m.group(1)); continue
        if inrec is not None and l.strip() and len(l) - len(l.lstrip()) <= inrec[0]: inrec = None
        m = SIG.match(l)
        if not m: continue
        n = m.group(2)
        if walk and ': tie.' in l: tie.add(n); continue
        if n in ('use', 'let', 'in', 'module', 'where', '--'): continue
        declared.add(n)
        if inrec is not None:
            (fields if 'record' in inrec[1] else definitions).add(n)
        elif 'abbrev' in m.group(1) or 'unfoldable' in m.group(1): definitions.add(n)
library = set()
for p, t in texts.items():
    for m in re.finditer(r"use ([^\s{;]+)\{([^}]*)\}", t):
        if re.match(r"Rattle\.(?!std\.)", m.group(1)): continue
        library |= {x.strip().split(' as ')[0] for x in m.group(2).split(',')}
library = {x for x in library if '-' not in x and not re.search(r"[a-z][A-Z]", x)}
WORDS = {'refl', 'sym', 'ap', 'rules', 'arith', 'statement', 'search', 'inl', 'inr', 'is', 'at', 'of', 'in', 'no', 'by', 'on', 'more', 'same', 'left', 'right', 'rest', 'one', 'all', 'own', 'none', 'next'}

def snake(w):
    if w[:1].isupper(): return w
    return re.sub(r"(?<=[a-z0-9])([A-Z])", lambda m: '_' + m.group(1).lower(), w)

defs = {snake(x) for x in definitions if '-' not in x} | {x for x in library}
defs -= WORDS

def spelled(n):
    if n[:1].isupper() and '-' not in n: return n.replace('′', "'")
    parts = [snake(x) for x in n.replace('′', "'").split('-')]
    if not all(parts): return n.replace('′', "'")
    segs, i = [], 0
    while i < len(parts):
        for j in range(len(parts), i, -1):
            w = '_'.join(parts[i:j])
            if w in defs or (j == i + 1): break
        segs.append((w, w in defs)); i = j
    out = segs[0][0]
    for (a, x), (b, y) in zip(segs, segs[1:]): out += ('-' if x and y else '_') + b
    return out

table = {n: n.replace('-', '_') if n.endswith('-spec') else spelled(n) for n in declared}
table = {a: b for a, b in table.items() if a != b}
# A new name must meet no other one in antt, and no parameter, field or constant of a clause. A lemma that would, ends in _lem.
present = set()
for p, t in texts.items():
    if p.endswith('.antt'):
        for m in re.finditer(r"(?<![^\s(){};,@\"«»\[\]|\\])" + TOKEN.pattern + r"(?!\.)", t): present.add(m.group())
    elif p.endswith('.rt'):
        for m in re.finditer(r"\b(?:mut )?([a-z]\w*)\s*:(?!:)", t): present.add(m.group(1))
by_new = collections.defaultdict(list)
for a, b in table.items(): by_new[b].append(a)
taken_by_lemma = set()
for b, olds in sorted(by_new.items()):
    first = [a for a in olds if a in definitions or a in fields]
    rest = [a for a in olds if a not in first]
    if first and b in present and b in declared and b not in definitions: taken_by_lemma.add(b)
    taken = b in present
    if first: taken = True
    for a in rest:
        if taken: table[a] = b + '_lem'
        taken = True
for b in taken_by_lemma: table[b] = b + '_lem'
if check:
    print(len(declared), len(definitions), len(fields), 'table', len(table), sorted(taken_by_lemma))
    new = collections.defaultdict(list)
    for a, b in table.items(): new[b].append(a)
    for b, a in sorted(new.items()):
        if len(a) > 1 or b in present and b not in table: print('meets', b, a)
if '--table' in sys.argv:
    with open(sys.argv[sys.argv.index('--table') + 1], 'w') as f:
        for a, b in sorted(table.items()): f.write(f"{a}\t{b}\n")
if check: sys.exit()

PROSE = re.compile(r"`[^`\n]*`")
def turn(text, rust=False, dotted=True):
    def one(m):
        w = m.group()
        if w not in table: return w
        at = m.start()
        if at and text[at - 1] == '.' and w not in fields and not re.search(r"\b[A-Z]\w*\.$", text[:at]): return w
        if rust and not re.search(r"[A-Z-]", w): return w
        return table[w]
    return TOKEN.sub(one, text)
RATTLE = re.compile(r"//[^\n]*|(?:requires|ensures|ghost)\b[^;{]*\{")
changed = 0
for p, t in ({} if rest_alone else texts).items():
    if p.endswith('.antt'): n = turn(t)
    else: n = turn(t, rust=True)
    if n != t:
        changed += 1
        with open(p, 'w', encoding='utf-8') as f: f.write(n)
for d in (() if rest_alone else ('README.md', 'docs')):
    at = os.path.join(root, d)
    for p in ([at] if os.path.isfile(at) else [os.path.join(at, x) for x in sorted(os.listdir(at)) if x.endswith('.md')] if os.path.isdir(at) else []):
        t = open(p, encoding='utf-8').read()
        n = PROSE.sub(lambda m: turn(m.group().replace('`', ' ` '), rust=True).replace(' ` ', '`'), t)
        if n != t:
            changed += 1
            with open(p, 'w', encoding='utf-8') as f: f.write(n)
# names that are bound within a declaration, and names behind a module's
CAMEL = re.compile(r"(?<![A-Za-z_-])[a-z][a-z0-9]*(?:[A-Z][a-z0-9]*)+(?![\w-])")
for p in list(texts):
    t = open(p, encoding='utf-8').read()
    n = CAMEL.sub(lambda m: snake(m.group()), t)
    if n != t:
        changed += 1
        with open(p, 'w', encoding='utf-8') as f: f.write(n)
print(changed, 'files')
