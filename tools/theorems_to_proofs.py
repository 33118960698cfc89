#!/usr/bin/env python3
"""Moves theorems that rest on a definition which a must-fail edit changes from specs/ to proofs/ of their crate, statements and
proofs as they stand, and brings every import to where they are then. usage: theorems_to_proofs.py [ROOT]

An edit of a definition counts as one that cannot be read as soon as a theorem in specs/ falls on which another in specs/ rests.
So such theorems stand in proofs/. What is moved is in the two tables below: modules whole, and names out of modules whose
definitions stay. It can be run again at any time: what has moved already is left, and imports are read anew. It also writes the
list of what has moved at the end of docs/PORT.md."""
import os, re, sys

ROOT = sys.argv[1] if len(sys.argv) > 1 else os.path.join(os.path.dirname(os.path.abspath(__file__)), '..')

# modules of theorems, moved whole
WHOLE = {
    'model': '''RightFacts SideFacts FeedFacts StratificationFacts HoldsSteady HoldsKeys HoldsFacts HoldsLaws HoldsMarks HeldFacts
        SupportFacts StepFacts GrantFacts MeansFacts BatchFacts SimpleFacts SurvivalFacts'''.split(),
}

# modules whose definitions stay in specs/: the new module of their theorems in proofs/, the comment at its head, what moves, and
# the definitions that took the parameters of an enclosing `module _` unsaid and take them written out now; `proofs` are an
# `abbrev` of a proof
SPLIT = {
    ('model', 'Stratification'): dict(
        to='FeedingLaws',
        head='-- What `precedes` and `weight` of Stratification say, as equations and one by one: the steps of a path, and which of\n'
             '-- them count.\n',
        names='''precedes_either feeds-precedes links-precedes weight_is weight_small heavy_either negates-heavy links-heavy'''.split()),
    ('model', 'Support'): dict(
        to='SupportChains',
        head='-- Which authorization may stand directly before another, test by test (`supports_eq`, `supports_is`), and that\n'
             '-- supported is the existence of a chain. Theorem 2: `supported-chain`; one hop is enough: `one_hop` in SupportFacts.\n',
        names='''supports_eq passes tests supports-rises supports-object supports-mode supports_is supported_in-step found finds
            supported-chain only supported-step supported-only'''.split()),
    ('model', 'Ledger'): dict(
        to='LostInstants',
        head='-- An instant that an entry of the account of demand 3 has lost stays lost.\n',
        names='''keep-loses settle-loses'''.split()),
    ('model', 'Circles'): dict(
        to='CirclePaths',
        head='-- The test `circular` of Circles finds exactly the circles of feeding: `circular_path`.\n',
        names='''circular_path circular-cyclic'''.split()),
    ('theorems', 'Isolation'): dict(
        to='IsolatedReplies',
        head='-- One block\'s replies, whatever its neighbour does (02, CR 9): over two sound bases that agree on a block of\n'
             '-- meters, MAY and WHEN about the block, and a batch of such questions, get equal replies and leave equal\n'
             '-- lists. What a reader has to believe is in `Isolation`: `Agree`, `RightsInside`; in 02\'s plain words `Whole`,\n'
             '-- `Closed`. First the lemmas, then the theorems: of the answers (`may_isolated`, `when_isolated`,\n'
             '-- `batch_isolated`; as text `may-text`, `when-text`), of all that meets the contracts of the code (`may-code`,\n'
             '-- `when-code`, `batch-code`), and in 02\'s plain words (`may_estate`, `when_estate`, `batch_estate`).\n'
             '-- `Neighbours` has two bases that they are about.\n',
        names='''fits-unstamped agree_whole moved stands_relabelled any_kept any_same listed_same here starry author nearby named
            author_near own managed exists_same controls_same rights_inside_too closed_too direct_more left_inside relabelled matched
            right_inside direct_same alike holds_same may_same when_same sb sc may_isolated when_isolated byte_isolated
            bytes_isolated refusal_isolated batch_isolated may-text when-text may-code when-code batch-code g may_estate when_estate
            batch_estate'''.split(),
        proofs='own managed sb sc g'.split(),
        given={'block': 'Agree RightsInside Closed Whole'.split()}),
}

# definitions of the modules above that a contract or a definition of specs/ leans on: where they stand in specs/ then, under which
# comment, and the argument that those which stood in a `module _` take written out now in the theorems beside which they stood
LIFTED = {
    ('model', 'StepFacts'): [
        dict(to='Step', names=['Accepted'], head='-- ---- a request that is accepted'),
        dict(to='Step', names=['Numbered', 'row_given', 'numbered?', 'rising?'], head='-- ---- rows by their numbers'),
        dict(to='Step', names=['IsEarliest'], head='-- ---- the instant that goes with 9', given='b q', but=('', ''), text=[
            '-- t lies in the span and is not covered, and every instant of the span before it is',
            'abbrev pub IsEarliest : Base → Request → ℕ → Type 0',
            'IsEarliest b q = Earliest b.authorizations (new_head (suc b.last) q) q.interval']),
    ],
    ('model', 'GrantFacts'): [
        dict(to='Step', names=['Unlisted', 'Outside', 'DeniedAt', 'Barred', 'Uncovered'],
             head='-- ---- who is barred, and what is not covered, in plain logic'),
    ],
    ('model', 'SupportFacts'): [
        dict(to='Support', names=['hop'], head='-- ---- one hop'),
        dict(to='Support', names=['Earliest'], head='-- ---- the earliest instant that is not covered'),
    ],
    ('model', 'StratificationFacts'): [
        dict(to='Stratification', names=['leads', 'FeedingPath', 'FeedingWalk', 'unlabelled'],
             head='-- ---- paths of feeding; a rule but for its label'),
    ],
    ('model', 'HoldsLaws'): [
        dict(to='Rules', names=['derived', 'holding'], head='-- ---- what holds at last', given='base',
             but=('holds_fit S derived base t p', 'holds_fit S (derived base) t p')),
        dict(to='Rules', names=['PrecededOnly', 'StrictlyFed'], head='-- ---- what precedes a rule'),
    ],
}

# lines of text that say where something is: file, what stood there, what stands there now
TEXT = [
    ('crates/model/specs/Stratification.antt',
     '-- `feeds`, `links`, `precedes` and `weight` are used through the laws at the end and those of SideFacts.\n',
     '-- `feeds`, `links`, `precedes` and `weight` are used through the laws of FeedingLaws and SideFacts.\n'),
    ('crates/model/specs/Support.antt',
     '-- Theorem 2: `supported-chain`; one hop is enough: `one-hop` in SupportFacts.\n',
     '-- Theorem 2: `supported-chain` in SupportChains; one hop is enough: `one_hop` in SupportFacts.\n'),
    ('crates/model/specs/Support.antt', '''-- a chain. Its laws are
-- `supports-rises`, `supports-object` and `supports-mode`, and `supports-eq` and `supports-is` for all its
-- tests.
''', '''-- a chain. Its laws are
-- `supports-rises`, `supports-object` and `supports-mode`, and `supports_eq` and `supports_is` for all its
-- tests, in SupportChains.
'''),
    ('crates/model/specs/Circles.antt',
     '-- forbidden ones of Stratification; 02: "For CR 6 such links count as feeding". `circular-path`: the test\n'
     '-- finds exactly the circles.\n',
     '-- forbidden ones of Stratification; 02: "For CR 6 such links count as feeding". `circular_path` in CirclePaths:\n'
     '-- the test finds exactly the circles.\n'),
    ('crates/theorems/specs/Isolation.antt', '''-- meters, MAY and WHEN about the block, and a batch of such questions, get equal replies and leave equal
-- lists. First what a reader has to believe: `Agree`, `RightsInside`; in 02's plain words `Whole`, `Closed`.
-- Then the lemmas, then the theorems: of the answers (`may-isolated`, `when-isolated`, `batch-isolated`; as
-- text `may-text`, `when-text`), of all that meets the contracts of the code (`may-code`, `when-code`,
-- `batch-code`), and in 02's plain words (`may-estate`, `when-estate`, `batch-estate`). `Neighbours` has two
-- bases that they are about.
''', '''-- meters, MAY and WHEN about the block, and a batch of such questions, get equal replies and leave equal
-- lists. This is what a reader has to believe: `Agree`, `RightsInside`; in 02's plain words `Whole`, `Closed`.
-- The theorems are in `IsolatedReplies`. `Neighbours` has two bases that they are about.
'''),
    ('crates/theorems/specs/Neighbours.antt', 'the theorems of `Isolation` ask\n', 'the theorems of `IsolatedReplies` ask\n'),
    ('docs/MODEL.md', 'it in plain logic. Files are under `crates/model/specs/` unless a crate is named; `F.x` is the definition or theorem `x` of\n'
     'the file `F.antt`.',
     'it in plain logic. Files are under `crates/model/specs/`, or, theorems that rest on a definition which a must-fail edit changes,\n'
     'under `crates/model/proofs/`, unless a crate is named; `F.x` is the definition or theorem `x` of the file `F.antt`.'),
    ('docs/ASSURANCE.md', '`theorems/Isolation`: `may-code`', '`theorems/IsolatedReplies`: `may-code`'),
    ('docs/ESTATES.md', 'The theorems are in `crates/theorems/specs/Isolation.antt`; its definitions come first there and fill a page.',
     'The definitions are in `crates/theorems/specs/Isolation.antt` and fill a page; the theorems are in\n'
     '`crates/theorems/proofs/IsolatedReplies.antt`.'),
    ('docs/DECISIONS.md', '196. **`foundation`, `model` and `laws` keep lemmas in specs/**: they have no code of their own, and others rest on their laws.',
     '196. **`foundation`, `model` and `laws` keep lemmas in specs/**: they have no code of their own, and others rest on their laws. But what '
     'falls with a must-fail edit of a definition, and what rests on it, stands in proofs/ of `model` and `theorems` (PORT.md lists it), since '
     'an edit with which a theorem in specs/ falls that has dependants there cannot be read.'),
    ('README.md', 'definition in `crates/model/specs/` and the theorem that reads it.',
     'definition in `crates/model/specs/` and the theorem that reads it, there or in `crates/model/proofs/`.'),
]

# what an edit imports where the file that it changes no longer does
EDITS = [
    (f'crates/theorems/must-fail/{name}.edit', 'file: specs/Isolation.antt\n', 'old: {List, ◌++◌, map}\nnew: {List, [], ◌++◌, map}\n')
    for name in ('administrators_have_to_agree', 'starred_rules_have_to_agree')
]

PROOFS_HEAD = {
    'model': '-- Theorems of the definitions in specs/ that a must-fail edit changes, and those that rest on such theorems.\n',
    'theorems': '-- Theorems of the definitions in specs/ that a must-fail edit changes.\n',
}


def path(*parts):
    return os.path.join(ROOT, *parts)


def read(p):
    with open(p, encoding='utf-8') as it:
        return it.read()


def write(p, text):
    if not os.path.exists(p) or read(p) != text:
        os.makedirs(os.path.dirname(p), exist_ok=True)
        with open(p, 'w', encoding='utf-8') as it:
            it.write(text)
        print('wrote', os.path.relpath(p, ROOT))


# ---- a file of antt as its head and its items

DECLARED = re.compile(r'(?:(?:abbrev|unfoldable|pub) )*(?:(record|data) )?([^\s(){}:;]+)')


class Item:
    """Lines of one declaration with the comment over it, or of a `module _` block: then `head` is its line, `items` what is in it."""

    def __init__(self, lines, indent):
        self.lines, self.indent, self.items, self.head, self.name, self.kind = lines, indent, None, None, None, ''
        at = next((i for i, l in enumerate(lines) if not l.strip().startswith('--')), None)
        if at is None:
            return
        self.comment, first = lines[:at], lines[at].strip()
        if first.startswith('module _'):
            end = next(i for i in range(at, len(lines)) if lines[i].endswith('where'))
            self.head = lines[at:end + 1]
            self.items = items(lines[end + 1:], indent + 2)
        else:
            m = DECLARED.match(first)
            self.name = m[2]
            self.kind = m[1] or ('abbrev' if 'abbrev ' in m[0] else 'unfoldable' if 'unfoldable ' in m[0] else '')
            self.public = 'pub ' in m[0]
            stop = next((i for i in range(at + 1, len(lines)) if len(lines[i]) - len(lines[i].lstrip()) <= indent), len(lines))
            self.said = lines[at:stop]


def items(lines, indent):
    found, now = [], []
    for i, l in enumerate(lines):
        if now and not l.strip():
            after = next((x for x in lines[i:] if x.strip()), None)
            if after is None or len(after) - len(after.lstrip()) == indent:
                found.append(now)
                now = []
                continue
            now.append(l)
        elif l.strip() or now:
            now.append(l)
    if now:
        found.append(now)
    return [Item(x, indent) for x in found]


def parts(text):
    """Returns the comment at the head, the use lines, and the items."""
    lines = text.rstrip('\n').split('\n')
    at = 0
    while at < len(lines) and lines[at].startswith('--'):
        at += 1
    last = at
    while last < len(lines) and re.match(r'(pub )?use ', lines[last]):
        last += 1
    return lines[:at], lines[at:last], items(lines[last:], 0)


def chosen(its, want, sections=True):
    """Returns the lines of the items that want takes, each block with its head, and a section's comment where something of it is left."""
    out, section = [], None
    for it in its:
        if it.items is not None:
            within = chosen(it.items, want, sections)
            if not within:
                continue
            piece = [*it.comment, *it.head, *within]
        elif it.name is None:
            section = it.lines if sections else None
            continue
        elif want(it):
            piece = it.lines
        else:
            continue
        if section:
            out += ([''] if out else []) + section
            section = None
        out += ([''] if out else []) + piece
    return out


def names_in(text):
    return set(re.findall(r"[^\s(){}\[\].,;]+", re.sub(r'--.*', '', text)))


def used(name, text, tokens):
    bare = name.split(' as ')[-1].strip()
    if bare == '[]':
        return '[]' in re.sub(r'--.*', '', text)
    if '◌' in bare:
        inner = bare.strip('◌')
        return inner in tokens or bare in tokens
    return bare in tokens or any(t.startswith('←' + bare) for t in tokens)


def pruned(uses, body):
    """Drops from the use lines what the body does not name."""
    tokens = names_in(body)
    heads = set(re.findall(r"([^\s(){}\[\].,;]+)\.", body))
    out = []
    for l in uses:
        m = re.match(r'((?:pub )?use \S*?)\{(.*)\}$', l)
        if m:
            kept = [n for n in m[2].split(', ') if used(n, body, tokens)]
            if kept:
                out.append(f"{m[1]}{{{', '.join(kept)}}}")
        else:
            bare = l.split(' as ')[-1].split('.')[-1].strip()
            if bare in heads or bare in tokens:
                out.append(l)
    return out


def declared_in(its):
    for it in its:
        if it.items is not None:
            yield from declared_in(it.items)
        elif it.name:
            yield it


# ---- the moves

def lib(crate, add, drop):
    there = path('crates', crate, 'specs', 'Lib.antt')
    write(there, ''.join(l for l in read(there).splitlines(True) if l.strip() not in {f'pub mod {m}' for m in drop}))
    here = path('crates', crate, 'proofs', 'Lib.antt')
    text = read(here) if os.path.exists(here) else PROOFS_HEAD[crate]
    for m in add:
        if f'mod {m}\n' not in text:
            text += f'pub mod {m}\n'
    write(here, text)


def move():
    for crate, modules in WHOLE.items():
        for m in modules:
            old, new = path('crates', crate, 'specs', m + '.antt'), path('crates', crate, 'proofs', m + '.antt')
            if os.path.exists(old):
                if os.path.exists(new):
                    sys.exit(f'{m} of {crate} stands in specs/ and in proofs/')
                os.makedirs(os.path.dirname(new), exist_ok=True)
                os.rename(old, new)
                print('moved', crate, m)
        lib(crate, modules, modules)
    for (crate, m), s in [(k, s) for k, ss in LIFTED.items() for s in ss]:
        old, new = path('crates', crate, 'proofs', m + '.antt'), path('crates', crate, 'specs', s['to'] + '.antt')
        comment, uses, its = parts(read(old))
        going = lambda it: it.name in s['names'] and it.kind
        found = {it.name for it in declared_in(its) if going(it)}
        if not found:
            continue
        if found != set(s['names']):
            sys.exit(f"{m} of {crate} has no {set(s['names']) - found}")
        there, there_uses, there_its = parts(read(new))
        gone, kept = chosen(its, going, False), chosen(its, lambda it: not going(it))
        has = {it.name for it in declared_in(there_its)} | {n.split(' as ')[-1].strip() for l in there_uses for n in re.sub(r'.*\{|\}', '', l).split(',')}
        more = []
        gone = s.get('text', gone)
        for l in pruned(uses, '\n'.join(gone)):
            names = [n for n in re.sub(r'.*\{|\}', '', l).split(', ') if n not in has]
            line = re.sub(r'\{.*\}', '{' + ', '.join(names) + '}', l)
            same = next((i for i, x in enumerate(there_uses) if x.split('{')[0] == l.split('{')[0] and len(x) + len(line) < 150), None)
            if names and same is not None:
                there_uses[same] = there_uses[same][:-1] + ', ' + ', '.join(names) + '}'
            elif names:
                more.append(line)
        at = max(i for i, l in enumerate(there_uses) if 'declared' not in l and f'.{crate}.' not in l)
        body = read(new).split('\n', len(there) + len(there_uses))[-1].rstrip('\n')
        write(new, '\n'.join([*there, *there_uses[:at + 1], *more, *there_uses[at + 1:], body, '', s['head'], '', *gone]) + '\n')
        if 'given' in s:
            word = re.compile(r"(?<![\w.'-])(" + '|'.join(s['names']) + r")(?![\w.'-])")
            kept = [l if l.strip().startswith('--') else word.sub(rf"\1 {s['given']}", l) for l in kept]
            kept = [l.replace(*s['but']) if s['but'][0] else l for l in kept]
        tokens = names_in('\n'.join(kept))
        own = [n for n in s['names'] if n in tokens]
        own = [f"use Rattle.{crate}.specs.{s['to']}.{{{', '.join(own)}}}"] if own else []
        write(old, '\n'.join([*comment, *pruned(uses, '\n'.join(kept)), *own, '', *kept]) + '\n')
        print('lifted', crate, s['names'], 'to', s['to'])
    for (crate, m), s in SPLIT.items():
        old, new = path('crates', crate, 'specs', m + '.antt'), path('crates', crate, 'proofs', s['to'] + '.antt')
        comment, uses, its = parts(read(old))
        going = lambda it: it.name in s['names']
        if any(going(it) for it in declared_in(its)):
            if os.path.exists(new):
                sys.exit(f"theorems of {m} of {crate} stand in specs/ and in proofs/{s['to']}")
            missing = set(s['names']) - {it.name for it in declared_in(its)}
            if missing:
                sys.exit(f'{m} of {crate} has no {missing}')
            gone, kept = chosen(its, going), chosen(its, lambda it: not going(it))
            for given, names in s.get('given', {}).items():
                word = re.compile(r'(?<![\w.\'-])(' + '|'.join(names) + r')(?![\w.\'-])')
                gone = [l if l.strip().startswith('--') else word.sub(rf'\1 {given}', l) for l in gone]
            stay = [it.name for it in declared_in(its) if not going(it) and it.public]
            stay += [n for it in declared_in(its) if it.kind == 'data' for n in re.findall(r'^\s+(\S+) :', '\n'.join(it.lines[1:]), re.M)]
            tokens = names_in('\n'.join(gone))
            stay = [n for n in stay if n in tokens]
            own, now = [], f'use Rattle.{crate}.specs.{m}.{{'
            for n in stay:
                if len(now) + len(n) > 108:
                    own.append(now[:-2] + '}')
                    now = f'use Rattle.{crate}.specs.{m}.{{'
                now += n + ', '
            if stay:
                own.append(now[:-2] + '}')
            write(new, s['head'] + '\n'.join([*pruned(uses, '\n'.join(gone)), *own, '', *gone]) + '\n')
            write(old, '\n'.join([*comment, *pruned(uses, '\n'.join(kept)), '', *kept]) + '\n')
            print('split', crate, m)
        lib(crate, [s['to']], [])


# ---- the imports

def files(*ends):
    for top, folders, names in os.walk(path('crates')):
        folders[:] = sorted(f for f in folders if f != 'out')
        for n in sorted(names):
            if n.endswith(ends):
                yield os.path.join(top, n)


def places():
    """Of each module that is here: where its names stand now, those of some names and that of the others."""
    found = {}
    for crate, modules in WHOLE.items():
        for m in modules:
            found[crate, m] = ({n: f"specs.{s['to']}" for s in LIFTED.get((crate, m), []) for n in s['names']}, f'proofs.{m}')
    for (crate, m), s in SPLIT.items():
        found[crate, m] = ({n: f"proofs.{s['to']}" for n in s['names']}, f'specs.{m}')
    return found


def imports():
    for p in files('.antt', '.rt'):
        text = was = read(p)
        for (crate, m), (some, others) in places().items():
            def lines(found):
                here = {}
                for n in [n.strip() for n in found[2].split(',') if n.strip()]:
                    here.setdefault(some.get(n.split(' as ')[0].strip(), others), []).append(n)
                if list(here) == [others]:
                    return f'{found[1]}Rattle.{crate}.{others}.{{{found[2]}}}{found[3]}'
                return '\n'.join(f"{found[1]}Rattle.{crate}.{place}.{{{', '.join(names)}}}{found[3]}" for place, names in here.items())
            text = re.sub(rf'^([ \t]*(?:pub |ghost )*use )Rattle\.{crate}\.(?:specs|proofs)\.{m}\.\{{([^}}]*)\}}(;?)', lines, text, flags=re.M)
            ways = '|'.join(re.escape(n) for n in sorted(some, key=len, reverse=True))
            if some:
                text = re.sub(rf"\bRattle\.{crate}\.(?:specs|proofs)\.{m}\.({ways})(?![\w'-])", lambda w: f'Rattle.{crate}.{some[w[1]]}.{w[1]}', text)
                other = re.search(rf'use Rattle\.{crate}\.(?:specs|proofs)\.{m} as (\w+)|use Rattle\.{crate}\.(?:specs|proofs)\.({m})(?![\w.])', text)
                if other:
                    found = re.findall(rf"(?<![\w.]){other[1] or other[2]}\.({ways})(?![\w'-])", text)
                    if found:
                        print(f'BY HAND: {os.path.relpath(p, ROOT)} names {found} of {m}')
            text = re.sub(rf'\bRattle\.{crate}\.specs\.{m}\b', f'Rattle.{crate}.{others}', text)
        if text != was:
            write(p, text)
        crate = os.path.relpath(p, path('crates')).split(os.sep)[0]
        if os.sep + 'specs' + os.sep in p and f'Rattle.{crate}.proofs.' in text:
            print(f'BY HAND: {os.path.relpath(p, ROOT)}, of specs/, names proofs/ of its own crate')


def edits():
    for name, after, pair in EDITS:
        p = path(name)
        if os.path.exists(p) and pair not in read(p):
            write(p, read(p).replace(after, after + pair))


def texts():
    for name, old, new in TEXT:
        p = path(name)
        if os.path.exists(p) and old in read(p) and new not in read(p):
            write(p, read(p).replace(old, new))
    pages = [path('README.md')] + [path('docs', n) for n in sorted(os.listdir(path('docs'))) if n.endswith('.md') and n != 'PORT.md']
    for p in pages:
        text = read(p)
        for (crate, m), (some, others) in places().items():
            if others.startswith('proofs.'):
                text = re.sub(rf'\b{crate}/specs/{m}\b', f'{crate}/proofs/{m}', text)
            ways = '|'.join(re.escape(n) for n in sorted(some, key=len, reverse=True))
            if some:
                text = re.sub(rf"\b{m}\.({ways})(?![\w'-])", lambda w: f"{some[w[1]].split('.')[1]}.{w[1]}", text)
        write(p, text)


# ---- the list

HEADING = '## Theorems that moved from specs/ to proofs/\n'


def statements(its, want, indent=0):
    out = []
    for it in its:
        if it.items is not None:
            within = statements(it.items, want)
            if within:
                out += [*it.head, *within]
        elif it.name and want(it):
            out += it.said
    return out


def listed():
    whole = [(c, m, m, None) for c, ms in WHOLE.items() for m in ms]
    split = [(c, m, s['to'], s) for (c, m), s in SPLIT.items()]
    out = [HEADING, '''
An edit of a definition reads as one that cannot be read where a theorem in specs/ falls on which another in specs/ rests. So
the modules of `model` and `theorems` that have theorems which such an edit makes fall, or which rest on these, stand in proofs/ of
their crate, and each edit stands where it stood. Those that are `pub` are named by other crates as `Rattle.model.proofs.M.t`; the
others are steps of their module's proofs. None is gone, and none has another name. Statements and proofs are word for word what
they were, but for one thing: a definition that a theorem had beside it in a `module _` and that stays in specs/ takes that block's
parameter as an argument that is written out, where before it was understood, and is the same term. So it is with `Agree`,
`RightsInside`, `Closed` and `Whole` of the block in `IsolatedReplies` (`Agree block b c` for `Agree b c`) and with `derived` and
`holding` of the base in `HoldsLaws`, and `IsEarliest` of the base and the request in `StepFacts`. (The proof of `starred_number` in
`HoldsKeys` is in other words too, as is said above.) Definitions that a contract, a definition of specs/ or a theorem that stays in
specs/ leans on stay in specs/, but for `rounds` of `HoldsFacts`, which three steps of proofs in laws/specs/Transfer name. Some of them
stood beside the theorems, and stand beside other definitions now, word for word but for `IsEarliest`, whose `asked_head` is written
out: @LIFTED@.
No definition had to become `unfoldable`. tools/theorems_to_proofs.py moved all of it, and wrote this list from the files. A theorem
inside a `module _` takes the parameters of that line first.
''']
    out[-1] = out[-1].replace('@LIFTED@', '; '.join(f"{', '.join(f'`{n}`' for n in s['names'])} in `{s['to']}`" for ss in LIFTED.values() for s in ss))
    for crate, m, to, s in whole + split:
        _, _, its = parts(read(path('crates', crate, 'proofs', to + '.antt')))
        is_theorem = lambda it: not it.kind or s and it.name in s.get('proofs', [])
        theorems = statements(its, is_theorem)
        count = sum(1 for it in declared_in(its) if is_theorem(it))
        with_them = [it.name for it in declared_in(its) if not is_theorem(it)]
        out.append(f"\n### `{crate}/specs/{m}` to `{crate}/proofs/{to}`\n\n{count} theorem{'s' * (count != 1)}")
        out.append(f"; with them the definition{'s' * (len(with_them) != 1)} {', '.join(f'`{n}`' for n in with_them)}.\n" if with_them else '.\n')
        out.append('\n```\n' + '\n'.join(theorems) + '\n```\n')
    p = path('docs', 'PORT.md')
    text = read(p) if os.path.exists(p) else ''
    at = text.find(HEADING)
    if at >= 0:
        after = re.search(r'^## (?!Theorems that moved)', text[at + len(HEADING):], re.M)
        rest = text[at + len(HEADING) + after.start():] if after else ''
        text = text[:at].rstrip('\n') + '\n\n' + (rest.rstrip('\n') + '\n\n' if rest else '')
    else:
        text = text.rstrip('\n') + '\n\n'
    write(p, text + ''.join(out))


move()
imports()
edits()
texts()
listed()
