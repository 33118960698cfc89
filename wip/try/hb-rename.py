#!/usr/bin/env python3
"""One meaning a name: renames in a tree of this repository. Use: hb-rename.py ROOT. Can be applied to any version of the
tree; what is not found is reported and passed over. Scope of a name is found by the imports (`use Rattle·..`)."""
import os, re, sys, glob, subprocess

ROOT = sys.argv[1] if len(sys.argv) > 1 else '.'
os.chdir(ROOT)

IDCH = r"A-Za-z0-9_\-′″‴₀₁₂₃₄₅₆₇₈₉·?!→←#"

def token(name):
    return re.compile(r"(?<![%s.])(?<!::)%s(?![%s])" % (IDCH, re.escape(name), IDCH))

def read(p):
    with open(p, encoding='utf-8') as f: return f.read()

def write(p, s):
    with open(p, 'w', encoding='utf-8') as f: f.write(s)

TEXT = {}
def load():
    TEXT.clear()
    for pat in ('crates/*/src/**/*.rt', 'crates/*/specs/**/*.antt', 'crates/*/proofs/**/*.antt', 'crates/*/must-fail*/*.edit'):
        for p in glob.glob(pat, recursive=True): TEXT[p] = read(p)

DIRTY = set()
def put(p, s):
    if TEXT[p] != s: TEXT[p] = s; DIRTY.add(p)

def flush():
    for p in sorted(DIRTY): write(p, TEXT[p])
    DIRTY.clear()

def warn(*a): print('!!', *a)

def split_comment(line, rt):
    """code, comment"""
    k = line.find('//') if rt else -1
    if not rt:
        m = re.search(r'(^|\s)--(\s|$)', line)
        k = m.start() if m else -1
    return (line, '') if k < 0 else (line[:k], line[k:])

def sub_code(text, rx, new, rt, comments=True):
    out = []
    for line in text.split('\n'):
        code, com = split_comment(line, rt)
        code = rx.sub(new, code)
        if comments and com:
            com = re.sub(r'`([^`]*)`', lambda m: '`' + rx.sub(new, m.group(1)) + '`', com)
        out.append(code + com)
    return '\n'.join(out)

def edit_scope(p, files):
    """a must-fail edit follows the file that it edits"""
    m = re.search(r'^file: (\S+)', TEXT[p], re.M)
    return m and '/'.join(p.split('/')[:2]) + '/' + m.group(1) in files

def importers(crate, mod, name):
    """files that import `name` from a module (dotted, below the crate), with their aliases"""
    head = r"use Rattle·%s(?:·specs|·proofs)?\.%s" % (crate, re.escape(mod))
    braces = re.compile(head + r"\.\{([^}]*)\}", re.S)
    alias = re.compile(head + r" as (\S+?);?$", re.M)
    t = token(name)
    direct, aliased = set(), {}
    for p, s in TEXT.items():
        for m in braces.finditer(s):
            if t.search(m.group(1)): direct.add(p)
        for m in alias.finditer(s): aliased[p] = m.group(1)
    return direct, aliased

def binder(name, s):
    n = re.escape(name)
    return re.search(r"\(([^():]* )?%s( [^():]*)?:|\{([^{}:]* )?%s( [^{}:]*)?:|let %s\b|λ ([^.]* )?%s( [^.]*)?\." % (n, n, n, n), s)

def rename_spec(crate, part, module, old, new):
    home = f'crates/{crate}/{part}/{module}.antt'
    if home not in TEXT: warn('no file', home, old); return
    if not re.search(r'^\s*(pub |unfoldable |abbrev |record |data )*%s(\s|$)' % re.escape(old), TEXT[home], re.M):
        warn('not declared', home, old); return
    files = {home}
    aliases = {}
    todo = [(crate, f'{part}.{module}')]
    while todo:
        c, mod = todo.pop()
        d, a = importers(c, mod, old)
        files |= d
        aliases.update(a)
        for p in d:
            m = re.search(r'^pub use Rattle·%s(?:·specs|·proofs)?\.%s\.\{([^}]*)\}' % (c, re.escape(mod)), TEXT[p], re.M)
            if m and token(old).search(m.group(1)):
                q = p.split('/')
                todo.append((q[1], q[2] + '.' + q[-1][:-5]))
    # a field of a record that is made, `record { old = ..; }`, keeps its name
    t = re.compile(r'(?<![{;] )' + token(old).pattern + r'|(?<=[{;] )' + token(old).pattern + r'(?! =)')
    for p in sorted(files):
        s = TEXT[p]
        if token(new).search(s): warn('new name is there already:', p, old, '->', new)
        body = re.sub(r'use [^;{]*\{[^}]*\}', '', s)
        if binder(old, body): warn('bound locally:', p, old)
        m = re.search(r'[{ ,]%s as (\S+?)[,}]' % re.escape(old), s)
        rt = p.endswith('.rt')
        if m:
            put(p, s.replace(m.group(0), m.group(0).replace(old + ' as', new + ' as')))
        else:
            put(p, sub_code(s, t, new, rt))
    for p, al in aliases.items():
        put(p, re.sub(r'(?<![%s.])%s\.%s(?![%s])' % (IDCH, re.escape(al), re.escape(old), IDCH), al + '.' + new, TEXT[p]))
    for p in TEXT:
        if p.endswith('.edit') and edit_scope(p, files): put(p, edit_lines(TEXT[p], t, new))

def edit_lines(s, rx, new):
    out = []
    on = False
    for line in s.split('\n'):
        if re.match(r'(old|new):', line): on = True
        if re.match(r'(#|file:)', line): on = False
        out.append(rx.sub(new, line) if on else line)
    return '\n'.join(out)

def kebab(n): return n.replace('_', '-')

def rename_fn(crate, module, old, new):
    """a function of Rattle: its code, its proof's folder, and the proofs of its callers"""
    src = [p for p in TEXT if re.match(r'crates/[^/]*/src/', p)]
    own = [p for p in src if p.startswith(f'crates/{crate}/src/')]
    if module: home = f'crates/{crate}/src/{module}.rt'
    else: home = next((p for p in own if p.endswith(('/lib.rt', '/main.rt'))), None)
    if home not in TEXT or not re.search(r'\bfn %s\(' % old, TEXT[home]): warn('no fn', crate, module, old); return
    callers = {}
    def fns(s):
        cur = None
        for line in s.split('\n'):
            m = re.match(r'\s*(?:pub )?(?:extern "C" )?fn (\w+)', line)
            if m: cur = m.group(1)
            yield cur, line
    touched = set()
    for p in src:
        c = p.split('/')[1]
        s = TEXT[p]
        bare = p == home or re.search(r'^(pub )?use (crate::)?%s::%s;' % (module, old) if module and c == crate else r'^(pub )?use (crate|%s)::%s;' % (crate, old), s, re.M)
        if c == crate and not bare and not module and re.search(r'\bcrate::%s\(' % old, s): pass
        qual = [f'{crate}::{old}', f'crate::{old}' if c == crate else None, f'{module}::{old}' if module and c == crate else None]
        out = []
        cur_fn = None
        for cur, line in fns(s):
            code, com = split_comment(line, True)
            before = code
            # ghost lines of contracts have no calls of functions; a spec name before `(`, as `f (x)`, has a blank
            for q in qual:
                if q: code = re.sub(r'(?<![\w:])%s(?=\(|;)' % re.escape(q), q[:-len(old)] + new, code)
            code = re.sub(r'^((?:pub )?use (?:\w+::)*)%s;' % old, (r'\g<1>' + new + ';') if bare else r'\g<0>', code)
            if bare: code = re.sub(r'(?<![\w.:])%s(?=\()' % old, new, code)
            com = re.sub(r'`%s`' % old, f'`{new}`', com) if bare else com
            if code != before: callers.setdefault((c, p), set()).add(cur); touched.add(p)
            out.append(code + com)
        put(p, '\n'.join(out))
    k, n = kebab(old), kebab(new)
    one = '-' not in k
    # own proof
    folder = f'crates/{crate}/proofs/' + (module + '/' if module else '') + old
    dest = f'crates/{crate}/proofs/' + (module + '/' if module else '') + new
    path_old = (module.replace('/', '.') + '.' if module else '') + old
    path_new = (module.replace('/', '.') + '.' if module else '') + new
    for p in list(TEXT):
        if not p.endswith('.antt') : continue
        s = TEXT[p]
        s2 = re.sub(r'(Rattle·%s(?:·proofs)?\.proofs\.)%s(?=\.)' % (crate, re.escape(path_old)), r'\g<1>' + path_new, s)
        if p.startswith(folder + '/'):
            s2 = re.sub(r'(?<![%s])%s-spec' % (IDCH, k), n + '-spec', s2)
            s2 = re.sub(r'`((?:\w+::)*)%s`' % old, r'`\g<1>' + new + '`', s2)
        put(p, s2)
    flush()
    if os.path.isdir(folder):
        subprocess.check_call(['git', 'mv', folder, dest])
        load()
    # callers' proofs
    for (c, p), names in callers.items():
        m = '/'.join(p.split('/')[3:])[:-3]
        for f in names:
            if f is None or f == new: continue
            base = f'crates/{c}/proofs/' + ('' if m in ('lib', 'main') else m + '/') + f + '/Proof.antt'
            if base not in TEXT:
                for q in TEXT:
                    if q.endswith('/Proof.antt') and q.startswith(f'crates/{c}/proofs/') and '+' in q and f in re.split(r'[+/]', q): base = q
            if base not in TEXT: continue
            s = TEXT[base]
            if one:
                end = r'(?=\d*(?![A-Za-z0-9_\-′]))'
                s2 = re.sub(r'(?<= \.)%s%s|(?<=-)%s%s|(?<![A-Za-z0-9_′])%s(?=\d*-(?:requires|reads))' % (k, end, k, end, k), n, s)
            else:
                s2 = re.sub(r'(?<![A-Za-z0-9_′])%s(?=\d*(?![A-Za-z_′]))' % k, n, s)
            put(base, s2)
    for p in TEXT:
        if p.endswith('.edit') and edit_scope(p, touched):
            put(p, edit_lines(TEXT[p], re.compile(r'(?<![\w.])%s(?=\()' % old), new))
    flush()

def rename_type(crate, module, old, new):
    """a struct or enum of Rattle"""
    t = re.compile(r'(?<![%s.])%s(?![%s])' % (IDCH, old, IDCH))
    dec = 'declared.' + (module + '.' if module else '')
    files = set()
    for p, s in TEXT.items():
        c = p.split('/')[1]
        if p.endswith('.rt') and (c == crate or re.search(r'\b%s::%s\b' % (crate, old), s)): files.add(p)
        elif re.search(r'Rattle·%s(·specs|·proofs)?\.specs\.%s%s\.' % (crate, re.escape(dec), old), s): files.add(p)
    for p in files:
        put(p, sub_code(TEXT[p], t, new, p.endswith('.rt')))
        put(p, re.sub(r'(Rattle·%s(?:·specs|·proofs)?\.specs\.%s)%s(?=\.)' % (crate, re.escape(dec), old), r'\g<1>' + new, TEXT[p]))
    for p in TEXT:
        if p.endswith('.edit') and edit_scope(p, files): put(p, edit_lines(TEXT[p], t, new))
    flush()

def rename_file(crate, part, old, new):
    a, b = f'crates/{crate}/{part}/{old}.antt', f'crates/{crate}/{part}/{new}.antt'
    if a not in TEXT: warn('no file', a); return
    flush()
    subprocess.check_call(['git', 'mv', a, b])
    load()
    for p in TEXT:
        s = TEXT[p]
        s2 = re.sub(r'(Rattle·%s(?:·specs|·proofs)?\.%s\.)%s(?=\.\{| as )' % (crate, part, old), r'\g<1>' + new, s)
        if p == f'crates/{crate}/{part}/Lib.antt': s2 = re.sub(r'^(pub mod )%s$' % old, r'\g<1>' + new, s2, flags=re.M); s2 = s2.replace(f'`{old}`', f'`{new}`')
        if p.endswith('.edit') and p.startswith(f'crates/{crate}/'): s2 = s2.replace(f'file: {part}/{old}.antt', f'file: {part}/{new}.antt')
        put(p, s2)
    flush()

def rename_var(files, old, new):
    t = re.compile(r'(?<![%s])%s(?![%s])' % (IDCH, old, IDCH))
    for pat in files:
        for p in glob.glob(pat, recursive=True):
            if p.endswith('.edit'): put(p, edit_lines(TEXT[p], t, new))
            else: put(p, sub_code(TEXT[p], t, new, p.endswith('.rt')))
    flush()

def literal(path, old, new):
    ps = glob.glob(path, recursive=True)
    hit = False
    for p in ps:
        s = TEXT.get(p) if p in TEXT else read(p)
        if old in s:
            hit = True
            if p in TEXT: put(p, s.replace(old, new))
            else: write(p, s.replace(old, new))
    if not hit: warn('not found', path, repr(old)[:60])
    flush()

def run(table):
    load()
    for row in table:
        kind = row[0]
        {'spec': rename_spec, 'fn': rename_fn, 'type': rename_type, 'file': rename_file, 'var': rename_var, 'lit': literal}[kind](*row[1:])
        flush()

from importlib.machinery import SourceFileLoader
tables = SourceFileLoader('hbtable', os.path.join(os.path.dirname(os.path.abspath(__file__)), 'hb-table.py')).load_module()
table = getattr(tables, os.environ.get('HB_TABLE', 'TABLE'))   # HB_TABLE=DOCS: a part alone
run(table)
