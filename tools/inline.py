#!/usr/bin/env python3
"""Puts helpers of Answers.antt that take an older context into the answers that use them, as lets. usage: inline.py NAMES CRATE"""
import json, os, re, sys
names_dir, crate = sys.argv[1], sys.argv[2].rstrip('/')
name = os.path.basename(crate)
names = json.load(open(f"{names_dir}/crates/{name}/names.json"))
src = open('tools/answers.py').read()
ns = {}
i = src.index('def blocks(text)'); j = src.index('def spec_args')
exec("import re\n" + src[i:j], ns)
blocks, cur_sig, decl_name = ns['blocks'], ns['cur_sig'], ns['decl_name']
T = r"[^\s(){}.;,@\"«»\[\]]+"
def split(b):
    com = [l for l in b if l.startswith('--')]
    body = [l for l in b if not l.startswith('--')]
    nm = decl_name(b)
    k = 1
    while k < len(body) and (body[k].startswith(' ') or body[k] == ''): k += 1
    sig = ' '.join(l.strip() for l in body[:k])
    unf = []
    if k < len(body) and body[k].startswith('unfolding'): unf = body[k].split()[1:]; k += 1
    eqs = body[k:]
    n = sum(1 for l in eqs if re.match(rf"{re.escape(nm)}(\s|$)", l))
    return com, nm, sig, unf, eqs, n
def closing(s, i):
    d = 0
    for k in range(i, len(s)):
        if s[k] in '({[': d += 1
        elif s[k] in ')}]':
            d -= 1
            if d == 0: return k
    return -1
report = []
for d, ds, fs in os.walk(f"{crate}/proofs"):
    if 'Answers.antt' not in fs: continue
    p = f"{d}/Answers.antt"; t = open(p).read()
    mod = '.'.join(os.path.relpath(d, f"{crate}/proofs").split('/'))
    n = names.get(f"Rattle-{name}-proofs.{mod}.Lts")
    if not n: continue
    asked = {}
    for (o, g), at in zip(n['needs'], n['asked_at']): asked[g] = at[1]
    bs = blocks(t)
    macros, answers = {}, []
    for b in bs:
        s = cur_sig(b)
        if s.startswith(('use ', 'module', 'record', 'data')): continue
        com, nm, sig, unf, eqs, cnt = split(b)
        m = re.match(r"^(?:abbrev |pub )*\S+ : (?:\{[^}]*\} )*\((\w+) : goal\.([^\s)]+)[^)]*\) → (.*)$", sig)
        ty = None
        if m: ty = (m.group(1), m.group(2), m.group(3))
        else:
            m = re.match(r"^(?:abbrev |pub )*\S+ : goal\.(\S+)(?: [^→]*)? → (.*)$", sig)
            if m: ty = (None, m.group(1), m.group(2))
        if ty:
            if cnt != 1: report.append(f"{mod}: {nm} has {cnt} equations"); continue
            lhs, rhs = '\n'.join(eqs).split('=', 1)
            pats = lhs.split()[1:]
            if not pats or any(re.search(r"[()]", x) for x in pats): report.append(f"{mod}: {nm} has patterns"); continue
            macros[nm] = dict(ty=ty, pats=pats, body=rhs, unf=unf, com=com, b=b)
        elif re.match(r"^pub \S+ : goal\.", sig): answers.append(b)
    if not macros: continue
    words = lambda x: set(re.findall(T, x))
    # which contexts use a macro
    bad = set()
    uses = {nm: set() for nm in macros}
    def closure(ws):
        out, todo = set(), [w for w in ws if w in macros]
        while todo:
            w = todo.pop()
            if w in out: continue
            out.add(w); todo += [x for x in words(macros[w]['body'] + ' ' + macros[w]['ty'][2]) if x in macros]
        return out
    for b in answers:
        com, nm, sig, unf, eqs, cnt = split(b)
        for w in closure(words('\n'.join(eqs))): uses[w].add(asked.get(nm))
    for nm, m in macros.items():
        for w in closure(words(m['body'] + ' ' + m['ty'][2])):
            uses[w].add(m['ty'][1])
    proj = {nm for nm, m in macros.items() if re.match(r"goal\.\S+", m['ty'][2]) and '→' not in m['ty'][2]}
    if not proj and all(u <= {macros[nm]['ty'][1]} for nm, u in uses.items()): continue
    order = list(macros)
    def strip_calls(x, drop_proj=True):
        # projections vanish, and a macro loses its context
        changed = True
        while changed:
            changed = False
            for nm in macros:
                for mm in re.finditer(rf"(?<![^\s(){{}}\[\];,@]){re.escape(nm)}(?![^\s(){{}}.;,@\[\]])\s+", x):
                    k = mm.end()
                    if k < len(x) and x[k] == '(':
                        e = closing(x, k)
                        if e < 0: continue
                        arg = x[k:e + 1]; rest = x[e + 1:]
                    else:
                        q = re.match(r"[^\s(){};,@\[\]]+", x[k:])
                        if not q: continue
                        arg = q.group(); rest = x[k + len(arg):]
                        if '.' in arg or not re.match(r"^[\w₀-₉']+$", arg): 
                            if nm not in proj: continue
                    if nm in proj: new = arg
                    else: new = '\0' + nm[::1].replace('', '\1') + '\0'
                    x = x[:mm.start()] + new + rest
                    changed = True
                    break
        x = x.replace('\1', '').replace('\0', '')
        return x
    out_blocks = []
    for b in bs:
        s = cur_sig(b)
        if b in answers:
            com, nm, sig, unf, eqs, cnt = split(b)
            need = [w for w in order if w in closure(words('\n'.join(eqs)))]
            if need:
                if cnt != 1: report.append(f"{mod}: answer {nm} has {cnt} equations"); out_blocks.append(b); continue
                lhs, rhs = '\n'.join(eqs).split('=', 1)
                if len(lhs.split()) == 1:
                    q = re.match(r"\s*λ (\S+)\.\s+(.*)$", rhs, re.S)
                    if q: lhs = lhs.split()[0] + ' ' + q.group(1) + ' '; rhs = ' ' + q.group(2)
                    else: lhs = lhs.split()[0] + ' c '; rhs = ' ' + rhs.strip() + ' c'
                cv = lhs.split()[1] if len(lhs.split()) > 1 else 'c'
                lets = []
                for w in need:
                    m = macros[w]
                    unf = unf + [u for u in m['unf'] if u not in unf]
                    if w in proj: continue
                    body, ty = m['body'], m['ty'][2]
                    def sub(x, v):
                        return x if v is None or v == cv else re.sub(rf"(?<![^\s(){{}}\[\];,@]){re.escape(v)}(?![^\s(){{}}.;,@\[\]])", cv, x)
                    body = sub(body, m['pats'][0]); ty = sub(ty, m['ty'][0] or m['pats'][0])
                    rest = m['pats'][1:]
                    body = body.strip('\n').rstrip()
                    if rest: body = f" λ {' '.join(rest)}." + (body if body.startswith(' ') else ' ' + body)
                    lets.append('    ' + f"let {w} : {strip_calls(ty)} ={strip_calls(body) if body.startswith((' ', chr(10))) else ' ' + strip_calls(body)} in")
                rhs = strip_calls(rhs)
                text = lhs.rstrip() + ' =\n' + '\n'.join(lets) + ('\n' if lets else '') + ('    ' + rhs.strip('\n').lstrip() if not rhs.startswith('\n') else rhs.lstrip('\n'))
                out_blocks.append(com + [sig] + (['unfolding ' + ' '.join(unf)] if unf else []) + text.split('\n'))
                continue
        elif not s.startswith(('use ', 'module', 'record', 'data')) and decl_name(b) in macros: continue
        out_blocks.append(b)
    # lay out: imports together
    res = ''
    for b in out_blocks:
        u = cur_sig(b).startswith('use ')
        res += '\n'.join(b) + ('\n' if u else '\n\n')
        if u: lastuse = len(res)
    res = re.sub(r"(use [^\n]*\n)(?!use )", r"\1\n", res, count=0)
    res = re.sub(r"\n{3,}", "\n\n", res).rstrip() + '\n'
    open(p, 'w').write(res)
print('\n'.join(report))
