#!/usr/bin/env python3
"""Turns a crate's proofs/**/Proof.antt that answer needs by tie.spec into Invariants.antt and Answers.antt.
usage: answers.py NAMES CRATE_FOLDER [FUNCTION ..]   NAMES: the folder of `rt names`"""
import json, os, re, sys
names_dir, crate = sys.argv[1], sys.argv[2].rstrip('/')
only = set(sys.argv[3:])
name = os.path.basename(crate)
names = json.load(open(f"{names_dir}/crates/{name}/names.json"))
norm = lambda s: s.replace('_', '-').replace("--", '-')
W = r"[^\s(){}.;,@\"«»\[\]]+"
TOK = re.compile(r"--[^\n]*|" + W + r"|[(){}.;,\[\]]")

def mut_params():
    """function name -> list of (param, is_mut)"""
    out = {}
    base = os.path.dirname(crate)
    for c in os.listdir(base):
        src = os.path.join(base, c, 'src')
        if not os.path.isdir(src): continue
        for d, _, fs in os.walk(src):
            for f in fs:
                if f.endswith('.rt'):
                    t = open(os.path.join(d, f)).read()
                    for m in re.finditer(r"\bfn (\w+)(?:<[^>]*>)?\s*\(([^)]*)\)", t):
                        ps = []
                        for p in re.split(r",(?![^<\[]*[>\]])", m.group(2)):
                            p = p.strip()
                            if ':' in p:
                                n, ty = p.split(':', 1); ps.append((n.replace('mut ', '').strip(), ty.strip().startswith('&mut') or ty.strip().startswith("&'") and 'mut' in ty))
                            elif 'self' in p: ps.append(('self', '&mut' in p))
                        out.setdefault(m.group(1), []).append((c, ps))
    return out
PARAMS = mut_params()
def params_of(fn):
    if not fn: return None
    parts = fn.split('::')
    cands = PARAMS.get(parts[-1], [])
    here = [ps for c, ps in cands if c == parts[0]]
    return (here or [ps for _, ps in cands] or [None])[0]

def blocks(text):
    """Top-level declarations: lists of lines; a comment goes with what follows."""
    out, cur, pend = [], [], []
    ls = text.split('\n')
    for i, l in enumerate(ls):
        if not l.strip():
            nxt = next((x for x in ls[i + 1:] if x.strip()), '')
            if cur and nxt[:1] == ' ' : cur.append(''); continue
            if cur: out.append(cur); cur = []
            continue
        if l[0] not in ' )}]' and cur:
            head = re.match(r"^(?:abbrev |unfoldable |pub )*(\S+)", cur_sig(cur))
            nm = re.match(r"^(?:abbrev |unfoldable |pub )*(\S+)", l)
            starts_new = l.startswith(('use ', '--', 'abbrev ', 'unfoldable ', 'pub ', 'record ', 'data ', 'module ', 'mod ')) or (not l.startswith('unfolding') and nm and head and nm.group(1) != head.group(1))
            if all(x.startswith('--') for x in cur): starts_new = False
            if cur[0].startswith('use '): starts_new = True
            if starts_new: out.append(cur); cur = []
        cur.append(l)
    if cur: out.append(cur)
    # join comment-only blocks to the next
    res, hold = [], []
    for b in out:
        if all(x.startswith('--') for x in b): hold += b; continue
        res.append(hold + b); hold = []
    if hold: res.append(hold)
    return res
def cur_sig(b):
    for l in b:
        if not l.startswith('--'): return l
    return b[0]
def decl_name(b):
    if cur_sig(b).startswith('module _'): 
        return 'module_' + str(id(b))
    m = re.match(r"^(?:abbrev |unfoldable |pub |record |data )*(\S+)", cur_sig(b)); return m.group(1)

def spec_args(text):
    """The arguments of tie.spec in a term."""
    i = text.find('tie.spec')
    if i < 0: return None
    i += len('tie.spec'); args, depth, cur = [], 0, ''
    while i < len(text):
        ch = text[i]
        if depth == 0 and ch.isspace():
            if cur: args.append(cur); cur = ''
        elif ch in '({[': depth += 1; cur += ch
        elif ch in ')}]':
            if depth == 0: break
            depth -= 1; cur += ch
        else: cur += ch
        i += 1
    if cur: args.append(cur)
    return args

report = []
def convert(path, folder):
    rel = os.path.relpath(folder, f"{crate}/proofs").split('/')
    mod = '.'.join(rel)
    key = f"Rattle-{name}-proofs.{mod}.Lts"
    if key not in names:
        report.append(f"{mod}: no names"); return False
    n = names[key]
    text = open(path).read()
    if 'Tie as tie' not in text or 'tie.spec' not in text: report.append(f"{mod}: no tie"); return False
    place = {}; fn_of = {}
    for p in n['places']:
        old, new = p[2]
        if old: place[norm(old)] = new; fn_of[new] = p[3]
        # the fields that port may have spelled with _lem
        if old: place.setdefault(norm(old + '-lem'), new)
        if p[3]:
            base = p[3].split('::')[-1]
    low = {}
    for p in place: low.setdefault(p.lower(), p)
    need = {}
    for old, new in n['needs']:
        need.setdefault(norm(old), new); 
    for old, new in n['needs']: need.setdefault(norm(new), new)
    recs = {norm(p[0]): q for p, q in zip(n['places'], n['places_by_name'])}
    loops = {norm(l[0][0]): (l[0][1], l[1], ch) for l, ch in zip(n['loops'], n['changed'])}

    alias, kinds = {}, {}
    def turn(t, in_invariant=False):
        t = re.sub(r"(\.before)+(?![\w-])", "", t)
        def path(m):
            segs = m.group().split('.')
            out = [segs[0]]
            DATA = ('args', 'new', 'auto', 'initial', 'fn', 'ranges', 'result', 'requires', 'ensures')
            is_data = kinds.get(segs[0]) is not None
            for i, s in enumerate(segs[1:], 1):
                prev = out[-1] if i > 1 else kinds.get(out[-1], out[-1])
                is_data = is_data or i > 1 and prev in DATA
                if not is_data and norm(s) not in place and low.get(norm(s).lower()): s = low[norm(s).lower()]
                if i >= 1 and not is_data and norm(s) in place and not (prev in ('args', 'new', 'auto', 'initial', 'fn', 'ranges')) and not (in_invariant and prev == 'l') and s not in ('args', 'requires', 'ensures', 'result', 'invariant', 'new'): out.append(place[norm(s)]); continue
                if s == 'pre' : out.append('requires'); continue
                if s.isdigit() and prev in ('new', 'auto') and len(out) >= 2:
                    at = out[-2] if out[-2] in fn_of else alias.get(out[-2])
                    ps = params_of(fn_of.get(at))
                    if ps and int(s) < len(ps): 
                        muts = [a for a, mm in ps if mm]
                        out.append(ps[int(s)][0] if ps[int(s)][1] else (muts[0] if len(muts) == 1 else ps[int(s)][0])); continue
                out.append(s)
            return '.'.join(out)
        for am in re.finditer(r"let (\S+)(?: : [^=]*?)? =\s+[^\s(){}.;,@\"«»\[\]]+(?:\.[^\s(){}.;,@\"«»\[\]]+)*\.([^\s(){}.;,@\"«»\[\]]+) in", t):
            whole = am.group().split('=', 1)[1].rsplit(' in', 1)[0].strip().split('.')
            k = [x for x in whole[1:] if x in ('args', 'new', 'auto', 'initial', 'fn', 'ranges', 'requires', 'result', 'ensures')]
            if whole[0] in kinds and not k: k = [kinds[whole[0]]]
            if k: kinds[am.group(1)] = am.group(2) if am.group(2) in ('new', 'auto') else k[-1]
            elif norm(am.group(2)) in place: alias[am.group(1)] = place[norm(am.group(2))]
        t = re.sub(r"(?<![\w.-])[^\s(){}.;,@\"«»\[\]]+(?:\.[^\s(){}.;,@\"«»\[\]]+)+", path, t)
        t = re.sub(r"tie\.Need-(\S+?)(?=[\s)]|$)", lambda m: 'goal.' + need.get(norm(m.group(1)), m.group(1)), t)
        t = re.sub(r"tie\.([A-Z][\w-]*)", lambda m: 'goal.' + recs.get(norm(m.group(1)), m.group(1)), t)
        return t

    bs = blocks(text)
    by_place = {}
    sp = next(('\n'.join(b) for b in bs if 'tie.spec' in '\n'.join(b) and re.search(r"^pub \S+[_-]spec\b", cur_sig(b))), None)
    if sp:
        invs = {decl_name(b) for b in bs if re.search(r":\s*tie\.(invariant|decreases)-", cur_sig(b))}
        rest0 = [a for a in spec_args(sp) if not (a in invs)]
        if len(rest0) == len(n['needs']):
            for a, (old, new) in zip(rest0, n['needs']):
                if not a.startswith('('): by_place.setdefault(a, []).append(new)
        else: report.append(f"{mod}: {len(rest0)} answers for {len(n['needs'])} goals")
    uses, inv, ans, helpers, spec, seen = [], [], {}, [], None, []
    local_to_goal = {}
    for b in bs:
        s = cur_sig(b)
        if s.startswith('use '):
            u = ' '.join(x.strip() for x in b if not x.startswith('--'))
            if '.Statement.' in u or u.endswith(' as tie') or '.Statement' in u: continue
            uses.append(u); continue
        if all(x.startswith('--') for x in b): continue
        whole = '\n'.join(b)
        m = re.search(r":\s*tie\.(invariant|decreases)-(\S+)", s)
        if m and s.startswith('abbrev'):
            inv.append((m.group(1), m.group(2), decl_name(b), b)); continue
        m = re.search(r":\s*tie\.Need-(\S+)", s)
        if m:
            g = (by_place.get(decl_name(b)) or [need.get(norm(m.group(1)))])[0]
            for more in by_place.get(decl_name(b), [])[1:]: ans[more] = b
            if g is None: report.append(f"{mod}: no goal for {m.group(1)}"); g = 'LOST-' + m.group(1)
            local_to_goal[decl_name(b)] = g
            ans[g] = b; seen.append(g); continue
        if 'tie.spec' in whole: spec = whole; continue
        if re.search(r"^pub \S+[_-]spec\b", s): continue
        helpers.append(b)
    if spec:
        args = spec_args(spec)
        ninv = 0
        rest = []
        for a in args:
            if not a.startswith('(') and any(a == x[2] for x in inv): continue
            rest.append(a)
        if len(rest) != len(n['needs']):
            if any(not re.fullmatch(r"\(λ [^.]*\. search rules\)", a) and a.startswith('(') for a in rest):
                report.append(f"{mod}: {len(rest)} answers for {len(n['needs'])} goals: {[a[:60] for a in rest if a.startswith('(') and 'search rules)' not in a]}")
        else:
            for a, (old, new) in zip(rest, n['needs']):
                if a.startswith('('):
                    if not re.fullmatch(r"\(λ [^.]*\.\s+search rules\)", a):
                        ans.setdefault(new, [f"{new} : goal.{new}", f"{new} = " + re.sub(r"^λ (\S+) κs\.", r"λ \1.", a[1:-1])])
                elif a in {decl_name(b) for b in helpers}:
                    ans[new] = [f"{new} : goal.{new}", f"{new} = {a}"]
                elif False:
                    report.append(f"{mod}: {a} is for {new}, not {local_to_goal[a]}")
                    if local_to_goal[a].startswith('LOST') : ans[new] = ans.pop(local_to_goal[a])
    inv_out, inv_names = [], {}
    for kind, loop, nm, b in inv:
        l = loops.get(norm(loop))
        if not l:
            report.append(f"{mod}: no loop {loop}"); continue
        new, vars_, ch = l
        newname = f"{kind}-{new}"
        inv_names[nm] = newname
        body = [x for x in b if not x.startswith('--')]
        com = [x for x in b if x.startswith('--')]
        eq = '\n'.join(body[1:])
        extra = ''
        if body[1].startswith('unfolding'): extra = body[1] + '\n'; eq = '\n'.join(body[2:])
        lhs, rhs = eq.split('=', 1)
        ps = lhs.split()[1:]
        if len(ps) != len(vars_) + sum(ch): report.append(f"{mod}: {nm} has {len(ps)} arguments for {len(vars_)}+{sum(ch)}"); 
        subst = {}
        for p, v, c in zip(ps, vars_, ch): subst[p] = f"l.initial.{v}" if c else f"l.{v}"
        for p, v in zip(ps[len(vars_):], [v for v, c in zip(vars_, ch) if c]): subst[p] = f"l.{v}"
        subst.pop('_', None)
        def rep(m):
            w = m.group()
            return subst.get(w, w)
        rhs = re.sub(r"(?<![^\s(){}\[\];,@])" + r"[^\s(){}.;,@\"«»\[\]]+", rep, rhs)
        rhs = turn(rhs, True)
        inv_out.append('\n'.join(com + [f"abbrev pub {newname} : goal.{newname}", f"{extra}{newname} l ={rhs}"]))
    # helpers that invariants use
    hname = {decl_name(b): b for b in helpers}
    def words(t): return set(re.findall(r"[^\s(){}.;,@\"«»\[\]]+", t))
    used, todo = set(), set().union(*[words(x) for x in inv_out]) if inv_out else set()
    while todo:
        w = todo.pop()
        if w in hname and w not in used:
            used.add(w); todo |= words('\n'.join(hname[w]))
    def public(b):
        i = next(i for i, l in enumerate(b) if not l.startswith('--'))
        l = b[i]
        if 'pub ' not in l.split(':')[0]:
            l = re.sub(r"^((?:abbrev |unfoldable )?)", r"\1pub ", l, count=1)
        return b[:i] + [l] + b[i + 1:]
    modpath = f"Rattle.{name}.proofs.{mod}"
    if inv_out:
        hs = ['\n'.join(turn(x) for x in public(b)) for b in helpers if decl_name(b) in used]
        with open(f"{folder}/Invariants.antt", 'w') as f:
            f.write('\n'.join(uses + [f"use {modpath}.Given as goal"]) + '\n\n' + '\n\n'.join(hs + inv_out) + '\n')
    # answers
    out = []
    rename = {**local_to_goal, **inv_names}
    def ren(t):
        return re.sub(r"(?<![^\s(){}\[\];,@])[^\s(){}.;,@\"«»\[\]]+", lambda m: rename.get(m.group(), m.group()) if m.group() in inv_names else m.group(), t)
    for g, b in ans.items():
        com = [x for x in b if x.startswith('--')]
        body = [x for x in b if not x.startswith('--')]
        nm = decl_name(b)
        # drop signature continuation lines
        k = 1
        while k < len(body) and body[k].startswith(' '): k += 1
        rest = '\n'.join(body[k:])
        rest = re.sub(rf"(?m)^{re.escape(nm)}(?=\s)", g, rest)
        rest = turn(rest)
        rest = re.sub(rf"(?m)^({re.escape(g)} \S+) κs =", r"\1 =", rest)
        if re.fullmatch(rf"{re.escape(g)} \S+(?: \S+)? = search rules\s*", rest): continue
        if re.fullmatch(rf"{re.escape(g)} =\s+λ [^.]*\. search rules\s*", rest): continue
        out.append('\n'.join(com + [f"pub {g} : goal.{g}", ren(rest)]))
    hs = [ren('\n'.join(turn(x) for x in b)) for b in helpers if decl_name(b) not in used]
    if out or any(False for _ in hs):
        text_out = '\n\n'.join(hs + out)
        imports = list(uses)
        ws = words(text_out)
        iu = sorted((used | set(inv_names.values())) & ws)
        if iu: imports.append(f"use {modpath}.Invariants.{{{', '.join(iu)}}}")
        imports.append(f"use {modpath}.Goals as goal")
        with open(f"{folder}/Answers.antt", 'w') as f:
            f.write('\n'.join(imports) + '\n\n' + text_out + '\n')
    elif hs: report.append(f"{mod}: helpers with no answer")
    os.remove(path)
    return True

for d, ds, fs in os.walk(f"{crate}/proofs"):
    if 'Proof.antt' in fs:
        if only and os.path.basename(d) not in only: continue
        try: convert(f"{d}/Proof.antt", d)
        except Exception as e:
            report.append(f"{d}: {type(e).__name__} {e}")
            if only: raise
# imports that a file does not use
for d, ds, fs in os.walk(f"{crate}/proofs"):
    for f in fs:
        if f in ('Answers.antt', 'Invariants.antt'):
            p = f"{d}/{f}"; t = open(p).read()
            lines = t.split('\n')
            body = '\n'.join(l for l in lines if not l.startswith('use '))
            ws = set(re.findall(r"[^\s(){}.;,@\"«»\[\]]+", body))
            def usedname(x):
                y = x.split(' as ')[-1].strip()
                if '◌' in y:
                    return all(part in ws for part in y.split('◌') if part)
                return y in ws or y == '[]' and '[]' in body
            out = []
            for l in lines:
                m = re.match(r"use (.*)\.\{(.*)\}$", l)
                if m:
                    its = [x.strip() for x in m.group(2).split(',')]
                    keep = [x for x in its if usedname(x)]
                    if not keep: continue
                    l = f"use {m.group(1)}.{{{', '.join(keep)}}}"
                out.append(l)
            open(p, 'w').write('\n'.join(out))
print('\n'.join(report))
