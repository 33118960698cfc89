#!/usr/bin/env python3
"""Breaks lines over 110 columns in .rt and .antt files given as arguments (imports, comments, code)."""
import re, sys
W = 110
def wrap_use(line):
    m = re.match(r'^(\s*(?:ghost )?(?:pub )?use [^{]*\{)(.*)(\};?)$', line)
    if not m: return None
    head, names, tail = m.groups()
    names = [n.strip() for n in names.split(',')]
    out, cur = [], []
    for n in names:
        if cur and len(head + ', '.join(cur + [n]) + tail) > W: out.append(cur); cur = []
        cur.append(n)
    out.append(cur)
    return [head + ', '.join(c) + tail for c in out]
def best(line, first):
    """the place of the last blank that fits, at the least depth of brackets near the end"""
    depth, cands = 0, []
    ops = ('→', '∙', '≡', '×', '++', '∷', '&&', '||')
    for i, ch in enumerate(line):
        if i > W: break
        if ch in '({⌜': depth += 1
        if ch in ')}⌝': depth -= 1
        if ch == ' ' and i > max(first + 20, 45) and line[:i].strip():
            nxt = line[i+1:].split(' ')[0]
            prev = line[:i].split(' ')[-1]
            if nxt.startswith('.') and not nxt.startswith('..'): continue   # a field goes with its record
            if prev in ('λ', 'let', '=', ':', ',') and prev != '=': continue
            score = depth * 40 + (W - i)
            if prev in ('Type', 'List') or nxt == 'Type': score += 200
            if prev == 'Type' : continue
            if nxt in ('→',) : score += 6
            if prev == '→' or nxt in ('∙', '≡', '×', '++', '∷', '&&', '||'): score -= 14
            if prev in ('∙', '≡', '×', '++', '∷', '&&', '||', '+', '*', '≤', '<', '-', '/'): score += 40
            if nxt in ('=', ':', 'in', 'where', '→'): score += 25
            cands.append((score, i))
    return min(cands)[1] if cands else None
def run(p):
    L = open(p, encoding='utf-8').read().split('\n')
    out, i, ch = [], 0, False
    rt = p.endswith('.rt')
    while i < len(L):
        l = L[i]
        if len(l) <= W: out.append(l); i += 1; continue
        ch = True
        u = wrap_use(l)
        if u: out += u; i += 1; continue
        m = re.match(r'^(\s*(?:--|//) )(\S.*)$', l)
        if m:
            pre, words = m.group(1), m.group(2).split(' ')
            j = i + 1
            while j < len(L) and L[j].startswith(pre) and not re.match(r'\s*(--|//) ----', L[j]): words += L[j][len(pre):].split(' '); j += 1
            cur = pre.rstrip()
            for w in words:
                if len(cur + ' ' + w) > W: out.append(cur); cur = pre + w
                else: cur += ' ' + w
            out.append(cur); i = j; continue
        ind = len(l) - len(l.lstrip())
        m = re.search(r'record \{ ', l)
        k = m.end() - 1 if m and m.end() < W and l.rstrip().endswith(('}', '})')) else best(l, ind)
        if k is None: print('??', p, i + 1); out.append(l); i += 1; continue
        prev = out[-1] if out else ''
        cont = prev.strip() and (len(prev) - len(prev.lstrip())) <= ind and not re.match(r'^\s*(pub|abbrev|unfoldable|record|data|[^\s(]+ :)', l.strip()) and ind >= 4 and not re.match(r'^\s*\S+( \S+)* = ', l)
        L[i:i+1] = [l[:k].rstrip(), ' ' * (ind if cont and not rt else ind + 4) + l[k:].strip()]
        if len(L[i]) > W: print('?? still', p, i + 1); out.append(L[i]); i += 1
    if ch: open(p, 'w', encoding='utf-8').write('\n'.join(out))
for p in sys.argv[1:]: run(p)
