# laws in crates/laws used only by theorems (or by nothing)
import re,glob,os
IDCH = r"A-Za-z0-9_\-′″‴₀₁₂₃₄₅₆₇₈₉·?!→←#"
T={p:open(p,encoding='utf-8').read() for pat in ('crates/*/src/**/*.rt','crates/*/specs/**/*.antt','crates/*/proofs/**/*.antt') for p in glob.glob(pat,recursive=True)}
for crate in ('laws','model','foundation'):
  for p in sorted(T):
    if not p.startswith(f'crates/{crate}/specs/') : continue
    s=T[p]
    for m in re.finditer(r'^\s*(?:unfoldable |abbrev )?pub (?:unfoldable |abbrev |record |data )?([^\s:(]+)(?: [^:\n]*)?:',s,re.M):
        n=m.group(1)
        if n in('mod','use'): continue
        t=re.compile(r"(?<![%s])%s(?![%s])"%(IDCH,re.escape(n),IDCH))
        users=set()
        own=len(t.findall(s))
        for q,u in T.items():
            if q==p: continue
            if t.search(u): users.add(q.split('/')[1]+('' if q.split('/')[1]!=crate else ':'+os.path.basename(q)))
        if not users and own<=2: print('UNUSED',p,n)
        elif users and users<= {'theorems'}: print('ROOF',p,n,own)
