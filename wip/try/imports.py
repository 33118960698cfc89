# unused imported names in antt and ghost uses of rt
import re,sys
IDCH = r"A-Za-z0-9_\-′″‴₀₁₂₃₄₅₆₇₈₉·?!→←#"
for p in sys.argv[1:]:
    s=open(p,encoding='utf-8').read()
    body=re.sub(r'^(ghost )?use [^\n]*\{[^}]*\};?$','',s,flags=re.M)
    for m in re.finditer(r'^(?:ghost )?use ([^\n{]*)\{([^}]*)\};?$',s,flags=re.M):
        for n in m.group(2).split(','):
            n=n.strip(); a=n.split(' as ')[-1]
            t=a.strip('_')
            if a.startswith('_') and a.endswith('_'):
                ok = t in body
            else: ok=re.search(r"(?<![%s])%s(?![%s])"%(IDCH,re.escape(a),IDCH),body)
            if not ok: print(p,m.group(1),n)
