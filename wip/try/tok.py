import re,glob,sys
IDCH = r"A-Za-z0-9_\-′″‴₀₁₂₃₄₅₆₇₈₉·?!→←#"
T=[l.split() for l in open(sys.argv[1]) if l.strip() and not l.startswith('#')]
files=[p for pat in ('crates/*/src/**/*.rt','crates/*/specs/**/*.antt','crates/*/proofs/**/*.antt','crates/*/must-fail*/*.edit','.ci/more/**/*.edit','docs/*.md') for p in glob.glob(pat,recursive=True)]
n=0
for p in files:
    s=open(p,encoding='utf-8').read(); o=s
    for row in T:
        old,new=row[0],row[1]
        if len(row)>2 and not any(p.startswith('crates/'+c+'/') for c in row[2].split(',')): continue
        s=re.sub(r"(?<![%s])%s(?![%s])"%(IDCH,re.escape(old),IDCH),new,s)
    if s!=o: open(p,'w',encoding='utf-8').write(s); n+=1
print(n,'files')
