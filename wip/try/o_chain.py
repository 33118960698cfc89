#!/usr/bin/env python3
# o_chain.py FN [fix]: with generated Lts; prints chain per Need, or fixes '.before' counts in the Proof file
import re,sys,glob
fn=sys.argv[1]; fix=len(sys.argv)>2
lts=glob.glob('/tmp/o_gen/*proofs/proofs/%s/Lts.antt'%fn)[0]
t=open(lts).read()
recs={}
cur=None
for line in t.split('\n'):
    m=re.match(r'(\s+)pub record (\S+)',line)
    if m: cur=m.group(2); recs[cur]={'fields':[],'before':None}; ind=len(m.group(1)); continue
    m=re.match(r'(\s+)pub (\S+) :\s*(\S*)',line)
    if m and cur and len(m.group(1))==ind+2:
        if m.group(2)=='before': recs[cur]['before']=m.group(3)
        else: recs[cur]['fields'].append(m.group(2))
    elif line.strip() and not line.startswith(' '*(ind+2) if cur else ''): cur=None
needs={}
for m in re.finditer(r'Need-(\S+) =\s*\(c : (\S+)\)',t): needs[m.group(1)]=m.group(2)
tie=open(lts.replace('Lts.antt','Tie.antt')).read()
def chain(rec):
    out=[]; n=0
    while rec:
        out.append((n,rec,recs[rec]['fields'])); rec=recs[rec]['before']; n+=1
    return out
def find(rec,f):
    for n,r,fs in chain(rec):
        if f in fs: return n
    return None
if not fix:
    order=re.findall(r'abbrev pub Need-(\S+) ',tie)
    for k in order:
        rec=needs.get(k)
        print('Need-%s: %s'%(k,rec))
        if rec and len(sys.argv)==2:
            print('   ',' '.join('%s:%d'%(f,n) for n,r,fs in chain(rec) for f in fs if f not in('κs','good','fits')))
    sys.exit()
p='crates/outlines/proofs/%s/Proof.antt'%fn
s=open(p).read()
# split in definitions by 'name : tie.Need-X'
parts=re.split(r'(?m)^(?=\S+ : tie\.Need-)',s)
res=[]
for part in parts:
    m=re.match(r'\S+ : tie\.Need-(\S+)',part)
    if not m or m.group(1) not in needs: res.append(part); continue
    rec=needs[m.group(1)]
    # let vars without field
    def bef(n): return ' .before'*n
    vars={}
    # whole-record vars
    for mm in re.finditer(r'let (\w+) = c((?:\s+\.before)+) in',part):
        v=mm.group(1)
        us=[find(rec,u) for u in re.findall(r'\b'+v+r'(?:\s+\.before)*\s+\.((?!before\b)[a-z][\w-]*)',part[mm.end():])]
        us=[u for u in us if u is not None]
        if us: vars[v]=min(us)
    def sub(mm):
        f=mm.group(2)
        n=find(rec,f)
        if n is None: return mm.group(0)
        return 'c'+bef(n)+' .'+f
    part2=re.sub(r'\bc((?:\s+\.before)*)\s+\.((?!before\b)[a-z][\w-]*)',sub,part)
    for v,n in vars.items():
        part2=re.sub(r'let '+v+r' = c(?:\s+\.before)+ in','let '+v+' = c'+bef(n)+' in',part2)
        # chain of vars relative
        r=rec
        for _ in range(n): r=recs[r]['before']
        def sub2(mm,r=r,v=v):
            k=find(r,mm.group(2))
            if k is None: return mm.group(0)
            return v+bef(k)+' .'+mm.group(2)
        part2=re.sub(r'\b'+v+r'((?:\s+\.before)*)\s+\.((?!before\b)[a-z][\w-]*)',sub2,part2)
    res.append(part2)
open(p,'w').write(''.join(res))
