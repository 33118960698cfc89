#!/usr/bin/env python3
# autofix.py CRATE [rounds]: inserts ' .before' where a proof's step is one record further back
import re,subprocess,sys,os
crate=sys.argv[1]; rounds=int(sys.argv[2]) if len(sys.argv)>2 else 6
root=os.getcwd()
for k in range(rounds):
    out=subprocess.run(['rt','dev',crate],stdout=subprocess.PIPE,stderr=subprocess.STDOUT,text=True,env=dict(os.environ,RT_CUT='0')).stdout
    fixes={}
    for m in re.finditer(r'^(\S+\.antt):(\d+):(\d+): error: .*?record `[^`]*After[^`]*` has no field `(\w+)`',out,re.M):
        f,l,c,fld=m.group(1),int(m.group(2)),int(m.group(3)),m.group(4)
        fixes.setdefault(f,set()).add((l,c,fld))
    if not fixes: break
    n=0
    for f,ps in fixes.items():
        lines=open(f).read().split('\n')
        for l,c,fld in sorted(ps,reverse=True):
            s=lines[l-1]
            # find '.fld' nearest to column c
            best=None
            for mm in re.finditer(r'\.'+fld+r'\b',s):
                d=abs(mm.start()-(c-1))
                if best is None or d<best[0]: best=(d,mm.start())
            if best is None:
                # on next line?
                continue
            p=best[1]
            lines[l-1]=s[:p]+'.before '+s[p:]; n+=1
        open(f,'w').write('\n'.join(lines))
    print('round',k,'fixes',n)
    if n==0: break
out=subprocess.run(['rt','dev',crate],stdout=subprocess.PIPE,stderr=subprocess.STDOUT,text=True,env=dict(os.environ,RT_CUT='300')).stdout
print('\n'.join(l for l in out.split('\n') if 'error' in l or 'no proof' in l or 'not proved' in l or l.startswith('logic')))
