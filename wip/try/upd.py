# upd.py BENCH WORST DOC: replaces rows of questions, batches and slow questions by those of a run
import sys,re
b,w,doc=sys.argv[1:4]
cells=lambda l:[c.strip() for c in l.strip().strip('|').split('|')]
new={}
for l in open(b):
    if l.startswith('|'):
        c=cells(l)
        if c[0] in('MAY','WHEN') : new[('q',c[0],c[1],c[2])]=l.rstrip()
        elif len(c)==8 and c[0].isdigit(): new[('b',c[0],c[1])]=l.rstrip()
for l in open(w):
    if l.startswith('|'):
        c=cells(l)
        if c[0].startswith(('MAY','WHEN')): new[('w',c[0])]=l.rstrip()
out=[];n=0
for l in open(doc):
    if l.startswith('|'):
        c=cells(l)
        k=('q',c[0],c[1],c[2]) if c[0] in('MAY','WHEN') else ('b',c[0],c[1]) if len(c)==8 and c[0].isdigit() else ('w',c[0])
        if k in new and len(cells(new[k]))==len(c): out.append(new[k]+'\n'); n+=1; continue
    out.append(l)
open(doc,'w').write(''.join(out)); print(n,'rows')
