# upd2.py BENCH WORST DOC: replaces all rows of the tables by those of a run, adds new rows behind the last of their table
import sys
b,w,doc=sys.argv[1:4]
cells=lambda l:[c.strip() for c in l.strip().strip('|').split('|')]
def key(c):
    if c[0] in ('MAY','WHEN','soundness check','GRANT','cascade') and len(c)>6: return ('q',c[0],c[1],c[2])
    if len(c)==8 and c[0].isdigit(): return ('b',c[0],c[1])
    return ('w',c[0])
new={}; order=[]
for f in (b,w):
    for l in open(f):
        if l.startswith('|') and not l.startswith('|---'):
            c=cells(l)
            if c[0] in('call','lines','call and base','question and base'): continue
            new[key(c)]=l.rstrip(); order.append(key(c))
lines=open(doc).read().split('\n'); done=set(); n=0
for i,l in enumerate(lines):
    if l.startswith('|'):
        c=cells(l); k=key(c)
        if k in new:
            d=cells(new[k])
            if k[0]=='q' and len(c)==8 and len(d)==11: lines[i]='| '+' | '.join(d[:8])+' |'
            elif len(d)==len(c): lines[i]=new[k]
            else: print('cells',k,len(c),len(d)); continue
            lines[i]=lines[i].replace(' |  |',' | |').replace('|  |','| |'); done.add(k); n+=1
left=[k for k in order if k not in done]; print(n,'rows; new:',left)
for k in left:
    if k[0]=='w':
        j=max(i for i,l in enumerate(lines) if l.startswith('|') and key(cells(l)) in done and key(cells(l))[0]=='w' and len(cells(l))==len(cells(new[k])))
        lines.insert(j+1,new[k]); done.add(k)
open(doc,'w').write('\n'.join(lines))
