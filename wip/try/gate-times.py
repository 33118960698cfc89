import re,sys,collections
s=open(sys.argv[1],errors='replace').read()
p={m[0]:int(m[1]) for m in re.findall(r'^rt: (\w+) proved \((\d+) s\)',s,re.M)}
e=collections.defaultdict(list)
for n,t in re.findall(r'^rt: must-fail (\w+)/\S+ refused.*?(\d+) s\)$',s,re.M): e[n].append(int(t))
rows=sorted(p.items(),key=lambda x:-x[1])
out=', '.join(f'{n} {t}'+(f' ({len(e[n])} x {round(sum(e[n])/len(e[n]))})' if e[n] else '') for n,t in rows)
print(out+'.'); print('In all',sum(p.values()),'s of proofs and',sum(sum(v) for v in e.values()),'s of edits;',len(p),'crates',sum(len(v) for v in e.values()),'edits')
