# lemmas with the same statement (binders dropped, names by first occurrence, both directions of ≡) in two files
import re,os,sys,collections
root=sys.argv[1] if len(sys.argv)>1 else '.'
decl=re.compile(r"^( *)((?:pub |abbrev |unfoldable |opaque |private )*)([^\s(){}:]+) :(?: (.*))?$")
by=collections.defaultdict(list)
ident=r"(?<![\w\-′'₀-₉·.])%s(?![\w\-′'₀-₉·])"
def split_top(t,sep):
    out=[];d=0;cur='';i=0
    while i<len(t):
        c=t[i]
        if c in '({': d+=1
        if c in ')}': d-=1
        if d==0 and t.startswith(sep,i): out.append(cur);cur='';i+=len(sep);continue
        cur+=c;i+=1
    out.append(cur);return [x.strip() for x in out]
def ren(t,names):
    order=[]
    for m in re.finditer(r"[\w′'₀-₉\-·]+",t):
        n=m.group(0)
        if n in names and n not in order and (m.start()==0 or t[m.start()-1]!='.'): order.append(n)
    for i,n in enumerate(order): t=re.sub(ident%re.escape(n),'#%d'%i,t)
    return t
def norm(t):
    t=re.sub(r'\s+',' ',t).strip()
    names=set()
    for m in re.finditer(r'[({]([^(){}:→]+) : ',t):
        names.update(m.group(1).split())
    for m in re.finditer(r'λ ([^.]+)\.',t): names.update(x for x in m.group(1).split() if re.match(r"^[\w′'₀-₉]+$",x))
    parts=split_top(t,' → ')
    body=[]
    for p in parts:
        # drop leading binder groups
        while True:
            m=re.match(r'^[({][^(){}:]+ : ',p)
            if m:
                d=0
                for i,c in enumerate(p):
                    if c in '({': d+=1
                    if c in ')}':
                        d-=1
                        if d==0: break
                inner=p[1:i]; ty=inner.split(' : ',1)[1]
                if re.search('≡|≤|<|Mem|⊥',ty): body.append(ty)
                p=p[i+1:].strip()
            else: break
        if p: body.append(p)
    res=[]
    if not body: return []
    concl=body[-1]; prem=body[:-1]
    if prem and len(prem)>4: pass
    eq=split_top(concl,' ≡ ')
    cs=[concl]
    if len(eq)==2: cs.append(eq[1]+' ≡ '+eq[0])
    return min(ren(c+' <- '+' & '.join(prem),names) for c in cs)
for d,ds,fs in os.walk(os.path.join(root,'crates')):
    for f in fs:
        if not f.endswith('.antt'): continue
        p=os.path.join(d,f); L=[re.sub(r'(^|\s)--.*','',x) for x in open(p).read().split('\n')]
        stack=[]; i=0
        while i<len(L):
            l=L[i]
            if not l.strip(): i+=1; continue
            ind=len(l)-len(l.lstrip())
            while stack and ind<=stack[-1][0]: stack.pop()
            if re.match(r' *(abbrev )?(pub )?(module|record) ',l):
                t=l.strip(); j=i
                while not t.rstrip().endswith('where') and j+1<len(L) and j<i+30:
                    j+=1; t+=' '+L[j].strip()
                rec='record' in l.split()[:2]
                stack.append((ind,re.sub(r'^(abbrev )?(pub )?(module|record) \S+','',t).replace(' where',''),rec))
                i=j+1; continue
            m=decl.match(l)
            if m and not any(s[2] for s in stack):
                t=m.group(4) or ''; j=i+1
                while j<len(L) and L[j].strip() and len(L[j])-len(L[j].lstrip())>ind:
                    t+=' '+L[j].strip(); j+=1
                # module binders: names only (types of premises lost)
                pre=' '.join(s[1] for s in stack)
                full=(pre+' → ' if pre else '')+t
                if re.search('≡|≤|<|⊥|Mem|↔',t) and 'tie.' not in t:
                    k=norm(full)
                    if k: by[k].append((p.replace(root+'/',''),i+1,m.group(3)))
                i=j; continue
            i+=1
for k,v in sorted(by.items(), key=lambda kv:kv[0]):
    if len(v)>1:
        print(k[:300])
        for x in v: print('    %s:%d %s'%x)
