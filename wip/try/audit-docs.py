import re,glob,os,collections
files=collections.defaultdict(list)  # File -> paths
text={}
for p in glob.glob('crates/**/*.antt',recursive=True)+glob.glob('crates/**/*.rt',recursive=True):
    text[p]=open(p,encoding='utf-8').read()
    files[os.path.basename(p).rsplit('.',1)[0]].append(p)
crates=set(os.path.basename(d) for d in glob.glob('crates/*'))
def nocom(t): return re.sub(r'^\s*(--|//).*$','',t,flags=re.M)
code={p:nocom(t) for p,t in text.items()}
TOK=r"[^\s()\[\]{},;:.`]+"
tokens=set()
for t in code.values(): tokens|=set(re.findall(r"[^\s()\[\]{},;:.]+",t))
decl=collections.defaultdict(set)
for p,t in code.items():
    for m in re.finditer(r"^\s*(?:ghost )?(?:(?:pub|abbrev|unfoldable|opaque|data|record|ruleset|fn|struct|enum|const|mod|extern \"C\"|\|)\s+)*([^\s:(){}=,;]+)",t,flags=re.M):
        decl[p].add(m.group(1))
edits=set()
for p in glob.glob('crates/*/must-fail/*.edit')+glob.glob('.ci/**/*.edit',recursive=True): edits.add(p.split('/')[1]+'/'+os.path.basename(p)[:-5])
alledits=set()
for root,_,fs in os.walk('.'):
    if '/target' in root or '/.git/' in root: continue
    for f in fs:
        if f.endswith('.edit'):
            alledits.add(os.path.basename(f)[:-5])
others=''
for pat in ['callers/**/*','bench/**/*','session/**/*','meters/**/*','.ci/*','README.md']:
    for p in glob.glob(pat,recursive=True):
        if os.path.isfile(p) and os.path.getsize(p)<400000 and '/target/' not in p:
            try: others+=open(p,encoding='utf-8').read()+'\n'
            except: pass
import sys
docs=sys.argv[1:]
for d in docs:
    last=None
    for i,l in enumerate(open(d,encoding='utf-8'),1):
        for m in re.finditer(r'`([^`]+)`',l):
            s=m.group(1)
            bad=None
            if re.match(r'^[a-z]+/[a-z0-9_]+$',s) and s.split('/')[0] in crates:
                nm=s.split('/')[1]
                if nm in alledits or os.path.exists('crates/'+s): continue
                bad='no edit/path'
            elif re.match(r'^([a-z]+)::(\w+)$',s):
                c,f=s.split('::')
                if c in crates:
                    if not any(re.search(r'\b(fn|struct|enum|const|use .*::|mod) ?'+f+r'\b|use .*\b'+f+r'\b',code[p]) for p in code if p.startswith('crates/'+c+'/src')): bad='no fn in crate'
                else: 
                    if f not in tokens and f not in others: bad='unknown crate::fn'
            elif re.match(r'^(?:([a-z]+)/(?:specs/|proofs/)?)?([A-Z]\w+)\.([^\s.]+)$',s):
                mm=re.match(r'^(?:([a-z]+)/(?:specs/|proofs/)?)?([A-Z]\w+)\.([^\s.]+)$',s)
                c,F,n=mm.groups()
                if n in('md','antt','rs','rt'): continue
                ps=[p for p in files.get(F,[]) if (c is None or p.startswith('crates/'+c+'/'))]
                if not ps:
                    # record.field or Struct.field
                    if c is None and F in tokens and n in tokens: continue
                    bad='no file'
                elif not any(n in decl[p] for p in ps): bad='not declared in file'
            elif re.match(r'^([a-z]+)/(?:specs/|proofs/)?([A-Z]\w+)$',s):
                mm=re.match(r'^([a-z]+)/(?:specs/|proofs/)?([A-Z]\w+)$',s)
                if mm.group(1) in crates and not [p for p in files.get(mm.group(2),[]) if p.startswith('crates/'+mm.group(1)+'/')]: bad='no such file in crate'
            elif re.match(r"^[A-Za-z][\w\-'′]*$",s):
                if s not in tokens and s not in crates and s not in files and s not in others and s not in alledits: bad='unknown name'
            elif re.match(r'^[\w./]+$',s) and '/' in s:
                if not os.path.exists(s) and not os.path.exists('crates/'+s) and not os.path.exists('docs/'+s) and not os.path.exists('crates/model/'+s):
                    bad='no path?'
            if bad: print(f'{d}:{i}: `{s}` {bad}')
