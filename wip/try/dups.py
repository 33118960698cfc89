import re,glob,collections
d=collections.defaultdict(set)
for f in glob.glob('crates/*/src/**/*.rt',recursive=True):
    for m in re.finditer(r'^(?:pub )?(?:struct|enum) (\w+)',open(f).read(),re.M): d[m.group(1)].add((f.split('/')[1],'type'))
for f in glob.glob('crates/*/specs/**/*.antt',recursive=True)+glob.glob('crates/*/proofs/*.antt'):
    for m in re.finditer(r'^(?:unfoldable )?(?:abbrev )?(?:pub )?(?:record |data )?([A-Z][\w′]*)\b[^\n=]*[:(]',open(f).read(),re.M): d[m.group(1)].add((f.split('/')[1],f.split('/')[-1]))
    for m in re.finditer(r'^ +(?:unfoldable )?(?:abbrev )?pub (?:record |data )?([A-Z][\w′]*)\b[^\n=]*[:(]',open(f).read(),re.M): d[m.group(1)].add((f.split('/')[1],f.split('/')[-1]))
for k,v in sorted(d.items()):
    if len({c for c,_ in v})>1: print(k,sorted(v))
