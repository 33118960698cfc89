import glob,re,sys
root=sys.argv[1]; bad=0;n=0
for f in glob.glob(root+'/crates/*/must-fail*/*.edit'):
    t=open(f).read(); m=re.search(r'^file: (\S+)\nold: (.*?)\nnew: ',t,re.S|re.M)
    n+=1
    if not m: print('parse',f); continue
    c=f.split('/crates/')[1].split('/')[0]
    s=open(root+'/crates/'+c+'/'+m.group(1)).read()
    k=s.count(m.group(2))
    if k!=1: bad+=1; print(k,f)
print(n,'bad',bad)
