import re,glob,collections
rows=[]
for f in sorted(glob.glob('crates/*/src/**/*.rt',recursive=True)):
    s=open(f).read()
    for m in re.finditer(r'\bfn\s+(\w+)\s*(<[^>]*>)?\(',s):
        i=m.end();d=1;j=i
        while d:
            c=s[j]
            if c in '([{':d+=1
            if c in ')]}':d-=1
            j+=1
        a=s[i:j-1]
        # split
        parts=[];d=0;cur=''
        for c in a:
            if c in '([{<':d+=1
            if c in ')]}>':d-=1
            if c==',' and d==0: parts.append(cur.strip());cur=''
            else: cur+=c
        if cur.strip(): parts.append(cur.strip())
        parts=[re.sub(r'\s+',' ',p) for p in parts]
        if len(parts)>8: rows.append((f,m.group(1),len(parts),parts))
for r in rows: print(r[0],r[1],r[2]); print('    ',', '.join(r[3]))
print(len(rows))
