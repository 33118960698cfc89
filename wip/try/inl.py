import subprocess,collections,sys
exe=sys.argv[1]
ips=subprocess.run(['perf','script','-i','/tmp/perf.data','-F','ip'],capture_output=True,text=True).stdout.split()
c=collections.Counter(ips)
import re
maps=subprocess.run(['perf','script','-i','/tmp/perf.data','--show-mmap-events'],capture_output=True,text=True).stdout
base=None
for l in maps.splitlines():
    m=re.search(r'MMAP2?.*\[0x([0-9a-f]+)\(0x([0-9a-f]+)\) @ (?:0x)?([0-9a-f]+) .*\s(\S*'+exe+')$',l)
    if m and 'x' in l.split(':')[-1][:12]:
        base=int(m.group(1),16)-int(m.group(3),16); break
addrs=list(c)
inp='\n'.join(hex(int(a,16)-(base or 0)) for a in addrs)
# file offset vs vaddr: assume equal segments offset difference
out=subprocess.run(['addr2line','-e',exe,'-f','-i','-C','-a'],input=inp,capture_output=True,text=True).stdout.splitlines()
res=[];cur=None
for l in out:
    if l.startswith('0x'): cur=[];res.append(cur)
    else: cur.append(l)
tot=sum(c.values()); inner=collections.Counter(); 
for a,r in zip(addrs,res):
    fs=[f for f in r[0::2] if 'core::' not in f and 'ixlib' not in f and 'Ix' not in f]
    name=fs[0] if fs else (r[0] if r else '?')
    inner[name]+=c[a]
for n,k in inner.most_common(45): print(f'{100*k/tot:6.2f}% {n}')
