import subprocess,collections,sys,re
exe=sys.argv[1]
P=['next_of','fill','spans','stratify','strata_of','of_stratum','next_ready','give_lines','forget','transpose','scan','note','evaluate','number_sides','draw_right','draw_left','draw_masks','choosy_of','draw_feed','draw_controlled','own_masks','reach::reach','number_pairs','list_pairs','modes_of','needed_rules','lasting_of','lay_all','lay_out','history_start','choose','near_at','give_lines','derive_rest','derive_rule','rank_rules','select','walk_windows','stands_some','holds_directly','access_in','exists','counts_of','with_few_tables','with_fields','with_lines','with_pairs','with_part','with_drawn','with_outline','holds_in','holds_at']
ips=subprocess.run(['perf','script','-i','/tmp/perf.data','-F','ip,sym'],capture_output=True,text=True).stdout.splitlines()
c=collections.Counter(); sym={}
for l in ips:
    a=l.split(None,1)
    if not a: continue
    c[a[0]]+=1; sym[a[0]]=a[1] if len(a)>1 else ''
maps=subprocess.run(['perf','script','-i','/tmp/perf.data','--show-mmap-events'],capture_output=True,text=True).stdout
base=0
for l in maps.splitlines():
    m=re.search(r'MMAP2?.*\[0x([0-9a-f]+)\(0x([0-9a-f]+)\) @ (?:0x)?([0-9a-f]+) .*\s(\S*'+exe+')$',l)
    if m and 'x' in l.split(':')[-1][:12]:
        base=int(m.group(1),16)-int(m.group(3),16); break
addrs=list(c)
out=subprocess.run(['addr2line','-e',exe,'-f','-i','-C','-a'],input='\n'.join(hex(int(a,16)-base) for a in addrs),capture_output=True,text=True).stdout.splitlines()
res=[]
for l in out:
    if l.startswith('0x'): cur=[];res.append(cur)
    else: cur.append(l)
tot=sum(c.values()); ph=collections.Counter()
for a,r in zip(addrs,res):
    ch=r[0::2][::-1]
    if 'memset' in sym[a]: ph['memset']+=c[a]; continue
    n=None
    for f in ch[::-1] if False else ch:
        for p in P[:26+4+13]:
            if f.endswith(p) : n=p; break
        if n: break
    if not n: n='self:'+ch[0] if ch else '?'
    ph[n]+=c[a]
ms=float(sys.argv[2]) if len(sys.argv)>2 else 100
for n,k in ph.most_common(40): print(f'{100*k/tot:6.2f}%  {ms*k/tot:7.1f} {n}')
