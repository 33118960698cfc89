#!/usr/bin/env python3
# Translates .rt crates to Rust (contracts dropped), to try unproved code: rt2rs.py REPO OUT
import re,sys,os,subprocess
repo,out=sys.argv[1],sys.argv[2]
order=[l.split(':')[0] for l in open(repo+'/crates.txt') if l.strip() and l[0]!='#']
deps={l.split(':')[0]:l.split(':')[1].split() for l in open(repo+'/crates.txt') if l.strip() and l[0]!='#'}
skip={'channel','session','vectors','theorems','serving'}
def strip_block(s,kw):
    o='';i=0
    pat=re.compile(r'^[ \t]*'+kw+r'\b[^{]*\{',re.M)
    while True:
        m=pat.search(s,i)
        if not m: return o+s[i:]
        o+=s[i:m.start()]
        d=1;j=m.end()
        while d:
            if s[j]=='{':d+=1
            elif s[j]=='}':d-=1
            j+=1
        i=j
def tr(s):
    s=re.sub(r'^ghost use .*?;\n','',s,flags=re.M|re.S)
    for kw in ('requires','ensures','decreases','invariant'): s=strip_block(s,kw)
    s=re.sub(r'^((?:pub )?(?:struct|enum) )',r'#[derive(Clone, Copy)]\n\1',s,flags=re.M)
    s=re.sub(r'use std::num::wrapping_sub_u32;','fn wrapping_sub_u32(a:u32,b:u32)->u32{a.wrapping_sub(b)}',s)
    s=re.sub(r'pub extern "C" fn (\w+)\((.*?)\)( -> \w+)?\s*\{',ext,s,flags=re.S)
    return s
def unchecked(s):
    o='';i=0
    while True:
        m=re.compile(r'[A-Za-z_0-9\)\]]\[').search(s,i)
        if not m: return o+s[i:]
        a=m.start()+1
        # comment line?
        ls=s.rfind('\n',0,a)+1
        if s[ls:a].lstrip().startswith('//'):
            o+=s[i:a+1]; i=a+1; continue
        d=1;j=a+1
        while d:
            if s[j]=='[':d+=1
            elif s[j]==']':d-=1
            j+=1
        inner=s[a+1:j-1]
        if '..' in inner:
            o+=s[i:a+1]; i=a+1; continue
        st=re.compile(r'(?:^|(?<=[;{}\n]))[ \t]*([A-Za-z_][A-Za-z_0-9.]*)$').search(s[ls:a])
        asg=re.match(r'\s*=[^=]',s[j:j+3])
        if asg and re.match(r'^[ \t]*[A-Za-z_0-9.]+$',s[ls:a]):
            k=ls+len(s[ls:a])-len(s[ls:a].lstrip())
            o+=s[i:k]+'*'+s[k:a]+'.ixm('+unchecked(inner)+')'
        else:
            o+=s[i:a]+'.ix('+unchecked(inner)+')'
        i=j
def ext(m):
    name,args,ret=m.group(1),m.group(2),m.group(3) or ''
    pre='';o=[]
    for a in args.split(','):
        a=a.strip()
        if not a: continue
        n,t=[x.strip() for x in a.split(':',1)]
        k=re.match(r'&(mut )?\[(\w+)\]$',t)
        if k:
            mut=bool(k.group(1));T=k.group(2)
            o+= [f'{n}_p: *{"mut" if mut else "const"} {T}',f'{n}_n: usize']
            pre+=f'let {n} = unsafe {{ std::slice::from_raw_parts{"_mut" if mut else ""}({n}_p, {n}_n) }};\n'
        else: o.append(a)
    return f'pub extern "C" fn {name}({", ".join(o)}){ret} {{\n{pre}'
for c in order:
    if c in skip: continue
    d=f'{repo}/crates/{c}/src'
    if not os.path.exists(d+'/lib.rt'): continue
    os.makedirs(f'{out}/{c}',exist_ok=True)
    for f in os.listdir(d):
        if f.endswith('.rt'):
            t='use ixlib::Ix;\n'+unchecked(tr(open(f'{d}/{f}').read()))
            if f=='lib.rt': t='#![allow(warnings)]\n'+t
            if c=='ffi' and f=='lib.rt': t+='''
#[no_mangle] pub extern "C" fn proto_may(p: *const u8, n: usize, s: u32, m: u32, o: u32, t: u32) -> u64 { let b = unsafe { std::slice::from_raw_parts(p, n) }; pack(answers::may_sound(b, Question { access: Access { subject: s, mode: m, object: o }, instant: t })) }
#[no_mangle] pub extern "C" fn proto_when(p: *const u8, n: usize, s: u32, m: u32, o: u32, q: *mut u32, k: usize) -> u64 { let b = unsafe { std::slice::from_raw_parts(p, n) }; let l = unsafe { std::slice::from_raw_parts_mut(q, k) }; pack(answers::when_sound(b, Access { subject: s, mode: m, object: o }, l)) }
'''
            p=f'{out}/{c}/{f[:-3]}.rs'
            if not os.path.exists(p) or open(p).read()!=t: open(p,'w').write(t)

cfg='-C opt-level=3 -C panic=abort -C overflow-checks=off -C debug-assertions=off -C codegen-units=1 --edition 2018 -C debuginfo=2 -A warnings'.split()
lib=f'{out}/lib'
os.makedirs(lib,exist_ok=True)
open(f'{out}/ix.rs','w').write('''pub trait Ix { type T; fn ix(&self, i: usize) -> Self::T; fn ixm(&mut self, i: usize) -> &mut Self::T; }
impl<T: Copy> Ix for [T] { type T = T; #[inline(always)] fn ix(&self, i: usize) -> T { unsafe { *self.get_unchecked(i) } } #[inline(always)] fn ixm(&mut self, i: usize) -> &mut T { unsafe { self.get_unchecked_mut(i) } } }
''')
subprocess.run(['rustc',f'{out}/ix.rs','--crate-name','ixlib','--crate-type','rlib','-o',f'{lib}/libixlib.rlib','-C','embed-bitcode=yes']+cfg,check=True)
done=set()
for c in order:
    if c in skip: continue
    p=f'{out}/{c}/lib.rs'
    if not os.path.exists(p): continue
    kind='staticlib' if c=='ffi' else 'rlib'
    srcs=[f'{out}/{c}/{f}' for f in os.listdir(f'{out}/{c}') if f.endswith('.rs')]
    o=f'{lib}/lib{c}.'+('a' if c=='ffi' else 'rlib')
    ds=[d for d in deps[c] if os.path.exists(f'{lib}/lib{d}.rlib')]
    if os.path.exists(o) and all(os.path.getmtime(x)<os.path.getmtime(o) for x in srcs+[f'{lib}/lib{d}.rlib' for d in ds]): continue
    ext=['--extern',f'ixlib={lib}/libixlib.rlib']
    for d in ds: ext+=['--extern',f'{d}={lib}/lib{d}.rlib']
    lto=['-C','lto=fat','-C','embed-bitcode=yes'] if c=='ffi' else ['-C','embed-bitcode=yes']
    r=subprocess.run(['rustc',p,'--crate-name',c,'--crate-type',kind,'-L',lib,'-o',o]+cfg+lto+ext)
    if r.returncode: sys.exit(1)
