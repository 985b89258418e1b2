#!/usr/bin/env python3
"""usage: fix.py LOG  (in the crate's folder): writes the implicit widths that the check guessed"""
import re,sys,collections
log=open(sys.argv[1]).read()
jobs=collections.defaultdict(set)
for m in re.finditer(r"^(\./proofs/\S+\.antt):(\d+):(\d+): note: `(?:mir\.Syntax\.)?(w\d+)` fits the implicit argument \{w\} of `(\S+)`",log,re.M):
    jobs[m.group(1)].add((int(m.group(2)),int(m.group(3)),m.group(4),m.group(5)))
for f,js in jobs.items():
    ls=open(f).read().split('\n')
    ws=set()
    for l,c,w,name in sorted(js,reverse=True):
        s=ls[l-1]; i=c-1
        j=s.find(name,max(0,i-1))
        if j<0: print('no',f,l,c,name); continue
        k=j+len(name)
        ls[l-1]=s[:k]+f" {{w = {w}}}"+s[k:]; ws.add(w)
    t='\n'.join(ls)
    for w in ws:
        if not re.search(r"^use [^\n]*\b"+w+r"\b",t,re.M):
            t=re.sub(r"^use ",f"use mir.Syntax.{{{w}}}\nuse ",t,count=1,flags=re.M)
    open(f,'w').write(t); print('fixed',f,len(js))
