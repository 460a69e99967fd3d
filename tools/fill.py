#!/usr/bin/env python3
# fill.py PROOF: reads lines "NAME [unfolding A B] = TERM" on standard input (a TERM may go on in indented lines) and puts each into the proof
# file in the place of the answer of that need; a line "use ..." goes to the head of the file. `c@3` stands for c and three times `.before`.
import re,sys
p=sys.argv[1]; t=open(p).read()
uses=[]; items=[]
text=re.sub(r'c@(\d+)',lambda m:'c'+' .before'*int(m.group(1)),sys.stdin.read())
for line in text.split('\n'):
    if line.startswith('use '): uses.append(line)
    elif line.startswith('-- '): uses.insert(0,line)
    elif line.startswith(' ') and items: items[-1][2]+='\n'+line
    elif line.strip():
        m=re.match(r'(\S+)((?: [^=\s]+)*?)(?: unfolding ([^=]+?))? = (.*)$',line)
        items.append([m.group(1),m.group(3),m.group(4)])
for n,u,term in items:
    pat=re.compile(r'^(%s : tie\.Need-\S+(?: Inv-\S+ μ-\S+)*\n)(unfolding [^\n]*\n)?(%s(?: [^\s=]+)* =)[^\n]*(?:\n    [^\n]*)*'%(re.escape(n),re.escape(n)),re.M)
    if not pat.search(t): print('no need',n); continue
    t=pat.sub(lambda m:m.group(1)+('unfolding %s\n'%u if u else '')+m.group(3)+' '+term,t,count=1)
if uses:
    new=[u for u in uses if u not in t]
    t='\n'.join(new)+('\n' if new else '')+t
open(p,'w').write(t)
