#!/usr/bin/env python3
# repath.py OLD NEW PROOFS [RENAMES..]: carries the proofs of a crate over a change of its code. OLD and NEW are folders that `rt dev CRATE --generated DIR`
# wrote before and after the change, PROOFS is the crate's folder of proofs. Each answer is kept for the need of the same name; where a thing that
# it speaks of was bound later or earlier than before, its `.before`s are counted anew. A new need is answered by `search needs`. RENAMES: OLD=NEW of things.
# Once for each change: a second time on the same proofs it would count anew what was counted. What it can't carry, it prints.
import glob,os,re,sys
old,new,proofs=sys.argv[1:4]
renames=dict(r.split('=') for r in sys.argv[4:])
def lts(d):
    out={}
    for f in glob.glob(d+'/**/Lts*.antt',recursive=True):
        if '/proofs/' not in f: continue
        rel=f.split('/proofs/',1)[1]
        fn=os.path.dirname(rel) if rel.endswith('/Lts.antt') else re.sub(r'Lts-(.*)\.antt$',r'\1',rel)
        t=open(f).read(); rec={}; cur=None
        for l in t.split('\n'):
            m=re.match(r' *pub record (\S+)( : |$)',l)
            if m: cur=m.group(1); rec.setdefault(cur,[]); continue
            m=re.match(r' +pub (\S+) : ?(\S*)',l)
            if m and cur: rec[cur].append((m.group(1),m.group(2)))
        def chain(r):
            out=[]
            while r in rec:
                fs=dict(rec[r]); out.append([x for x,_ in rec[r] if x!='before']+['record '+r])
                if 'before' not in fs: break
                r=fs['before']
            return out
        needs={}
        for n,r in re.findall(r'(Need-\S+)(?: [^=\n]*)? =\s*\(c : (\S+?)\)',t): needs.setdefault(n[5:],chain(r))
        for r in rec: needs.setdefault('record '+r,chain(r))
        out[fn]=needs
    return out
a,b=lts(old),lts(new)
def place(chain,field,k):
    # which occurrence, counted from the start
    rest=[i for i in range(k,len(chain)) if field in chain[i]]
    return len(rest)
def find(chain,field,occ):
    at=[i for i in range(len(chain)) if field in chain[i]]
    return at[len(at)-occ] if 0<occ<=len(at) else None
for fn,needs in sorted(b.items()):
    p=os.path.join(proofs,fn,'Proof.antt')
    if not os.path.exists(p): continue
    t=open(p).read(); olds=a.get(fn)
    if olds is None: print(fn,': no old'); continue
    if olds==needs: continue
    blocks=list(re.finditer(r'^(\S+) : tie\.Need-(\S+)([^\n]*)\n(unfolding [^\n]*\n)?\1(( [^\s=]+)*) =((?:[^\n]*)(?:\n(?: [^\n]*|(?=\n [^\n])))*)\n',t,re.M))
    have={m.group(2):m for m in blocks}
    lost=[n for n in have if n not in needs]
    def carry(n,body,o=None):
        oc,nc=olds.get(o or n),needs[n]
        if oc is None: return body
        def f(m):
            k=m.group(1).count('.before'); field=m.group(2)
            if not field and k==0: return m.group(0)
            if k>=len(oc) or field and field not in oc[k]: print(fn,n,'no such old path',k,field); return m.group(0)
            whole=not field
            if whole: field=oc[k][-1]
            o=place(oc,field,k); to=renames.get(field,field)
            j=find(nc,to,o)
            if j is None: print(fn,n,'lost',field); return m.group(0)
            return 'c'+' .before'*j+('' if whole else ' .'+to)
        return re.sub(r"(?<![\w.·-])c((?: \.before)*)(?: \.(?!before)([^\s().,;]+))?(?![\w·-])",f,body)
    out=[]; names=[]; loop=''
    for n in [n for n in needs if not n.startswith('record ')]:
        m=have.get(n)
        if m: loop=m.group(3)
        if m: out.append('%s : tie.Need-%s%s\n%s%s%s =%s\n'%(m.group(1),n,m.group(3),m.group(4) or '',m.group(1),m.group(5),carry(n,m.group(7)))); names.append(m.group(1))
        elif any(x.split('-')[0]==n.split('-')[0] for x in lost):
            x=next(x for x in lost if x.split('-')[0]==n.split('-')[0]); lost.remove(x); m=have[x]
            out.append('%s : tie.Need-%s%s\n%s%s%s =%s\n'%(n,n,m.group(3),m.group(4) or '',n,m.group(5),carry(n,m.group(7),x))); names.append(n); print(fn,n,'was',x)
        else:
            arg=' κs' if n.endswith('-requires') else ''
            out.append('%s : tie.Need-%s%s\n%s c%s = search needs\n'%(n,n,loop,n,arg)); names.append(n); print(fn,'new',n)
    gone=lost
    if gone: print(fn,'gone',gone)
    if not blocks: print(fn,': no blocks'); continue
    def lemma(m):
        n='record '+m.group(2)
        if n not in needs: print(fn,'lemma over a context that is gone:',m.group(1)); return m.group(0)
        return m.group(1)+' : (c : tie.'+m.group(2)+')'+carry(n,m.group(3))
    lemmas=re.compile(r'^(\S+) : \(c : tie\.([^\s)]+)\)((?:.|\n)*?)(?=\n\n|\Z)',re.M)
    head=t[:blocks[0].start()]; tail=t[blocks[-1].end():]
    between=''.join(t[x.end():y.start()] for x,y in zip(blocks,blocks[1:]))
    if between.strip(): print(fn,'text between needs kept at the head'); head+=between.strip()+'\n\n'
    head=lemmas.sub(lemma,head)
    m=re.search(r'tie\.close\s*\(tie\.spec(?:[^()]|\([^()]*\))*\)',tail)
    if m and not re.search(r'\(',m.group(0)[len('tie.close')+1:].strip()[1:]):
        known={x.group(1) for x in blocks}
        loops=[x for x in re.search(r'tie\.spec([^)]*)\)',m.group(0)).group(1).split() if x not in known]
        tail=tail.replace(m.group(0),'tie.close\n    (tie.spec\n    '+'\n    '.join(loops+names)+')')
    else: print(fn,'spec line to be written by hand:',names)
    open(p,'w').write(head+'\n'.join(out)+'\n'+tail.lstrip('\n')); print(fn,'written')
