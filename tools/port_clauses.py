#!/usr/bin/env python3
"""Adds the clauses that a check prints: clauses.py LOG CRATE_DIR"""
import os,re,sys
def main(log,crate):
    lines=open(log,errors='replace').read().split('\n'); n=0
    edits={}
    for i,l in enumerate(lines):
        m=re.match(r'\./(\S+?):(\d+):(\d+): error: `([^`]+)`: write the clauses?',l)
        if not m: continue
        path,row,name=m[1],int(m[2]),m[4]
        new=[]
        for k in lines[i+1:]:
            if k.startswith('  ') and re.match(r'^  (\S+) .*(= elim|= absurd|=) ',k) and k.strip().split(' ')[0]==name: new.append(k.strip())
            elif k.startswith('  '): continue
            else: break
        if new: edits.setdefault(path,[]).append((row,name,new))
    for path,es in edits.items():
        p=os.path.join(crate,path); t=open(p).read().split('\n')
        for row,name,new in sorted(es,reverse=True):
            at=row-1
            # the block of clauses of this name that has the row
            while at>=0 and not re.match(r'^ *'+re.escape(name)+r'[ ]',t[at]): at-=1
            if at<0: print('no clause',path,name); continue
            ind=len(t[at])-len(t[at].lstrip())
            end=at+1
            while end<len(t):
                s=t[end]
                if not s.strip():
                    break
                k=len(s)-len(s.lstrip())
                if k<ind: break
                if k==ind and not s.strip().startswith(name+' ') and not s.strip()[0] in ')}':
                    break
                end+=1
            # do not add twice
            have=set(x.strip() for x in t)
            add=[' '*ind+c for c in new if c not in have]
            t[end:end]=add; n+=len(add)
        open(p,'w').write('\n'.join(t))
    print(crate,n,'clauses')
    return n
main(*sys.argv[1:3])
