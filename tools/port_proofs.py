#!/usr/bin/env python3
"""Gives a Proof.antt the names that today's check lists: nested.py names.json CRATE_DIR"""
import json,os,re,sys
WORD=r'[^\s(){}.;,@"«»]+'
TOKEN=re.compile(r'(--[^\n]*)|("(?:[^"\\\n]|\\.)*")|(«[^»]*»)|('+WORD+r')|(\.)|([\s(){};,@»])')
norm=lambda s:s.replace('_','-')
STEPF=set('result ensures new given true false invariant inv taken auto lifetimes last is told branch asked was'.split())
def convert(text,e,key):
    needs={}
    for old,new in e['needs']: needs.setdefault(norm(old),new)
    for old,new in e['needs']: needs.setdefault(norm(new),new)
    places={}
    for p,new in zip(e['places'],e['places_by_name']): places.setdefault(norm(p[0]),new)
    steps={}
    for p in e['places']:
        o,n=p[2]
        if o: steps.setdefault(norm(o),n)
    loops={norm(o):n for (o,n),vs in e['loops']}
    for o,n in loops.items(): steps.setdefault(o,n); steps.setdefault(norm(o+'-test'),n+'-test')
    out=[];chain=[];after=False
    toks=TOKEN.findall(text)
    for i,(comment,string,quoted,word,dot,other) in enumerate(toks):
        if word:
            if not after: chain=[word]; new=word
            else:
                new=word
                nx=toks[i+2][3] if i+2<len(toks) and toks[i+1][4] else None
                if chain[0]=='tie' and len(chain)==1:
                    if word.startswith(('Need-','Need_')): new='Need-'+needs.get(norm(word[5:]),word[5:]+'??')
                    elif re.match('(invariant|decreases)[-_]',word):
                        a,b=re.match('(invariant|decreases)[-_](.*)',word).groups(); new=a+'-'+loops.get(norm(b),b)
                    elif norm(word) in places: new=places[norm(word)]
                elif norm(word) in steps and (chain[-1]=='before' or chain[0] in ('c',) and len(chain)==1 or nx in STEPF or norm(word) in loops or norm(word).endswith('-test')):
                    new=steps[norm(word)]
                chain.append(word)
            out.append(new)
        else:
            out.append(comment or string or quoted or dot or other)
            if not dot: chain=[')'] if other==')' else []
        after=bool(dot)
    return ''.join(out)
def main():
    names,crate=sys.argv[1:3]
    d=json.load(open(names)); c=os.path.basename(os.path.abspath(crate))
    n=0
    for k,e in d.items():
        m=re.match(rf'Rattle-{c}-proofs\.(.*)\.Lts',k)
        if not m: continue
        p=os.path.join(crate,'proofs',m[1].replace('.','/'),'Proof.antt')
        if not os.path.exists(p): continue
        t=open(p).read()
        t2=convert(t,e,k)
        fn=m[1].split('.')[-1]
        # the theorem's name
        last=re.findall(r'^pub (\S+) : \{M : Type 1\}',t2,re.M)
        if last and last[-1]!=fn+'_spec':
            t2=re.sub(r'(?m)(?<![^\s(])'+re.escape(last[-1])+r'(?![^\s)])',fn+'_spec',t2)
        if t2!=t: open(p,'w').write(t2); n+=1
    print(c,n,'files')
main()
