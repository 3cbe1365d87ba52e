#!/usr/bin/python3
"""The rules of docs/DESKTOP.md as a model of some 250 lines, to try them on applications before they are proved: no part of the product, and to go once
`atspi-desktop` runs. `desktop_model.py read PATH ROUNDS` stands for a reader at `bench/desktop.sh --reader`: it writes focus lines and, once the bus ends,
what is held. It says nothing of alerts, typing and the reader's start."""
import sys, time
import gi
gi.require_version("Atspi", "2.0")
from gi.repository import Gio, GLib, Atspi
A="org.a11y.atspi.Accessible"; P="org.freedesktop.DBus.Properties"; EV="org.a11y.atspi.Event.Object"; CA="org.a11y.atspi.Cache"; TX="org.a11y.atspi.Text"
REG="org.a11y.atspi.Registry"; ROOT="/org/a11y/atspi/accessible/root"; NULL="/org/a11y/atspi/null"
STATES=[Atspi.StateType(i).value_nick for i in range(0,44)]
OWN="/org/a11y/atspi/accessible/"
bus=Gio.DBusConnection.new_for_address_sync("unix:path="+sys.argv[2], Gio.DBusConnectionFlags.AUTHENTICATION_CLIENT|Gio.DBusConnectionFlags.MESSAGE_BUS_CONNECTION,None,None)
loop=GLib.MainLoop(); said=[]; apps={}; stats={"calls":0}
def call(name,path,iface,member,body,done):
    stats["calls"]+=1
    def ready(c,res):
        try: done(c.call_finish(res).unpack())
        except GLib.Error as e: done(None)
    bus.call(name,path,iface,member,body,None,Gio.DBusCallFlags.NONE,2000,None,ready)
class Row:
    def __init__(s,path,name="",desc="",role=0,states=0,ifs=()):
        s.path=path; s.name=name; s.desc=desc; s.role=role; s.states=states; s.ifs=tuple(ifs); s.parent=None; s.kids=[]
        s.text="?" if TX in s.ifs else None; s.caret="?" if TX in s.ifs else None
class App:
    def __init__(s,name,root):
        s.name=name; s.root=root; s.rows={}; s.phase="starting"; s.kept=[]; s.climb=None; s.active=None; s.wanted=[]; s.waiting=None; s.doubts=set(); s.ask_items()
    # the reader
    def add(s,row,parent,index):
        s.rows[row.path]=row; row.parent=parent
        if parent is not None:
            k=s.rows[parent].kids
            k.insert(index,row.path) if 0<=index<=len(k) else k.append(row.path)
        for part in ("text","caret"):
            if getattr(row,part)=="?": s.wanted.append((row.path,part))
    def remove(s,path):
        if path==s.root or path not in s.rows: return
        r=s.rows[path]
        if r.parent in s.rows and path in s.rows[r.parent].kids: s.rows[r.parent].kids.remove(path)
        st=[path]
        while st:
            p=st.pop(); x=s.rows.pop(p,None)
            if x: st+=x.kids
    def inside(s,path,top):
        while path is not None:
            if path==top: return True
            path=s.rows[path].parent if path in s.rows else None
        return False
    def item(s,it):
        path,parent,index=it["path"],it["parent"],it["index"]
        if path==s.root: r=s.rows.get(path); s.renew(r,it); return
        if path in s.rows:
            if parent in s.rows and not s.inside(parent,path):
                r=s.rows[path]; s.rows[r.parent].kids.remove(path); k=s.rows[parent].kids
                k.insert(index,path) if 0<=index<=len(k) else k.append(path)
                r.parent=parent; s.renew(r,it)
        elif parent in s.rows: s.add(Row(path,it["name"],it["desc"],it["role"],it["states"],it["ifs"]),parent,index)
    def renew(s,r,it):
        r.name,r.desc,r.role,r.states,r.ifs=it["name"],it["desc"],it["role"],it["states"],tuple(it["ifs"])
    def load(s,items):
        own={}
        for it in items: own.setdefault(it["path"],it)
        kids={}
        for it in own.values():
            if it["path"]!=s.root: kids.setdefault(it["parent"],[]).append(it)
        s.rows={}; s.wanted=[]
        if s.root not in own: s.phase="starting"; return
        r=own[s.root]; s.add(Row(s.root,r["name"],r["desc"],r["role"],r["states"],r["ifs"]),None,0)
        q=[s.root]
        while q:
            p=q.pop(0)
            for it in sorted(kids.get(p,[]),key=lambda i:i["index"]):
                if it["path"] in s.rows: continue
                s.add(Row(it["path"],it["name"],it["desc"],it["role"],it["states"],it["ifs"]),p,-1); q.append(it["path"])
        s.phase="resting"; s.wish(); s.resume()
    def wish(s):
        if s.waiting or not s.wanted: return
        path,part=s.waiting=s.wanted.pop(0)
        if part=="text": call(s.name,path,TX,"GetText",GLib.Variant("(ii)",(0,-1)),lambda r:s.msg(("part",r)))
        else: call(s.name,path,P,"Get",GLib.Variant("(ss)",(TX,"CaretOffset")),lambda r:s.msg(("part",r)))
    # messages
    def msg(s,m):
        if s.phase=="resting": s.heed(m)
        elif s.phase=="asking" and m[0]=="signal": pass
        else:
            s.kept.append(m)
            if s.phase=="starting": s.ask_items()
    def resume(s):
        while s.phase=="resting" and s.kept: s.heed(s.kept.pop(0))
    def heed(s,m):
        if m[0]=="part":
            path,part=s.waiting; s.waiting=None
            if m[1] is not None and path in s.rows: setattr(s.rows[path],part,m[1][0])
            s.wish(); return
        if m[0]=="doubt":
            _,path,part,r=m; s.doubts.discard((path,part))
            if r is not None and path in s.rows: setattr(s.rows[path],part,r[0])
            return
        s.news(m[1:],True)
    def doubt(s,path,part):
        if (path,part) in s.doubts: return
        s.doubts.add((path,part)); stats["doubts"]=stats.get("doubts",0)+1
        done=lambda r:s.msg(("doubt",path,part,r))
        if part=="text": call(s.name,path,TX,"GetText",GLib.Variant("(ii)",(0,-1)),done)
        else: call(s.name,path,P,"Get",GLib.Variant("(ss)",(TX,"CaretOffset")),done)
    def news(s,m,first):
        path,iface,member,body=m
        if iface==CA:
            if member=="RemoveAccessible": s.remove(body[0][1]); return
            if member!="AddAccessible" or len(body[0])!=10: return
            it=read_item(body[0])
            if it["bus"]!=s.name: return
            if it["path"] in s.rows or it["path"]==s.root: s.item(it)
            elif it["parent"] in s.rows:
                if it["count"]<=0: s.item(it); s.wish()
                else: s.survey([(it["path"],it["parent"],it["index"])])
            elif first: s.climb_from(it["path"],m)
            return
        if iface!=EV or len(body)<4: return
        minor,d1,d2,v=body[:4]
        if member=="ChildrenChanged":
            if not (isinstance(v,tuple) and len(v)==2) or v[0]!=s.name or v[1]==NULL: return
            child=v[1]
            if minor.startswith("add"):
                if child in s.rows: return
                if path in s.rows: s.survey([(child,path,d1)])
                elif first: s.climb_from(path,m)
            elif minor.startswith("remove"):
                r=s.rows.get(child)
                if r and r.parent==path and 0<=d1<len(s.rows[path].kids) and s.rows[path].kids[d1]==child: s.remove(child)
                elif r and r.parent==path: stats["odd-removals"]=stats.get("odd-removals",0)+1
            return
        if member=="ActiveDescendantChanged":
            if not (isinstance(v,tuple) and len(v)==2) or v[0]!=s.name or v[1]==NULL: return
            if v[1] not in s.rows:
                if first: s.climb_from(v[1],m)
                return
            if s.active and s.active!=v[1]: s.state(s.active,12,False)
            s.active=v[1]; s.state(v[1],12,True); return
        if member=="StateChanged":
            if minor not in STATES: return
            bit=STATES.index(minor); on=d1!=0
            if bit==6:
                if on: s.remove(path)
                return
            if path not in s.rows:
                if first: s.climb_from(path,m)
                return
            s.state(path,bit,on); return
        if member=="PropertyChange":
            key={"accessible-name":"name","accessible-description":"desc","accessible-role":"role"}.get(minor)
            if key is None: return
            if path not in s.rows:
                if first: s.climb_from(path,m)
                return
            setattr(s.rows[path],key,v); return
        if member in ("TextChanged","TextCaretMoved"):
            if path not in s.rows:
                if first: s.climb_from(path,m)
                return
            r=s.rows[path]; n=len(r.text) if isinstance(r.text,str) and r.text!="?" else None
            if member=="TextCaretMoved":
                if n is not None and not 0<=d1<=n: s.doubt(path,"text"); s.doubt(path,"caret")
                elif r.caret not in (None,"?"): r.caret=d1
                return
            if n is None: return
            if minor.startswith("insert"):
                if 0<=d1<=n: r.text=r.text[:d1]+v+r.text[d1:]
                else: s.doubt(path,"text")
            elif minor.startswith("delete"):
                if d1>=0 and d2>=0 and d1+d2<=n: r.text=r.text[:d1]+r.text[d1+d2:]
                else: s.doubt(path,"text")
    def state(s,path,bit,on):
        r=s.rows.get(path)
        if r is None: return
        r.states=r.states|(1<<bit) if on else r.states&~(1<<bit)
        if bit==12 and on: said.append((s.name,(r.name+", " if r.name else "")+Atspi.role_get_name(Atspi.Role(r.role))))
    # items and surveys
    def ask_items(s):
        s.phase="asking"
        call(s.name,"/org/a11y/atspi/cache",CA,"GetItems",None,s.items)
    def items(s,r):
        if r is None:
            s.phase="starting"; GLib.timeout_add(700,lambda:(s.phase=="starting" and s.ask_items(),False)[1]); return
        told=[read_item(i) for i in r[0] if len(i)==10]
        own={}
        for it in told:
            if it["bus"]==s.name: own.setdefault(it["path"],it)
        kids={}
        for it in own.values():
            if it["path"]!=s.root: kids.setdefault(it["parent"],[]).append(it)
        def lacks(it):
            may=it["count"]>0 and (not it["states"]>>31&1 or it["count"]<=1024)
            return may and sorted(k["index"] for k in kids.get(it["path"],[]))!=list(range(it["count"]))
        lacking={p for p,it in own.items() if lacks(it)}
        later={p for p,it in own.items() if it["count"]<0 and it["states"]>>31&1}
        if s.root in own and not lacking and not later: s.phase="resting"; s.load(list(own.values())); stats["whole"]=stats.get("whole",0)+1; return
        s.phase="loading"; s.begin()
        if s.root not in own: s.found(s.root,None,-1,0)
        else:
            for p,it in own.items():
                s.nodes[p]=dict(it,placed=not (it["path"]!=s.root and it["parent"] in lacking|later),missing=1 if p in later else 0,gone=False,depth=0)
                if p in later: s.waits.append((p,"count"))
                elif p in lacking: s.waits.append((p,"children"))
        s.pump()
    def begin(s): s.nodes={}; s.waits=[]; s.flying=0
    def found(s,path,parent,index,depth):
        s.nodes[path]=dict(path=path,parent=parent,index=index,depth=depth,placed=True,missing=6,gone=False,name="",desc="",role=0,states=0,ifs=[],count=0,bus=s.name)
        s.waits+=[(path,t) for t in ("role","states","name","desc","ifs","count")]
    def survey(s,seeds):
        s.phase="surveying"; s.begin()
        for path,parent,index in seeds: s.found(path,parent,index,1)
        s.pump()
    def pump(s):
        while s.waits and s.flying<64:
            path,t=s.waits.pop(0); s.flying+=1
            m={"role":"GetRole","states":"GetState","ifs":"GetInterfaces","children":"GetChildren"}.get(t)
            done=lambda r,path=path,t=t:s.answer(path,t,r)
            if m: call(s.name,path,A,m,None,done)
            else: call(s.name,path,P,"Get",GLib.Variant("(ss)",(A,{"name":"Name","desc":"Description","count":"ChildCount"}[t])),done)
        if not s.waits and not s.flying: s.end()
    def answer(s,path,t,r):
        s.flying-=1; n=s.nodes[path]
        if t=="children":
            for i,(b,c) in enumerate(r[0] if r else []):
                if b!=s.name or c==NULL or c in s.rows and s.phase=="surveying": continue
                if c in s.nodes:
                    if not s.nodes[c]["placed"]: s.nodes[c].update(parent=path,index=i,depth=n["depth"]+1,placed=True)
                    continue
                if len(s.nodes)<65536: s.found(c,path,i,n["depth"]+1)
        else:
            if r is None: n["gone"]=n["gone"] or t in ("role","states")
            elif t=="states": n[t]=r[0][0]|(r[0][1]<<32 if len(r[0])>1 else 0)
            else: n[t]=r[0]
            n["missing"]-=1
            if n["missing"]==0 and not n["gone"] and n["count"]>0 and n["depth"]<256 and (not n["states"]>>31&1 or n["count"]<=1024): s.waits.append((path,"children"))
        s.pump()
    def end(s):
        there=[n for n in s.nodes.values() if n["placed"] and not n["gone"]]
        if s.phase=="loading": s.load(there); return
        s.phase="resting"
        for n in there: s.item(n)
        s.wish()
        if s.climb: c,s.climb=s.climb,None; s.news(c[1],False)
        s.resume()
    def climb_from(s,path,m):
        stats["climbs"]=stats.get("climbs",0)+1
        s.phase="climbing"; s.climb=([path],m); s.step(path)
    def step(s,path): call(s.name,path,P,"Get",GLib.Variant("(ss)",(A,"Parent")),s.parent)
    def parent(s,r):
        chain,m=s.climb
        if r is None or r[0][0]!=s.name or r[0][1] in chain or len(chain)>=256:
            s.climb=None; s.phase="resting"; s.resume(); return
        up=r[0][1]
        if up in s.rows: s.survey([(chain[-1],up,-1)]); return
        chain.append(up); s.step(up)
def read_item(i):
    st=i[9]
    return dict(bus=i[0][0],path=i[0][1],parent=i[2][1] if i[2][0]==i[0][0] else None,index=i[3],count=i[4],ifs=i[5],name=i[6],role=i[7],desc=i[8],states=(st[0] if st else 0)|((st[1] if len(st)>1 else 0)<<32))
def learn(name,root):
    if name not in apps: apps[name]=App(name,root)
def signal(c,sender,path,iface,member,body):
    b=body.unpack()
    if iface=="org.freedesktop.DBus" and member=="NameOwnerChanged":
        if b[2]=="" and b[0] in apps: said.append((b[0],"closed")); apps.pop(b[0])
        return
    if sender==registry[0] and iface==EV and member=="ChildrenChanged" and b[0]=="add": learn(*b[3]); return
    if sender in apps and iface in (EV,CA): apps[sender].msg(("signal",path,iface,member,b))
registry=[None]
bus.signal_subscribe(None,None,None,None,None,Gio.DBusSignalFlags.NONE,signal)
def started(r):
    if r is None: GLib.timeout_add(300,start); return
    for n,root in r[0]: learn(n,root)
def start():
    def owner(r): registry[0]=r[0] if r else None
    call("org.freedesktop.DBus","/org/freedesktop/DBus","org.freedesktop.DBus","GetNameOwner",GLib.Variant("(s)",(REG,)),owner)
    for pat in ("children-changed","property-change","state-changed","text-changed","text-caret-moved","active-descendant-changed"):
        call(REG,"/org/a11y/atspi/registry",REG,"RegisterEvent",GLib.Variant("(s)",("object:"+pat,)),lambda r:None)
    call(REG,ROOT,A,"GetChildren",None,started)
    return False
def q(t): return '"'+"".join('\\'+c if c in '"\\' else "\\x%02x"%ord(c) if ord(c)<32 or ord(c)==127 else c for c in t)+'"'
def node(p):
    rest=p[len(OWN):] if p.startswith(OWN) else p
    return rest if rest=="root" or rest.isdigit() and int(rest)<1<<32 else p
def show():
    for l in said: print("say",l[0],q(l[1]))
    for a in apps.values():
        print("show",a.name,len(a.rows))
        st=[(a.root,None,-1)]
        while st:
            p,par,i=st.pop(); r=a.rows.get(p)
            if r is None: continue
            role=Atspi.role_get_name(Atspi.Role(r.role)).replace(" ","-") if r.role<130 else str(r.role)
            print("|",node(p),node(par) if par else "-",i,role,"%016x"%r.states,q(r.name),q(r.desc),"-","-" if r.text is None else "?" if r.text=="?" else q(r.text),"-" if r.caret is None else r.caret,"-")
            st+=[(k,p,j) for j,k in reversed(list(enumerate(r.kids)))]
    print("#",stats,{a.name:(a.phase,len(a.kept)) for a in apps.values()},file=sys.stderr); sys.stdout.flush()
import os
def closed(*_): show(); os._exit(0)
bus.set_exit_on_close(False); bus.connect("closed",closed)
start(); loop.run()
