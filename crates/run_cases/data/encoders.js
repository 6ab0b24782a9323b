(function(scope){"use strict";
const _crash=t=>{throw new Error(t);};
const _quot=(a,b)=>(a/b)|0;
const _rem=(d,x)=>x%d;
const _mod=(m,x)=>{if(m===0){_crash("modBy 0");}const r=x%m;return (r>0&&m<0)||(r<0&&m>0)?r+m:r;};
const _and=(a,b)=>a&b;
const _or=(a,b)=>a|b;
const _xor=(a,b)=>a^b;
const _not=a=>~a;
const _shl=(n,x)=>x<<n;
const _shr=(n,x)=>x>>n;
const _shz=(n,x)=>x>>>n;
const _fromInt=n=>""+n;
const _length=s=>s.length;
const _unitAt=(i,s)=>s.charCodeAt(i);
const _fromUnit=n=>String.fromCharCode(n);
const _slice=(a,b,s)=>s.slice(a,b);
const _find=(p,i,s)=>s.indexOf(p,i);
const _same=x=>x;
const _update=(r,c)=>Object.assign({},r,c);
const _list=a=>{let l={"$":0};for(let i=a.length-1;i>=0;i--){l={"$":1,"a0":a[i],"a1":l};}return l;};
const _array=l=>{const a=[];for(;l["$"]===1;l=l["a1"]){a.push(l["a0"]);}return a;};
const _append=(x,y)=>{if(typeof x==="string"){return x+y;}const a=_array(x);for(let i=a.length-1;i>=0;i--){y={"$":1,"a0":a[i],"a1":y};}return y;};
const _pairs=(d,r)=>{while(d["$"]===-1){r={"$":1,"a0":{"$":0,"a0":d["a1"],"a1":d["a2"]},"a1":_pairs(d["a4"],r)};d=d["a3"];}return r;};
const _size=x=>{let n=0;while(("a"+n) in x){n++;}return n;};
const _eq=(x,y)=>{for(;;){
if(typeof x==="function"){_crash("equality of functions");}
if(typeof x!=="object"||x===null||y===null){return x===y;}
if(!("$" in x)){if(Array.isArray(x)&&x.length!==y.length){return false;}for(const k of Object.keys(x).sort()){if(!_eq(x[k],y[k])){return false;}}return true;}
if(x["$"]<0){x=_pairs(x,{"$":0});y=_pairs(y,{"$":0});}
if(x["$"]!==y["$"]){return false;}
const n=_size(x);if(n===0){return true;}
for(let i=0;i<n-1;i++){if(!_eq(x["a"+i],y["a"+i])){return false;}}
x=x["a"+(n-1)];y=y["a"+(n-1)];}};
const _cmp=(x,y)=>{for(;;){
if(typeof x!=="object"){return x===y?0:x<y?-1:1;}
if(x["$"]!==y["$"]){return x["$"]<y["$"]?-1:1;}
const n=_size(x);if(n===0){return 0;}
for(let i=0;i<n-1;i++){const c=_cmp(x["a"+i],y["a"+i]);if(c!==0){return c;}}
x=x["a"+(n-1)];y=y["a"+(n-1)];}};
const _dInt=()=>w=>Number.isSafeInteger(w)?w:undefined;
const _dBool=()=>w=>typeof w==="boolean"?w:undefined;
const _dText=()=>w=>typeof w==="string"?w:undefined;
const _dNull=()=>w=>w===null?0:undefined;
const _dAny=()=>w=>0;
const _dMaybe=d=>w=>{if(w===null){return {"$":1};}const v=d(w);return v===undefined?v:{"$":0,"a0":v};};
const _all=a=>a.includes(undefined)?undefined:a;
const _dList=d=>w=>{const a=Array.isArray(w)?_all(w.map(x=>d(x))):undefined;return a&&_list(a);};
const _dTuple=(...ds)=>w=>{if(!Array.isArray(w)||w.length<ds.length){return undefined;}const r={"$":0};for(let i=0;i<ds.length;i++){const v=ds[i](w[i]);if(v===undefined){return v;}r["a"+i]=v;}return r;};
const _dRecord=(...f)=>w=>{if(typeof w!=="object"||w===null||Array.isArray(w)){return undefined;}const r={};for(let i=0;i<f.length;i+=2){if(!Object.prototype.hasOwnProperty.call(w,f[i])){return undefined;}const v=f[i+1](w[f[i]]);if(v===undefined){return v;}r[f[i]]=v;}return r;};
const _eSame=()=>v=>v;
const _eNull=()=>v=>null;
const _eMaybe=e=>v=>v["$"]===0?e(v["a0"]):null;
const _eList=e=>v=>_array(v).map(x=>e(x));
const _eTuple=(...es)=>v=>es.map((e,i)=>e(v["a"+i]));
const _eRecord=(...f)=>v=>{const r={};for(let i=0;i<f.length;i+=2){r[f[i]]=f[i+1](v[f[i]]);}return r;};
const _main={"name":"Main","program":{"$":0,"a0":{"init":($$0=>{return {"$":0,"a0":0,"a1":{"$":1,"a0":{"$":0}}};}),"update":($$0=>{return ($$1=>{return {"$":0,"a0":$$1,"a1":{"$":0,"a0":"out","a1":_eSame()((($$0===0)?_eSame()(5):(($$0===1)?_eNull()(0):(($$0===2)?_eMaybe(_eSame())({"$":0,"a0":5}):(($$0===3)?_eMaybe(_eSame())({"$":1}):(($$0===4)?_eList(_eSame())({"$":1,"a0":1,"a1":{"$":1,"a0":2,"a1":{"$":0}}}):(($$0===5)?_eTuple(_eSame(),_eNull())({"$":0,"a0":7,"a1":0}):(($$0===6)?_eRecord("p",_eSame(),"q",_eMaybe(_eSame()))({"q":{"$":1},"p":"ab"}):(($$0===7)?_eList(_eMaybe(_eList(_eSame())))({"$":1,"a0":{"$":1},"a1":{"$":1,"a0":{"$":0,"a0":{"$":1,"a0":1,"a1":{"$":0}}},"a1":{"$":0}}}):0)))))))))}};});}),"subscriptions":($$0=>{return {"$":0,"a0":"in","a1":($$1=>{return $$1;})};})}},"flags":_dAny(),"ins":{"in":_dInt()},"outs":{"out":0}};
const _flat=(b,o)=>{if(b["$"]===0){o.push(b);}else{for(const x of _array(b["a0"])){_flat(x,o);}}return o;};
const _init=o=>{
const f=_main["flags"](o?o["flags"]:null);
if(f===undefined){throw new Error("flags refused");}
const p=_main["program"]["a0"],ports={},subs={},queue=[];
let model,shut=false;
const flush=()=>{while(queue.length>0){const s=queue.shift();for(const g of subs[s["a0"]]){g(s["a1"]);}}};
const step=r=>{model=r["a0"];for(const s of _flat(r["a1"],[])){queue.push(s);}Promise.resolve().then(flush);};
for(const k of Object.keys(_main["outs"])){subs[k]=[];ports[k]={"subscribe":g=>{subs[k]=subs[k].concat([g]);},"unsubscribe":g=>{subs[k]=subs[k].filter(h=>h!==g);}};}
for(const k of Object.keys(_main["ins"])){ports[k]={"send":w=>{
if(shut){return;}
const v=_main["ins"][k](w);
if(v===undefined){throw new Error(k+" refused");}
shut=true;
for(const s of _flat(p["subscriptions"](model),[])){if(s["a0"]===k){step(p["update"](s["a1"](v))(model));}}
shut=false;}};}
step(p["init"](f));
return {"ports":ports};};
let _at=scope["Elm"]=scope["Elm"]||{};
for(const n of _main["name"].split(".")){_at=_at[n]=_at[n]||{};}
_at["init"]=_init;
}(this));
