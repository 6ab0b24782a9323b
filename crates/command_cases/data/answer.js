const Platform$Cmd$none={"$":1,"a0":{"$":0}};
const Platform$Sub$none={"$":1,"a0":{"$":0}};
const Platform$worker=($$0=>{return {"$":0,"a0":$$0};});
const Main$out=($$0=>{return {"$":0,"a0":"out","a1":_eSame()($$0)};});
const Main$main=Platform$worker({"init":($$0=>{return {"$":0,"a0":0,"a1":Main$out(42)};}),"update":($$1=>{return ($m=>{return {"$":0,"a0":$m,"a1":Platform$Cmd$none};});}),"subscriptions":($$2=>{return Platform$Sub$none;})});
const _main={"name":"Main","program":Main$main,"flags":_dAny(),"ins":{},"outs":{"out":0}};
