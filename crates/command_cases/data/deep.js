const Main$main={"$":0,"a0":{"init":($flags=>{return {"$":0,"a0":0,"a1":{"$":0,"a0":"out","a1":Main$value}};}),"update":($message=>{return ($model=>{return {"$":0,"a0":$model,"a1":{"$":1,"a0":_list([])}};});}),"subscriptions":($model=>{return {"$":1,"a0":_list([])};})}};
const _main={"name":"Main","program":Main$main,"flags":_dAny(),"ins":{},"outs":{"out":0}};
