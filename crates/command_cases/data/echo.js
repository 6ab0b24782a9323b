const Main$out=($value=>{return {"$":0,"a0":"out","a1":$value};});
const Main$init=($flags=>{return {"$":0,"a0":0,"a1":{"$":1,"a0":_list([{"$":0,"a0":"\uD83D\uDE00","a1":_eNull()(0)},Main$out("\u00E9\"\uD800")])}};});
const Main$update=($message=>{return ($model=>{return {"$":0,"a0":$model,"a1":$message};});});
const Main$members=($record=>{return Main$out(_eRecord("b",_eSame(),"a",_eList(_eMaybe(_eSame())),"ab",_eRecord())($record));});
const Main$units=($record=>{return Main$out(_eRecord("\uFF00",_eSame(),"\uE000",_eSame(),"\uD83D\uDE00",_eSame())($record));});
const Main$subscriptions=($model=>{return {"$":1,"a0":_list([{"$":0,"a0":"crash","a1":($text=>{return _crash($text);})},{"$":0,"a0":"inp","a1":Main$out},{"$":0,"a0":"members","a1":Main$members},{"$":0,"a0":"text","a1":Main$out},{"$":0,"a0":"units","a1":Main$units},{"$":0,"a0":"\u00E9","a1":($text=>{return {"$":0,"a0":"o\u00E9\uD800","a1":$text};})}])};});
const Main$main={"$":0,"a0":{"init":Main$init,"update":Main$update,"subscriptions":Main$subscriptions}};
const _main={"name":"Main","program":Main$main,"flags":_dAny(),"ins":{"crash":_dText(),"inp":_dInt(),"members":_dRecord("b",_dInt(),"a",_dList(_dMaybe(_dBool())),"ab",_dRecord()),"text":_dText(),"units":_dRecord("\uFF00",_dInt(),"\uE000",_dInt(),"\uD83D\uDE00",_dInt()),"\u00E9":_dText()},"outs":{"out":0,"o\u00E9\uD800":0,"\uD83D\uDE00":0}};
