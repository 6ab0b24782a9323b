#!/usr/bin/env bash
# Times runs of outputs whose body is written by hand: a million turns of a loop, a recursion a million deep, and a list of a million cells
# that is built and let go. Prints seconds and the greatest memory of each, and compares what is sent with node, where node is there.
set -eu

root="$(cd "$(dirname "${BASH_SOURCE[0]}")/.." && pwd)"
folder="$(mktemp -d)"
trap 'rm -rf "$folder"' EXIT
mkdir "$folder/src"
cp "$root/examples/answer/elm.json" "$folder"
cp "$root/examples/answer/src/Main.elm" "$folder/src/Main.elm"
cd "$folder"
"$root/elmc" make src/Main.elm --output=made.js >/dev/null
printf 'null\n' >in.txt

# The lines round the body: those before the first constant, and those from `_main` on.
first="$(grep -n '^const Platform\$' made.js | head -n 1 | cut -d: -f1)"
last="$(grep -n '^const _main=' made.js | cut -d: -f1)"

run() { # NAME FUEL
    { head -n "$((first - 1))" made.js; cat; tail -n "+$last" made.js; } >"$1.js"
    local start end status=0
    start="$(date +%s.%N)"
    /usr/bin/env python3 - "$root/elmc" "$1" "$2" <<'PYTHON' || status=$?
import resource, subprocess, sys
command, name, fuel = sys.argv[1:]
done = subprocess.run([command, "run", name + ".js", "in.txt", "--fuel=" + fuel], stdout=open(name + ".out", "w"))
print(name + ":", resource.getrusage(resource.RUSAGE_CHILDREN).ru_maxrss // 1024, "MiB,", end=" ")
sys.exit(done.returncode)
PYTHON
    end="$(date +%s.%N)"
    echo "$(echo "$end $start" | awk '{printf "%.1f", $1 - $2}') s, status $status: $(head -c 60 "$1.out" | tr '\n' ' ')"
}

agrees() { # NAME
    command -v node >/dev/null || return 0
    node --stack-size=60000 "$root/bench/run_in_node.mjs" "$1.js" in.txt >"$1.node" 2>/dev/null || return 0
    cmp "$1.out" "$1.node"
}

main='const Main$main={"$":0,"a0":{"init":($flags=>{return {"$":0,"a0":0,"a1":{"$":0,"a0":"out","a1":Main$value}};}),"update":($message=>{return ($model=>{return {"$":0,"a0":$model,"a1":{"$":1,"a0":_list([])}};});}),"subscriptions":($model=>{return {"$":1,"a0":_list([])};})}};'

run turns 4000000000 <<BODY
const Main\$count=(\$\$0=>{return (\$\$1=>{let \$n=\$\$0;let \$sum=\$\$1;while(true){const \$\$2=\$n;if((\$\$2===0)){return \$sum;}else{const \$\$3=(\$\$2-1);const \$\$4=(\$sum+\$\$2);\$n=\$\$3;\$sum=\$\$4;continue;}}});});
const Main\$value=Main\$count(1000000)(0);
$main
BODY
agrees turns

run deep 4000000000 <<BODY
const Main\$deep=(\$n=>{return ((\$n===0)?0:(1+Main\$deep((\$n-1))));});
const Main\$value=Main\$deep(1000000);
$main
BODY

run endless 1000000 <<BODY
const Main\$endless=(\$n=>{return (1+Main\$endless(\$n));});
const Main\$value=Main\$endless(0);
$main
BODY

run cells 4000000000 <<BODY
const Main\$build=(\$n=>{return ((\$n===0)?{"\$":0}:{"\$":1,"a0":\$n,"a1":Main\$build((\$n-1))});});
const Main\$first=(\$list=>{return \$list["a0"];});
const Main\$value=Main\$first(Main\$build(1000000));
$main
BODY
