#!/usr/bin/env bash
# Times runs of outputs with 20,000 constants: none uses another, each uses the one before, and a million calls of a function among them that
# reads another constant. Prints seconds and the greatest memory of each.
set -eu

root="$(cd "$(dirname "${BASH_SOURCE[0]}")/.." && pwd)"
folder="$(mktemp -d)"
trap 'rm -rf "$folder"' EXIT
mkdir "$folder/src"
cp "$root/examples/answer/elm.json" "$folder"
cp "$root/examples/answer/src/Main.elm" "$folder/src/Main.elm"
cd "$folder"
"$root/elmc" make src/Main.elm --output=made.js >/dev/null
printf 'null\n' >in.txt

# The lines round the body: those before the first constant, and those from `_main` on.
first="$(grep -n '^const Platform\$' made.js | head -n 1 | cut -d: -f1)"
last="$(grep -n '^const _main=' made.js | cut -d: -f1)"

run() { # NAME
    { head -n "$((first - 1))" made.js; cat; tail -n "+$last" made.js; } >"$1.js"
    local start end status=0
    start="$(date +%s.%N)"
    /usr/bin/env python3 - "$root/elmc" "$1" <<'PYTHON' || status=$?
import resource, subprocess, sys
command, name = sys.argv[1:]
done = subprocess.run([command, "run", name + ".js", "in.txt", "--fuel=4000000000"], stdout=open(name + ".out", "w"))
print(name + ":", resource.getrusage(resource.RUSAGE_CHILDREN).ru_maxrss // 1024, "MiB,", end=" ")
sys.exit(done.returncode)
PYTHON
    end="$(date +%s.%N)"
    echo "$(echo "$end $start" | awk '{printf "%.1f", $1 - $2}') s, status $status: $(head -c 60 "$1.out" | tr '\n' ' ')"
}

main='const Main$main={"$":0,"a0":{"init":($flags=>{return {"$":0,"a0":0,"a1":{"$":0,"a0":"out","a1":Main$value}};}),"update":($message=>{return ($model=>{return {"$":0,"a0":$model,"a1":{"$":1,"a0":_list([])}};});}),"subscriptions":($model=>{return {"$":1,"a0":_list([])};})}};'

run apart <<BODY
$(awk 'BEGIN { for (i = 0; i < 20000; i++) printf "const Main$c%d=%d;\n", i, i }')
const Main\$value=Main\$c10000;
$main
BODY

run chained <<BODY
const Main\$c0=0;
$(awk 'BEGIN { for (i = 1; i < 20000; i++) printf "const Main$c%d=(Main$c%d+1);\n", i, i - 1 }')
const Main\$value=Main\$c19999;
$main
BODY

run calls <<BODY
$(awk 'BEGIN { for (i = 0; i < 10000; i++) printf "const Main$c%d=%d;\nconst Main$f%d=($n=>{return ($n+Main$c%d);});\n", i, i, i, i }')
const Main\$count=(\$\$0=>{return (\$\$1=>{let \$n=\$\$0;let \$sum=\$\$1;while(true){const \$\$2=\$n;if((\$\$2===0)){return \$sum;}else{const \$\$3=(\$\$2-1);const \$\$4=Main\$f5000(\$sum);\$n=\$\$3;\$sum=\$\$4;continue;}}});});
const Main\$value=Main\$count(1000000)(0);
$main
BODY
