#!/usr/bin/env bash
# Times how fast the names of projects are resolved, on a stack of 8 MiB: a module of 10,000 and one of 20,000
# definitions, where the second time should be about twice the first, a `let` of 1,000 names, a record of 1,000
# fields, 4,000 aliases that stand for each other in turn, and 200 brackets around chains of 1,000 operators. Prints
# the greatest memory and the time, in which the texts are read and the core modules are resolved too: the first line
# says what an empty module takes.
#
# The program is elmc, which this builds; PROGRAM names one that is built already. The modules have no `main`, so where
# nothing else is wrong with one, that is said.
set -eu

root="$(cd "$(dirname "${BASH_SOURCE[0]}")/.." && pwd)"
program="${PROGRAM:-$root/elmc}"
"$program" >/dev/null 2>&1 </dev/null || true
folder="$(mktemp -d)"
trap 'rm -rf "$folder"' EXIT
cd "$folder"
ulimit -s 8192
project='{ "type": "application", "elm-version": "0.19.1", "source-directories": ["src"] }'

resolve() { # NAME
    python3 - "$program" "$1" <<'PYTHON'
import resource, subprocess, sys, time
program, name = sys.argv[1:]
start = time.monotonic()
done = subprocess.run([program, "make", "src/Main.elm", "--output=out.js"], cwd=name, stderr=subprocess.PIPE)
seconds = time.monotonic() - start
used = resource.getrusage(resource.RUSAGE_CHILDREN)
print(f"{name}: {used.ru_maxrss // 1024} MiB, {seconds:.2f} s, of the processor {used.ru_utime + used.ru_stime:.2f} s,", end=" ")
print(f"status {done.returncode}:", done.stderr.decode()[:80].strip(), flush=True)
PYTHON
}

begin() { # NAME
    mkdir -p "$1/src"
    echo "$project" >"$1/elm.json"
    printf 'module Main exposing (..)\n\n' >"$1/src/Main.elm"
}

begin empty
printf '\nx =\n    0\n' >>empty/src/Main.elm
resolve empty

for count in 10000 20000; do
    begin "definitions_$count"
    awk -v n="$count" 'BEGIN { for (i = 0; i < n; i++) printf "\nf%d : Int -> Int\nf%d x =\n    f%d (x + %d)\n\n", i, i, (i + 1) % n, i }' >>"definitions_$count/src/Main.elm"
    resolve "definitions_$count"
done

begin let
awk 'BEGIN {
    print "\nx =\n    let"
    for (i = 0; i < 1000; i++) printf "        y%d =\n            y%d\n\n", i, i + 1
    print "        y1000 =\n            0\n    in\n    y0"
}' >>let/src/Main.elm
resolve let

begin record
awk 'BEGIN {
    printf "\nx =\n    { f0 = 0"
    for (i = 1; i < 1000; i++) printf ", f%d = %d", i, i
    print " }"
}' >>record/src/Main.elm
resolve record

begin aliases
awk 'BEGIN {
    print "\n\ntype alias A0 =\n    Int"
    for (i = 1; i < 4000; i++) printf "\n\ntype alias A%d =\n    { x : A%d }\n", i, i - 1
}' >>aliases/src/Main.elm
resolve aliases

begin chains
awk 'BEGIN {
    print "\nx =\n    0\n\n\ny ="
    printf "    "
    for (i = 0; i < 200; i++) { printf "("; for (k = 0; k < 1000; k++) printf "x + " }
    printf "x"
    for (i = 0; i < 200; i++) printf ")"
    print ""
}' >>chains/src/Main.elm
resolve chains
