#!/usr/bin/env bash
# Times how fast texts are cut into tokens and read as modules, on a stack of 8 MiB: a module of 4 MiB, a function of
# 100,000 parameters, 200 brackets around chains of 1,000 operators, 100,000 declarations, and lists of 500,000 and of
# 1,000,000 numbers, where the second time should be about twice the first. Prints the bytes of each text, the greatest
# memory and the time.
#
# The program is elm_cases, which this builds; PROGRAM names one that is built already.
set -eu

root="$(cd "$(dirname "${BASH_SOURCE[0]}")/.." && pwd)"
program="${PROGRAM:-$root/crates/elm_cases/out/elm_cases}"
if [ -z "${PROGRAM:-}" ]; then
    (cd "$root/crates/elm_cases" && rt run -- read) >/dev/null 2>&1 </dev/null || true
fi
[ -x "$program" ] || { echo "elm_cases is not built" >&2; exit 1; }
folder="$(mktemp -d)"
trap 'rm -rf "$folder"' EXIT
cd "$folder"
ulimit -s 8192

header='module Main exposing (..)'

read_text() { # NAME
    python3 - "$program" "$1" <<'PYTHON'
import os, resource, subprocess, sys, time
program, name = sys.argv[1:]
start = time.monotonic()
done = subprocess.run([program, "read", name], stdout=subprocess.PIPE)
seconds = time.monotonic() - start
used = resource.getrusage(resource.RUSAGE_CHILDREN)
print(f"{os.path.getsize(name)} bytes, {used.ru_maxrss // 1024} MiB, {seconds:.2f} s,", end=" ")
print(f"of the processor {used.ru_utime + used.ru_stime:.2f} s, status {done.returncode}:", done.stdout.decode()[:80].strip(), flush=True)
PYTHON
}

# Declarations of every kind, and then a comment, up to 4,194,304 bytes.
awk -v header="$header" 'BEGIN {
    print header
    for (i = 0; i < 7500; i++) {
        printf "\n\ntype Shape%d\n    = Dot%d\n    | Box%d { w : Int, h : Int } (List Int)\n", i, i, i
        printf "\n\narea%d : Shape%d -> (Int -> Int) -> Int\narea%d shape f =\n    case shape of\n", i, i, i
        printf "        Dot%d ->\n            0\n\n        Box%d { w, h } (first :: _ :: rest) ->\n            let\n", i, i
        printf "                ( x, y ) =\n                    ( f w, h * 2 + 1 )\n            in\n"
        printf "            if x > y && w /= h then\n                List.foldl (\\n sum -> n + sum) first rest\n\n            else\n                f -x\n"
    }
}' >front
size="$(wc -c <front)"
{ cat front; printf -- '--'; head -c "$((4194304 - size - 3))" /dev/zero | tr '\0' 'x'; printf '\n'; } >module
read_text module

awk -v header="$header" 'BEGIN { print header; printf "\nf"; for (i = 0; i < 100000; i++) printf " x%d", i; print " =\n    x0" }' >parameters
read_text parameters

awk -v header="$header" 'BEGIN {
    print header "\n\nx ="
    printf "    "
    for (i = 0; i < 200; i++) { printf "("; for (k = 0; k < 1000; k++) printf "1 + " }
    printf "1"
    for (i = 0; i < 200; i++) printf ")"
    print ""
}' >chains
read_text chains

awk -v header="$header" 'BEGIN { print header "\n"; for (i = 0; i < 100000; i++) printf "f%d x =\n    x + %d\n", i, i }' >declarations
read_text declarations

for count in 500000 1000000; do
    awk -v header="$header" -v n="$count" 'BEGIN { print header "\n\nx ="; printf "    [ 1"; for (i = 1; i < n; i++) printf ",1"; print " ]" }' >"list_$count"
    read_text "list_$count"
done
