#!/usr/bin/env bash
# Times how fast the types of modules are inferred, on a stack of 8 MiB: a module of 10,000 and one of 20,000
# definitions of three lines, where the second time should be about twice the first; chains of definitions without
# annotations; a `case` of many branches; a record of many fields; accesses of many fields of an unknown record and of a
# known one, where twice as many take four to five times as long; uses of a name whose type is large; a `let` of many
# names; and types of 65,536 and 65,537 nodes, of which the second is refused. Prints the greatest memory and the time,
# in which the modules are compiled whole, and those of the core library too: the first line says what an empty module
# takes.
#
# The program is elmc, which this builds; PROGRAM names one that is built already. The modules have no `main`, so where
# nothing else is wrong with one, that is said.
set -eu

root="$(cd "$(dirname "${BASH_SOURCE[0]}")/.." && pwd)"
program="${PROGRAM:-$root/elmc}"
"$program" >/dev/null 2>&1 </dev/null || true
folder="$(mktemp -d)"
trap 'rm -rf "$folder"' EXIT
cd "$folder"
ulimit -s 8192
project='{ "type": "application", "elm-version": "0.19.1", "source-directories": ["src"] }'

infer() { # NAME
    python3 - "$program" "$1" <<'PYTHON'
import resource, subprocess, sys, time
program, name = sys.argv[1:]
start = time.monotonic()
done = subprocess.run([program, "make", "src/Main.elm", "--output=out.js"], cwd=name, stderr=subprocess.PIPE)
seconds = time.monotonic() - start
used = resource.getrusage(resource.RUSAGE_CHILDREN)
print(f"{name}: {used.ru_maxrss // 1024} MiB, {seconds:.2f} s, of the processor {used.ru_utime + used.ru_stime:.2f} s,", end=" ")
print(f"status {done.returncode}:", done.stderr.decode()[:80].strip(), flush=True)
PYTHON
}

begin() { # NAME
    mkdir -p "$1/src"
    echo "$project" >"$1/elm.json"
    printf 'module Main exposing (x)\n\n' >"$1/src/Main.elm"
}

begin empty
printf '\nx =\n    0\n' >>empty/src/Main.elm
infer empty

for count in 10000 20000; do
    begin "definitions_$count"
    awk -v n="$count" 'BEGIN {
        print "\nx =\n    0"
        for (i = 0; i < n; i++) printf "\n\nf%d : Int -> Int\nf%d a =\n    f%d (a + %d)\n", i, i, (i + 1) % n, i
    }' >>"definitions_$count/src/Main.elm"
    infer "definitions_$count"
done

for count in 1000 2000; do
    begin "chain_$count"
    awk -v n="$count" 'BEGIN {
        printf "\nx =\n    f%d 0\n", n - 1
        print "\n\nf0 a =\n    a + 1"
        for (i = 1; i < n; i++) printf "\n\nf%d a =\n    f%d (f%d a)\n", i, i - 1, i - 1
    }' >>"chain_$count/src/Main.elm"
    infer "chain_$count"
done

for count in 1000 2000; do
    begin "ring_$count"
    awk -v n="$count" 'BEGIN {
        print "\nx =\n    f0 0"
        for (i = 0; i < n; i++) printf "\n\nf%d a =\n    f%d (a + 1)\n", i, (i + 1) % n
    }' >>"ring_$count/src/Main.elm"
    infer "ring_$count"
done

for count in 500 1000; do
    begin "branches_$count"
    awk -v n="$count" 'BEGIN {
        print "\nx n =\n    case n of"
        for (i = 0; i < n; i++) printf "        %d ->\n            n + %d\n\n", i, i
        print "        _ ->\n            n"
    }' >>"branches_$count/src/Main.elm"
    infer "branches_$count"
done

for count in 1000 2000; do
    begin "record_$count"
    awk -v n="$count" 'BEGIN {
        printf "\nx =\n    { f0 = 0"
        for (i = 1; i < n; i++) printf ", f%d = %d", i, i
        print " }"
    }' >>"record_$count/src/Main.elm"
    infer "record_$count"
done

for count in 500 1000; do
    begin "fields_$count"
    awk -v n="$count" 'BEGIN {
        printf "\nx r =\n    [ r.f0"
        for (i = 1; i < n; i++) printf ", r.f%d", i
        print " ]"
    }' >>"fields_$count/src/Main.elm"
    infer "fields_$count"
done

for count in 500 1000; do
    begin "known_fields_$count"
    awk -v n="$count" 'BEGIN {
        printf "\nx =\n    case { f0 = 0"
        for (i = 1; i < n; i++) printf ", f%d = 0", i
        printf " } of\n        r ->\n            [ r.f0"
        for (i = 1; i < n; i++) printf ", r.f%d", i
        print " ]"
    }' >>"known_fields_$count/src/Main.elm"
    infer "known_fields_$count"
done

for count in 1000 2000; do
    begin "uses_$count"
    awk -v n="$count" 'BEGIN {
        printf "\nlarge a ="
        for (k = 0; k < 6; k++) printf "\n    (\\p%d -> ( p%d, p%d )) (", k, k, k
        printf "( a, a )"
        for (k = 0; k < 6; k++) printf ")"
        printf "\n\n\nx =\n    let\n"
        for (i = 0; i < n; i++) printf "        y%d =\n            large %d\n\n", i, i
        print "    in\n    0"
    }' >>"uses_$count/src/Main.elm"
    infer "uses_$count"
done

for count in 1000 2000; do
    begin "let_$count"
    awk -v n="$count" 'BEGIN {
        print "\nx a =\n    let"
        for (i = 0; i < n; i++) printf "        y%d =\n            y%d\n\n", i, i + 1
        printf "        y%d =\n            a\n    in\n    y0\n", n
    }' >>"let_$count/src/Main.elm"
    infer "let_$count"
done

# A type of 65,536 nodes and one of 65,537: pairs of pairs, and a list about one of their leaves.
for nodes in 65536 65537; do
    begin "nodes_$nodes"
    python3 - "$nodes" >>"nodes_$nodes/src/Main.elm" <<'PYTHON'
import sys
nodes = int(sys.argv[1])
# `p15` has 2^15 leaves of `()` and 2^15 - 1 pairs about them: 65,535 nodes. Each `[ ]` is one node more.
print("\np0 =\n    ()")
for i in range(1, 16):
    print(f"\n\np{i} =\n    ( p{i - 1}, p{i - 1} )")
more = nodes - 65535
print("\n\nx =\n    " + "[ " * more + "p15" + " ]" * more)
PYTHON
    infer "nodes_$nodes"
done
