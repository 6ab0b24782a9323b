#!/usr/bin/env bash
# Times how fast patterns are checked, on a stack of 8 MiB: a `case` of 300 constructors, of 300 constructors and the
# last missing, of 1,000 constructors, of 1,000 texts, of ten nested tuples with wildcards, of all 1,024 branches of such
# tuples, and of three columns of 60 constructors without a branch that takes everything. Prints the greatest memory and
# the time, in which the texts are read and the names of the core modules are resolved too: the first line says what an
# empty module takes.
#
# The program is elmc, which this builds; PROGRAM names one that is built already. The modules have no `main`, so where
# nothing else is wrong with one, that is said.
set -eu

root="$(cd "$(dirname "${BASH_SOURCE[0]}")/.." && pwd)"
program="${PROGRAM:-$root/elmc}"
"$program" >/dev/null 2>&1 </dev/null || true
folder="${FOLDER:-$(mktemp -d)}"
[ -n "${FOLDER:-}" ] || trap 'rm -rf "$folder"' EXIT
cd "$folder"
ulimit -s 8192
project='{ "type": "application", "elm-version": "0.19.1", "source-directories": ["src"] }'

check() { # NAME
    python3 - "$program" "$1" <<'PYTHON'
import resource, subprocess, sys, time
program, name = sys.argv[1:]
start = time.monotonic()
done = subprocess.run([program, "make", "src/Main.elm", "--output=out.js"], cwd=name, stderr=subprocess.PIPE)
seconds = time.monotonic() - start
used = resource.getrusage(resource.RUSAGE_CHILDREN)
print(f"{name}: {used.ru_maxrss // 1024} MiB, {seconds:.2f} s, of the processor {used.ru_utime + used.ru_stime:.2f} s,", end=" ")
print(f"status {done.returncode}:", done.stderr.decode()[:120].strip(), flush=True)
PYTHON
}

begin() { # NAME
    mkdir -p "$1/src"
    echo "$project" >"$1/elm.json"
    printf 'module Main exposing (..)\n\n' >"$1/src/Main.elm"
}

begin empty
printf '\nx =\n    0\n' >>empty/src/Main.elm

constructors() { # NAME, how many constructors, how many branches
    begin "$1"
    awk -v size="$2" -v count="$3" 'BEGIN {
        print "\ntype T\n    = C0"
        for (i = 1; i < size; i++) print "    | C" i
        print "\n\nf x =\n    case x of"
        for (i = 0; i < count; i++) printf "        C%d ->\n            %d\n\n", i, i
    }' >>"$1/src/Main.elm"
}

constructors constructors_300 300 300
constructors constructors_299 300 299
constructors constructors_1000 1000 1000

begin texts
awk 'BEGIN {
    print "\nf x =\n    case x of"
    for (i = 0; i < 1000; i++) printf "        \"%d\" ->\n            %d\n\n", i, i
    print "        _ ->\n            0"
}' >>texts/src/Main.elm

# row k has a constructor at each third place, and wildcards between them
begin tuples
awk 'BEGIN {
    print "\nf x =\n    case x of"
    for (k = 0; k < 30; k++) {
        row = ""
        for (i = 0; i < 10; i++) {
            p = (i + k) % 3 != 0 ? "_" : int(k / 3 / 2 ^ int(i / 3)) % 2 == 0 ? "True" : "False"
            row = row "( " p ", "
        }
        row = row "_"
        for (i = 0; i < 10; i++) row = row " )"
        printf "        %s ->\n            %d\n\n", row, k
    }
    print "        _ ->\n            0"
}' >>tuples/src/Main.elm

begin all_tuples
awk 'BEGIN {
    print "\nf x =\n    case x of"
    for (k = 0; k < 1024; k++) {
        row = ""
        bits = k
        for (i = 0; i < 10; i++) {
            row = row "( " (bits % 2 == 0 ? "True" : "False") ", "
            bits = int(bits / 2)
        }
        row = row "()"
        for (i = 0; i < 10; i++) row = row " )"
        printf "        %s ->\n            %d\n\n", row, k
    }
}' >>all_tuples/src/Main.elm

begin columns
awk 'BEGIN {
    print "\ntype T\n    = C0"
    for (i = 1; i < 60; i++) print "    | C" i
    print "\n\nf x =\n    case x of"
    for (i = 0; i < 5; i++) printf "        ( C%d, _, _ ) ->\n            0\n\n", i
    for (i = 0; i < 5; i++) printf "        ( _, C%d, _ ) ->\n            0\n\n", i
    for (i = 0; i < 60; i++) printf "        ( _, _, C%d ) ->\n            0\n\n", i
}' >>columns/src/Main.elm

for name in empty constructors_300 constructors_299 constructors_1000 texts tuples all_tuples columns; do
    check "$name"
done
