#!/usr/bin/env bash
# Times how fast cases become trees of tests, and how fast the emitted code runs in node.
#
# First the projects whose lines are written, with the greatest memory and the time, in which the texts of the core
# library are read and resolved too; the first line says what an empty module takes: a `case` of 300 constructors, one of
# 1,000, one of 1,000 texts, and one of ten nested tuples with wildcards.
#
# Then programs that are run in node, with the time of their start alone: a sum of a million numbers by a loop, five
# times; folds, maps and filters of a list of 10,000 numbers, a hundred times; and a loop of ten million turns. Where
# `elm` is installed, its output of the same program is timed too, each program three times in turn, and the least time
# is printed.
#
# The program is elmc, which this builds; PROGRAM names one that is built already. The modules whose `case` becomes a
# tree have no `main`, and that is said.
set -eu

root="$(cd "$(dirname "${BASH_SOURCE[0]}")/.." && pwd)"
program="${PROGRAM:-$root/elmc}"
"$program" >/dev/null 2>&1 </dev/null || true
folder="${FOLDER:-$(mktemp -d)}"
[ -n "${FOLDER:-}" ] || trap 'rm -rf "$folder"' EXIT
cd "$folder"
ulimit -s 8192
project='{ "type": "application", "elm-version": "0.19.1", "source-directories": ["src"] }'

begin() { # NAME
    mkdir -p "$1/src"
    echo "$project" >"$1/elm.json"
    printf 'module Main exposing (..)\n\n' >"$1/src/Main.elm"
}

emit() { # NAME
    python3 - "$program" "$1" <<'PYTHON'
import resource, subprocess, sys, time
program, name = sys.argv[1:]
start = time.monotonic()
done = subprocess.run([program, "make", "src/Main.elm", "--output=out.js"], cwd=name, stderr=subprocess.PIPE)
seconds = time.monotonic() - start
used = resource.getrusage(resource.RUSAGE_CHILDREN)
print(f"{name}: {used.ru_maxrss // 1024} MiB, {seconds:.3f} s, of the processor {used.ru_utime + used.ru_stime:.3f} s,", end=" ")
print(f"status {done.returncode}:", done.stderr.decode()[:80].strip(), flush=True)
PYTHON
}

begin empty
printf '\nx =\n    0\n' >>empty/src/Main.elm

for count in 300 1000; do
    begin "constructors_$count"
    awk -v n="$count" 'BEGIN {
        print "\ntype T\n    = C0"
        for (i = 1; i < n; i++) print "    | C" i
        print "\n\nf x =\n    case x of"
        for (i = 0; i < n; i++) printf "        C%d ->\n            %d\n\n", i, i
    }' >>"constructors_$count/src/Main.elm"
done

begin texts
awk 'BEGIN {
    print "\nf x =\n    case x of"
    for (i = 0; i < 1000; i++) printf "        \"%d\" ->\n            %d\n\n", i, i
    print "        _ ->\n            0"
}' >>texts/src/Main.elm

# row k has a constructor in its k-th tuple, and wildcards elsewhere
begin tuples
awk 'BEGIN {
    print "\nf x =\n    case x of"
    for (k = 0; k < 10; k++) {
        row = ""
        for (i = 0; i < 10; i++) row = row "( " (i == k ? "True" : "_") ", "
        row = row "_"
        for (i = 0; i < 10; i++) row = row " )"
        printf "        %s ->\n            %d\n\n", row, k
    }
    print "        _ ->\n            10"
}' >>tuples/src/Main.elm

for name in empty constructors_300 constructors_1000 texts tuples; do
    emit "$name"
done

command -v node >/dev/null || { echo "node is missing"; exit 0; }

worker() { # NAME; the definition of `answer` is read
    mkdir -p "$1/src"
    echo "$project" >"$1/elm.json"
    cat >"$1/src/Main.elm" <<'ELM'
port module Main exposing (main)


port out : Int -> Cmd msg


main : Program () () ()
main =
    Platform.worker
        { init = \_ -> ( (), out (answer 3) )
        , update = \_ model -> ( model, Cmd.none )
        , subscriptions = \_ -> Sub.none
        }


ELM
    cat >>"$1/src/Main.elm"
}

worker loop <<'ELM'
answer : Int -> Int
answer start =
    repeated 5 start


repeated : Int -> Int -> Int
repeated times total =
    if times == 0 then
        total

    else
        repeated (times - 1) (sum 1000000 total)


sum : Int -> Int -> Int
sum n total =
    if n == 0 then
        total

    else
        sum (n - 1) (modBy 1000003 (total + n))
ELM

worker folds <<'ELM'
answer : Int -> Int
answer start =
    repeated 100 start


repeated : Int -> Int -> Int
repeated times total =
    if times == 0 then
        total

    else
        List.range 1 10000
            |> List.map (\n -> n * 3)
            |> List.filter (\n -> modBy 2 n == 0)
            |> List.foldl (\n sum -> modBy 1000003 (sum + n)) total
            |> repeated (times - 1)
ELM

worker turns <<'ELM'
answer : Int -> Int
answer start =
    turn 10000000 start


turn : Int -> Int -> Int
turn n state =
    if n == 0 then
        state

    else
        turn (n - 1) (modBy 65537 (state * 75))
ELM

cat >time.js <<'JS'
const fs = require("fs"), vm = require("vm");
const script = new vm.Script(fs.readFileSync(process.argv[2], "utf8"));
let least = Infinity, sent = [];
for (let k = 0; k < 3; k++) {
  const scope = {console: {warn() {}, log() {}}, setTimeout};
  script.runInNewContext(scope);
  const start = process.hrtime.bigint();
  const app = scope.Elm.Main.init({flags: null});
  least = Math.min(least, Number(process.hrtime.bigint() - start) / 1e6);
  app.ports.out.subscribe((value) => sent.push(value));
}
setTimeout(() => console.log(`${least.toFixed(1)} ms, ${[...new Set(sent)].join(" ")}`), 0);
JS

for name in loop folds turns; do
    (cd "$name" && "$program" make src/Main.elm --output="out.js") >/dev/null
    mv "$name/out.js" "$name.js"
    echo "$name: $(node time.js "$name.js")"
    if command -v elm >/dev/null; then
        cat >"$name/elm.json" <<'JSON'
{
    "type": "application",
    "source-directories": ["src"],
    "elm-version": "0.19.1",
    "dependencies": {"direct": {"elm/core": "1.0.5", "elm/json": "1.1.3"}, "indirect": {}},
    "test-dependencies": {"direct": {}, "indirect": {}}
}
JSON
        (cd "$name" && elm make src/Main.elm --optimize --output="../$name.elm.js") >/dev/null
        echo "$name, the output of elm: $(node time.js "$name.elm.js")"
    fi
done
