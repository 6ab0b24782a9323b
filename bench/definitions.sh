#!/usr/bin/env bash
# Times builds of modules of many definitions, each of which uses the one before it, and of twice as many: the second time should be about
# twice the first. Then the same for one application with many arguments.
set -u
root="$(cd "$(dirname "$0")/.." && pwd)" || exit 1
TIMEFORMAT='%R s'

room="$(mktemp -d)" || exit 1
trap 'rm -rf "$room"' EXIT
cd "$room" || exit 1
mkdir src
cp "$root/examples/answer/elm.json" .

# Writes src/Main.elm, which sends the argument and has the definitions of standard input.
write_module() { # ARGUMENT
    {
        printf 'port module Main exposing (main)\n\nport out : Int -> Cmd msg\n\n'
        cat
        printf 'main : Program () () ()\nmain =\n    Platform.worker\n        { init = \\_ -> ( (), out %s )\n' "$1"
        printf '        , update = \\_ m -> ( m, Cmd.none )\n        , subscriptions = \\_ -> Sub.none\n        }\n'
    } >src/Main.elm
}

time_build() { # WHAT
    echo "$1, $(wc -c <src/Main.elm) bytes:"
    time "$root/elmc" make src/Main.elm --output=out.js || exit 1
}

# The compiler is built before the times are taken; without words it prints its usage and has status 2.
"$root/elmc" 2>/dev/null
[ $? -eq 2 ] || exit 1
for count in 20000 40000; do
    awk -v n="$count" 'BEGIN { for (i = n; i > 0; i--) printf "f%d : Int -> Int\nf%d x = f%d x + 1\n", i, i, i - 1; printf "f0 : Int -> Int\nf0 x = x\n" }' |
        write_module "(f$count 1)"
    time_build "$count definitions"
done
for count in 500 1000; do
    awk -v n="$count" 'BEGIN { printf "f : "; for (i = 0; i < n; i++) printf "Int -> "; printf "Int\nf"; for (i = 0; i < n; i++) printf " x%d", i; printf " = x0\n" }' |
        write_module "(f$(yes ' 1' | head -n "$count" | tr -d '\n'))"
    time_build "an application with $count arguments"
done
