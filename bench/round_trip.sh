#!/usr/bin/env bash
# Times how fast a large output is read and run: round_trip.sh [LINES]. It is the output that `elmc make` writes for
# examples/answer, with so many lines more: 330,000 where no number is given, some 30 MB. Prints the seconds that
# `elmc run` takes for it, and for the output as it was made.
set -eu

root="$(cd "$(dirname "${BASH_SOURCE[0]}")/.." && pwd)"
lines="${1:-330000}"
folder="$(mktemp -d)"
trap 'rm -rf "$folder"' EXIT
mkdir "$folder/src"
cp "$root/examples/answer/elm.json" "$folder"
cp "$root/examples/answer/src/Main.elm" "$folder/src/Main.elm"
cd "$folder"
"$root/elmc" make src/Main.elm --output=made.js >/dev/null
printf 'null\n' >in.txt

# The lines stand before that of `main`: functions of two parameters, each of which uses the constant before it.
main="$(grep -n '^const Main\$main=' made.js | cut -d: -f1)"
{
    head -n "$((main - 1))" made.js
    awk -v lines="$lines" 'BEGIN {
        print "const Main$a0=0;"
        body = "($x=>{return ($y=>{return {\"a0\":\"out\",\"a1\":_eSame()(($x+$y)),\"a2\":Main$a%d};});})"
        for (i = 1; i <= lines; i++)
            printf "const Main$a%d=" body ";\n", i, i - 1
    }'
    tail -n "+$main" made.js
} >large.js

seconds() { # NAME
    local start end
    start="$(date +%s.%N)"
    "$root/elmc" run "$1.js" in.txt --fuel=4000000000 >"$1.out"
    end="$(date +%s.%N)"
    echo "$end $start" | awk '{ printf "%.3f", $1 - $2 }'
}

made="$(seconds made)"
large="$(seconds large)"
cmp made.out large.out
echo "as it was made: $(wc -c <made.js) bytes, $made s"
echo "with the lines: $(wc -c <large.js) bytes, $large s"
