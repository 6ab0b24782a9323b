#!/usr/bin/env bash
# Times two builds: of a text of exactly 4,194,304 bytes, the most that is read, which is comments round the program of
# examples/answer, and of the same text with one byte more, which is refused. Prints both times.
set -u
root="$(cd "$(dirname "$0")/.." && pwd)" || exit 1
main="$root/examples/answer/src/Main.elm"
limit=4194304
lines=32768
TIMEFORMAT='%R s'

room="$(mktemp -d)" || exit 1
trap 'rm -rf "$room"' EXIT
cd "$room" || exit 1
mkdir src
cp "$root/examples/answer/elm.json" .

# Writes src/Main.elm, of so many bytes: a block comment, the program, and lines of 64 bytes.
write_text() { # BYTES
    local block=$(($1 - $(wc -c <"$main") - lines * 64))
    {
        printf '{-\n'
        yes 'A line of a block comment, which no line but the last one ends.' | head -c "$((block - 7))"
        printf '\n-}\n'
        cat "$main"
        yes -- '-- A line of sixty-three characters, and the line feed after it.' | cut -c 1-63 | head -n "$lines"
    } >src/Main.elm
}

time_build() { # BYTES WANTED_STATUS
    write_text "$1"
    echo "$(wc -c <src/Main.elm) bytes:"
    time "$root/elmc" make src/Main.elm --output=out.js
    local status=$?
    if [ "$status" -ne "$2" ]; then
        echo "the status is $status, and not $2" >&2
        exit 1
    fi
}

# The compiler is built before the times are taken; without words it prints its usage and has status 2.
"$root/elmc" 2>/dev/null
[ $? -eq 2 ] || exit 1
time_build "$limit" 0
time_build "$((limit + 1))" 1
