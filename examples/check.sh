#!/usr/bin/env bash
# Builds each example, runs its program in node, and compares what it prints. Status 0: as wanted, or no node.
set -u
cd "$(dirname "$0")" || exit 1

same() { # WHAT WANTED SEEN
    if [ "$2" != "$3" ]; then
        printf '%s: wanted "%s", and it is "%s"\n' "$1" "$2" "$3" >&2
        exit 1
    fi
}

check() { # EXAMPLE MODULES LINES
    cd "$1" || exit 1
    rm -f out.js
    local line
    line="$(../../elmc make src/Main.elm --output=out.js)"
    same "$1: status of elmc" 0 "$?"
    same "$1: output of elmc" "compiled to out.js, modules: $2" "$line"
    if command -v node >/dev/null; then
        line="$(node run.js)"
        same "$1: status of node" 0 "$?"
        same "$1: output of node" "$3" "$line"
        echo "examples/$1: built and run, as wanted"
    else
        echo "examples/$1: built, and not run: there is no node here"
    fi
    cd ..
}

check answer 1 "out 42"
check parcel 1 "price 810"
check meter 1 "reading 132"
check orders 2 'totals {"id":1,"cents":900}
refused {"id":2,"reason":"coupon SPRING is used up"}
totals {"id":3,"cents":360}'
