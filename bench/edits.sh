#!/usr/bin/env bash
# Tries the wrong bodies that the gate passes over: those in crates/CRATE/must-fail/*.md, of the crates that are named,
# or of all. The prover must refuse each. It works on a copy, by `rt ci CRATE..`, which takes from earlier runs on this
# machine what they proved of the same files. Each wrong body costs the proof of its crate once more.
set -u

root="$(cd "$(dirname "${BASH_SOURCE[0]}")/.." && pwd)" || exit 125
if [ $# -eq 0 ]; then
    set -- $(cd "$root/crates" && ls -d -- */must-fail/*.md | cut -d/ -f1 | sort -u)
fi
room="$(mktemp -d)" || exit 125
trap 'rm -rf "$room"' EXIT
git -C "$root" archive HEAD | tar -x -C "$room" || exit 125
for name in "$@"; do
    for file in "$room/crates/$name/must-fail"/*.md; do
        [ -e "$file" ] && mv "$file" "${file%.md}.edit"
    done
done
cd "$room" || exit 125
git init -q . && rt ci "$@"
