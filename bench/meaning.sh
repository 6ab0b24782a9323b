#!/usr/bin/env bash
# Compares what node prints for the programs of crates/command_cases, crates/build_cases and crates/phase_cases, and
# for the outputs that are written by hand there, with the lines that are expected of `elmc run`. Needs node; skips
# without it.
set -eu

root="$(cd "$(dirname "${BASH_SOURCE[0]}")/.." && pwd)"
command -v node >/dev/null || { echo "skipped: node is missing"; exit 0; }
node "$root/bench/worked.mjs"
