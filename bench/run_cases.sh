#!/usr/bin/env bash
# Compares the files of crates/run_cases with what node gives for them. Needs node; skips without it.
set -eu

root="$(cd "$(dirname "${BASH_SOURCE[0]}")/.." && pwd)"
command -v node >/dev/null || { echo "skipped: node is missing"; exit 0; }
node "$root/bench/run_cases.mjs" check
