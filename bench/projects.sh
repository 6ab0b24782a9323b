#!/usr/bin/env bash
# Times builds of projects of 1, 300, 1,000 and 4,000 modules, each of some 50 lines with up to three imports, and
# beside them `elm make` where elm is installed. Prints the seconds and the greatest memory of each build. The last line
# says how many milliseconds each further module takes from one project to the next: if the time grows as the number of
# modules does, these are about the same.
#
# The words are other numbers of modules. PROGRAM names an elmc that is built already. Where node is there, the output
# of each build is run and must print what the generator says.
set -eu

root="$(cd "$(dirname "${BASH_SOURCE[0]}")/.." && pwd)"
program="${PROGRAM:-$root/elmc}"
folder="$(mktemp -d)"
trap 'rm -rf "$folder"' EXIT
[ $# -gt 0 ] || set -- 1 300 1000 4000

build() { # NAME COUNT WORDS..
    python3 - "$@" <<'PYTHON'
import resource, subprocess, sys, time
name, count, *words = sys.argv[1:]
start = time.monotonic()
done = subprocess.run(words, stdout=subprocess.PIPE, stderr=subprocess.STDOUT)
seconds = time.monotonic() - start
used = resource.getrusage(resource.RUSAGE_CHILDREN)
print(f"{name}, {count} modules: {seconds:.2f} s, of the processor {used.ru_utime + used.ru_stime:.2f} s,", end=" ")
print(f"{used.ru_maxrss // 1024} MiB,", end=" ")
print(f"status {done.returncode}:", done.stdout.decode()[-60:].strip().split("\n")[-1], flush=True)
with open("times.txt", "a") as file:
    file.write(f"{name} {count} {used.ru_utime + used.ru_stime}\n")
sys.exit(done.returncode)
PYTHON
}

cd "$folder"
for count in "$@"; do
    # Main is one of the modules.
    python3 "$root/bench/make_project.py" "$((count - 1))" 1 "project_$count"
    cd "project_$count"
    build elmc "$count" "$program" make src/Main.elm --output=out.js
    if command -v node >/dev/null; then
        node --stack-size=60000 "$root/bench/run_in_node.mjs" out.js inputs.txt | cmp - expected.txt
    fi
    if command -v elm >/dev/null; then
        build elm "$count" elm make src/Main.elm --output=elm.js || true
    fi
    cat times.txt >>../times.txt
    cd ..
done

# One module more than a project may have.
python3 "$root/bench/make_project.py" 4096 1 too_many
(cd too_many && "$program" make src/Main.elm --output=out.js 2>&1 || true) |
    grep '^src/Main.elm:1:1: P6 TooManyModules$'

awk '$1 == "elmc" { count[++n] = $2; time[n] = $3 }
    END {
        printf "milliseconds for each further module:"
        for (i = 2; i <= n; i++)
            printf " %.2f up to %d", 1000 * (time[i] - time[i - 1]) / (count[i] - count[i - 1]), count[i]
        print ""
    }' times.txt
