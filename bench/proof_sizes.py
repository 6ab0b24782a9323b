#!/usr/bin/env python3
"""Prints what is dear in the proof of a crate that `rt check` has proved: proof_sizes.py CRATE [LINES].

The time of a proof goes with the size of what rattle makes for each function. The first list has that size for each
function, and how much of it the borrow checker's module takes. The second has the types that are written out there,
each once where it is not part of another: how much all of them take, how often one is written, and the size of one.
"""
import collections
import os
import re
import sys

PART = re.compile(
    "/(Lts|Code|Goals|Given|Tie|Reads|Kinds|Layout|Key|Proof|Answers|Named|Symbol|Statement|Met|Invariants|Carried)"
)
TYPE = re.compile(r'\{"(?:Enum|Declared|Owner)":\{"name":"([^"]+)"')


def modules(path):
    """Gives the name of each module and each line of it."""
    name = ""
    with open(path, errors="replace") as file:
        for line in file:
            if len(line) < 400 and line.startswith('"'):
                name = line.strip().strip('":,').partition("/")[2]
            else:
                yield name, line


def outermost(line):
    """Gives the name and the size of each type in the line that is not part of another."""
    starts = {it.start(): it.group(1) for it in TYPE.finditer(line)}
    opened, types, in_text = [], [], False
    for it in re.finditer(r'["{}]', line):
        if it.group() == '"':
            in_text = not in_text
        elif in_text:
            continue
        elif it.group() == "{":
            opened.append(it.start())
            if it.start() in starts:
                types.append(it.start())
        elif opened:
            start = opened.pop()
            if types and types[-1] == start:
                types.pop()
                if not types:
                    yield starts[start], it.end() - start


def main():
    if len(sys.argv) < 2:
        sys.exit("proof_sizes.py CRATE [LINES]")
    root = os.path.dirname(os.path.dirname(os.path.realpath(__file__)))
    crate, lines = sys.argv[1], int(sys.argv[2]) if len(sys.argv) > 2 else 30
    path = f"{root}/crates/{crate}/out/rlib/{crate}.rlib/lang/antt/made.json"
    if not os.path.exists(path):
        sys.exit(f"{crate} is not proved here: run `rt check` in its folder first")
    whole, checker = collections.Counter(), collections.Counter()
    count, size = collections.Counter(), collections.Counter()
    for name, line in modules(path):
        found = PART.search(name)
        function = name[: found.start()] if found else name
        whole[function] += len(line)
        if found and found.group(1) == "Lts":
            checker[function] += len(line)
            # (what follows the first module repeats it)
            if not name.endswith(("/Given", "/View")):
                for type_name, length in outermost(line):
                    count[type_name] += 1
                    size[type_name] += length
    print(f"{sum(whole.values()) / 1e6:.1f} MB in all, kB of each function, and of that the borrow checker's:")
    for name, length in whole.most_common(lines):
        print(f"{length / 1e3:9.0f} {checker[name] / 1e3:9.0f}  {name}")
    print("kB of the types that are written out, how often, and bytes of one:")
    for name, length in size.most_common(lines):
        print(f"{length / 1e3:9.0f} {count[name]:7d} {length // count[name]:8d}  {name}")


if __name__ == "__main__":
    main()
