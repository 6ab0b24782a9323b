#!/usr/bin/env python3
"""Writes a project of many modules: make_project.py COUNT SEED FOLDER

The modules are M0000, M0001 and so on. Each has some 50 lines: a custom type, a record, functions with `case`, `let`
and recursion, and a constant. The constant is made of those of up to three earlier modules, which it imports. `Main`
imports all of them and sends the sum of their constants. So the project has COUNT + 1 modules; elmc takes at most 4,096.
FOLDER/expected.txt has the line that its output prints for the input `null`.

The same COUNT and SEED give the same project.
"""
import json
import os
import sys


def draws(seed):
    while True:
        seed = (6364136223846793005 * seed + 1442695040888963407) % 2**64
        yield seed >> 33


def module(number, constant, imports):
    name = f"M{number:04}"
    lines = [f"module {name} exposing (Box, Shape(..), area, grow, label, total, value)", ""]
    lines += [f"import M{it:04}" for it in imports]
    lines += ["" for _ in imports[:1]]
    terms = "".join(f" + M{it:04}.value" for it in imports)
    lines += [
        "",
        "type Shape",
        "    = Empty",
        "    | Square Int",
        "    | Many (List Shape)",
        "",
        "",
        "type alias Box =",
        "    { name : String, shape : Shape, count : Int }",
        "",
        "",
        "area : Shape -> Int",
        "area shape =",
        "    case shape of",
        "        Empty ->",
        "            0",
        "",
        "        Square side ->",
        "            side * side",
        "",
        "        Many shapes ->",
        "            List.sum (List.map area shapes)",
        "",
        "",
        "grow : Int -> Box -> Box",
        "grow by box =",
        "    { box | count = box.count + by, shape = Many [ box.shape, Square by ] }",
        "",
        "",
        "label box =",
        "    let",
        "        number =",
        "            String.fromInt (area box.shape)",
        "    in",
        '    box.name ++ " " ++ number',
        "",
        "",
        "total : Int -> Int -> Int",
        "total sum n =",
        "    if n <= 0 then",
        "        sum",
        "",
        "    else",
        "        total (sum + modBy 7 n) (n - 1)",
        "",
        "",
        "value : Int",
        "value =",
        f"    modBy 1000003 ({constant}{terms} + area (grow 2 (Box \"b\" (Square 3) 1)).shape + total 0 5)",
    ]
    return "\n".join(lines) + "\n"


MAIN = """

port out : Int -> Cmd msg


main : Program () () ()
main =
    Platform.worker
        { init = \\_ -> ( (), out (List.sum values) )
        , update = \\_ m -> ( m, Cmd.none )
        , subscriptions = \\_ -> Sub.none
        }


values : List Int
values =
    [ %s
    ]
"""


def main():
    count, seed, folder = int(sys.argv[1]), int(sys.argv[2]), sys.argv[3]
    os.makedirs(f"{folder}/src", exist_ok=True)
    project = {
        "type": "application",
        "source-directories": ["src"],
        "elm-version": "0.19.1",
        "dependencies": {"direct": {"elm/core": "1.0.5", "elm/json": "1.1.3"}, "indirect": {}},
        "test-dependencies": {"direct": {}, "indirect": {}},
    }
    with open(f"{folder}/elm.json", "w") as file:
        json.dump(project, file, indent=4)
    draw = draws(seed)
    values = []
    for number in range(count):
        constant = next(draw) % 1000
        wanted = next(draw) % 4 if number else 0
        imports = sorted({next(draw) % number for _ in range(wanted)})
        values.append((constant + sum(values[it] for it in imports) + 9 + 4 + 15) % 1000003)
        with open(f"{folder}/src/M{number:04}.elm", "w") as file:
            file.write(module(number, constant, imports))
    with open(f"{folder}/src/Main.elm", "w") as file:
        file.write("port module Main exposing (main)\n\n")
        file.writelines(f"import M{it:04}\n" for it in range(count))
        file.write(MAIN % "\n    , ".join(f"M{it:04}.value" for it in range(count)) if count else MAIN % "0")
    with open(f"{folder}/inputs.txt", "w") as file:
        file.write("null\n")
    with open(f"{folder}/expected.txt", "w") as file:
        file.write(f"out {sum(values)}\n")


main()
