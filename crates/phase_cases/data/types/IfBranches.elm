module IfBranches exposing (..)

f b =
    if b then
        1
    else
        "a"
