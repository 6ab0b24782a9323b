module LetChain exposing (..)

f x =
    let
        a =
            b + 1

        b =
            x
    in
    a
