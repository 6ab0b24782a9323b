module LetOrder exposing (..)

f =
    let
        a =
            b ++ "x"

        b =
            1
    in
    a
