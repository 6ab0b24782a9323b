module LetNumber exposing (..)

f =
    let
        n =
            1
    in
    String.repeat n "a"
