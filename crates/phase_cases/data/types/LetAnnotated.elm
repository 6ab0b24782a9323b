module LetAnnotated exposing (..)

f =
    let
        g : Int -> Int
        g n =
            "a"
    in
    g 1
