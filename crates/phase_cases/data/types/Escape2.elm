module Escape2 exposing (..)

f : b -> Int
f x =
    let
        g : a -> a
        g y =
            x
    in
    1
