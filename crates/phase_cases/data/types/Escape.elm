module Escape exposing (..)

f x =
    let
        g : a -> a
        g y =
            x
    in
    g
