module Scoped exposing (..)

f : a -> List a
f x =
    let
        g : a -> List a
        g y =
            [ x, y ]
    in
    g x
