module GroupOne exposing (..)

f x =
    ( g 1, g x )


g x =
    let
        y =
            f x
    in
    x
