module EscapeTwo exposing (..)

f x =
    let
        g : b -> a -> a
        g y z =
            x
    in
    x
