module LetMono exposing (..)

f x =
    let
        g y =
            ( x, y )
    in
    ( g 1, g "a" )
