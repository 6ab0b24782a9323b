module AsPattern exposing (..)

f (( a, b ) as p) =
    ( p, a )
