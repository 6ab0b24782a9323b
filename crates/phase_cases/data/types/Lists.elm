module Lists exposing (..)

f =
    [ 1, "a" ]
