module ExtensibleBad exposing (..)

f : { a | x : Int } -> { a | x : Int, y : Int }
f r =
    r
