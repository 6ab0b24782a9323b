module Lacks exposing (..)

f : { a | x : Int } -> Int
f r =
    r.x


g =
    f { x = 1, y = 2 }
