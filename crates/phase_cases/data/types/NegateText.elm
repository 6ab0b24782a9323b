module NegateText exposing (..)

f : String -> String
f s =
    -s
