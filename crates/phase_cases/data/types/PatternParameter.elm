module PatternParameter exposing (..)

f : Int -> Int
f ( a, b ) =
    a
