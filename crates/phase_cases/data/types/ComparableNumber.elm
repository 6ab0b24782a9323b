module ComparableNumber exposing (..)

f : comparable -> comparable -> comparable
f a b =
    a + b
