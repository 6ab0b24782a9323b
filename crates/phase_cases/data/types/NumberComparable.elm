module NumberComparable exposing (..)

f : number -> number -> Bool
f a b =
    a < b
