module LambdaArity exposing (..)

f : Int -> Int
f =
    \a b -> a
