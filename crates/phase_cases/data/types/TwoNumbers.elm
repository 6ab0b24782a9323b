module TwoNumbers exposing (..)

f : number -> number1 -> Bool
f a b =
    a == b
