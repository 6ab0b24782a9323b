module NumberVar exposing (..)

f : number -> number1 -> number
f a b =
    a + b
