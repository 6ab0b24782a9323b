module Main exposing (f)


f (x :: xs) = x
