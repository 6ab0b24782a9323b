module General exposing (..)

f : a -> b
f x =
    x
