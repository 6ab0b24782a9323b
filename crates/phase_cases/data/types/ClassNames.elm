module ClassNames exposing (..)

f x y =
    ( x + 1, y + 1, x < x )
