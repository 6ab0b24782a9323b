module Main exposing (..)

type P a
    = P


f : P Int -> P String
f p =
    P


g =
    f (P)
