module Group exposing (..)

f x =
    g x


g x =
    f x
