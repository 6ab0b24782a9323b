module Start exposing (..)

f x =
    g + 1


g y =
    f y
