module Main exposing (..)

x =
    f -1


y =
    f - 1


z =
    f-1


g -1 =
    -1
