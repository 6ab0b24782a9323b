module AddOne exposing (..)

g : number -> number
g x =
    x + 1
