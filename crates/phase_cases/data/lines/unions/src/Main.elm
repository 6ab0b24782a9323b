module Main exposing (..)


type Shape
    = Dot
    | Circle Int
    | Box Int Int


full =
    Box 1 2


part =
    Box 1


maker =
    Circle
