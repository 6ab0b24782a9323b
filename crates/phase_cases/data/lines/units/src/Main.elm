module Main exposing (..)


blank =
    ()


yes =
    True


no =
    False
