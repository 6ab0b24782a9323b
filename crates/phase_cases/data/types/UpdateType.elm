module UpdateType exposing (..)

p =
    { x = "a" }


f =
    { p | x = 2 }
