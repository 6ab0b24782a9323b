module UpdateMissing exposing (..)

p =
    { x = 1 }


f =
    { p | y = 2 }
