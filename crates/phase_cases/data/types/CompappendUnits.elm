module CompappendUnits exposing (..)

f a b =
    ( a < b, a ++ b )


x =
    f [ () ] []
