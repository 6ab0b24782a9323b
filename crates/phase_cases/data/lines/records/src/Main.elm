module Main exposing (..)


type alias Point =
    { x : Int, y : Int }


point =
    { y = 2, x = 1 }


made =
    Point 1 2


getX =
    .x


getY p =
    p.y


moved p =
    { p | x = p.x + 1 }
