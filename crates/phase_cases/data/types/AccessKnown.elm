module AccessKnown exposing (..)

p =
    { x = 1 }


f =
    p.y
