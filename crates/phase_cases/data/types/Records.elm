module Records exposing (..)

x =
    { x = 1 } < { x = 2 }
