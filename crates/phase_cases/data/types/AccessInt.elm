module AccessInt exposing (..)

f =
    (\n -> n.x) 1
