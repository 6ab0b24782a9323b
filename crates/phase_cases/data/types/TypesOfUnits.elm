module TypesOfUnits exposing (..)

f () =
    ()
