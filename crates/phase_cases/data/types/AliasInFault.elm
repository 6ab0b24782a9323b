module AliasInFault exposing (..)

type alias P =
    { x : Int }


f : P
f =
    1
