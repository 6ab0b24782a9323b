module Alias exposing (..)

type alias P a =
    { x : a, y : Int }


f =
    P "a"
