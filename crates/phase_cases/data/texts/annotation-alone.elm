module Main exposing (..)

size : Int


other =
    1
