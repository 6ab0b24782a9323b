module NegateList exposing (..)

f =
    -[ 1 ]
