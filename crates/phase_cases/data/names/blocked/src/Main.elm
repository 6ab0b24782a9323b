module Main exposing (main)
import C
import A


main =
    A.a
