module Main exposing (main)

import Left exposing (..)
import Right exposing (..)


main =
    Left.size + Right.size + height
