module Brackets exposing (..)

f =
    (+)
