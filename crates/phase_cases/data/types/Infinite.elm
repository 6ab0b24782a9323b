module Infinite exposing (..)

f x =
    x :: x
