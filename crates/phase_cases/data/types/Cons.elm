module Cons exposing (..)

f =
    (::)
