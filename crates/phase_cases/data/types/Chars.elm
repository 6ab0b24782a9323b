module Chars exposing (..)

f =
    'a' < "a"
