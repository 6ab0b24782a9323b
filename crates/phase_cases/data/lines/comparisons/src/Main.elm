module Main exposing (..)


same a b =
    a == b


other a b =
    a /= b


less a b =
    a < b


more a b =
    a > b


most a b =
    a <= b


least a b =
    a >= b
