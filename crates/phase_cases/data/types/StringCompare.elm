module StringCompare exposing (..)

f a =
    a < "b" && a ++ "c" == a
