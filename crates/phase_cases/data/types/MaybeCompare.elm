module MaybeCompare exposing (..)

f =
    Just 1 < Nothing
