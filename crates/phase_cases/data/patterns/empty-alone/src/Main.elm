module Main exposing (first)

first xs =
    case xs of
        [] ->
            0
