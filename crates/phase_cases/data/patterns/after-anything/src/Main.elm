module Main exposing (first)

first xs =
    case xs of
        _ ->
            0

        [] ->
            1
