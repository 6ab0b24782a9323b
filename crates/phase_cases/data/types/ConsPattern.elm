module ConsPattern exposing (..)

f xs =
    case xs of
        x :: "a" ->
            x

        _ ->
            0
