module CaseSubject exposing (..)

f n =
    case n + 1 of
        "a" ->
            1

        _ ->
            2
