module Main exposing (f)

f a b =
    case ( a, b ) of
        ( 0, _ ) ->
            1

        ( _, 0 ) ->
            2

        ( 0, 0 ) ->
            3

        _ ->
            4
