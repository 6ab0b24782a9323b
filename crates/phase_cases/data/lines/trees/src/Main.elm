module Main exposing (..)


one x y =
    case ( x, y ) of
        ( True, _ ) ->
            1

        ( _, True ) ->
            2

        _ ->
            3


few xs =
    case xs of
        [] ->
            0

        [ x ] ->
            1

        "b" :: _ ->
            2

        x :: y :: rest ->
            3


late m n =
    case ( m, n ) of
        ( _, 0 ) ->
            1

        ( Just a, _ ) ->
            a

        ( Nothing, k ) ->
            k
