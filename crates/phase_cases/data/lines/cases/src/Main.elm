module Main exposing (..)


type Shape
    = Dot
    | Circle Int
    | Box Int Int


area shape =
    case shape of
        Dot ->
            0

        Circle r ->
            r * r

        Box w h ->
            w * h


named n =
    case n of
        0 ->
            "none"

        1 ->
            "one"

        _ ->
            "many"


truth b =
    case b of
        True ->
            1

        False ->
            0


first pair =
    case pair of
        ( a, _ ) ->
            a


inside n =
    1
        + (case n of
            0 ->
                1

            _ ->
                n
          )
