module Main exposing (f)

f n =
    case n of
        0 ->
            1

       _ ->
            2
