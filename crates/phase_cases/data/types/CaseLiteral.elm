module CaseLiteral exposing (..)

f x =
    case x of
        1 ->
            "a"

        'b' ->
            "b"

        _ ->
            ""
