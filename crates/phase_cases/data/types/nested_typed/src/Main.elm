module Main exposing (..)

type Nested a
    = Flat a
    | Nest (Nested (List a))


depth : Nested a -> Int
depth n =
    case n of
        Flat _ ->
            0

        Nest inner ->
            1 + depth inner
