module Main exposing (main, missing)

import List exposing (lenght)


type alias Pair a b =
    ( a, Int )


size : Int
size =
    unknown


main x x =
    let
        size =
            1
    in
    x
