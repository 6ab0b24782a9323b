module Main exposing (..)


local n =
    let
        m =
            n + 1

        ( a, b ) =
            ( m, n )
    in
    a * b


twice n =
    let
        f x =
            x + n
    in
    f (f n)


inside n =
    1
        + (let
            m =
                n
           in
           m
          )
