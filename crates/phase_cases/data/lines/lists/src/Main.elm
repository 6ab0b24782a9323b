module Main exposing (..)


pair =
    ( 1, "one" )


triple a =
    ( a, (), [ a ] )


some =
    [ 1, 2 ]


longer xs =
    3 :: xs


none =
    []
