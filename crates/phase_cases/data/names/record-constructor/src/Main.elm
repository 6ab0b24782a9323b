module Main exposing (main)


type alias Point =
    { x : Int, y : Int }


type alias Named a =
    { a | name : String }


type alias Both =
    Named { age : Int }


main =
    ( Point 1 2, Named, Both )
