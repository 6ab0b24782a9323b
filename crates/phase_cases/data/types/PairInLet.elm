module PairInLet exposing (..)

x =
    let
        pair x1 =
            ( x1, x1 )
    in
    ( pair 1, pair "a" )
