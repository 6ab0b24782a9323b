module PairAsParameter exposing (..)

bad =
    (\pair -> ( pair 1, pair "a" )) (\x -> ( x, x ))
