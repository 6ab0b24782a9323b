module ListCompare exposing (..)

f a =
    [ a ] < [ a ] 
