module Triples exposing (..)

x =
    ( 1, 'a', "b" ) < ( 2, 'b', "c" )
