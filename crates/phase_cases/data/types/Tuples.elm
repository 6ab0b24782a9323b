module Tuples exposing (..)

x =
    ( 1, 'a' ) < ( 2, 'b' )
