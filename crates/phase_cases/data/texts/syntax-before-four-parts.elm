module Main exposing (..)

x =
    ( 1, 2 ], 3, 4 )
