module RigidNumber exposing (..)

s : number -> Bool
s x =
    [ ( 1, x ) ] == [ x ]
