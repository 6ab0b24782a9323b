module RigidFree exposing (..)

f : a -> Int
f x =
    .name x
