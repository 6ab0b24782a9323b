module NegateRigid exposing (..)

f : comparable -> comparable
f x =
    -x
