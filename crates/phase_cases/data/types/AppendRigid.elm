module AppendRigid exposing (..)

f : appendable -> appendable
f x =
    x ++ [ 1 ]
