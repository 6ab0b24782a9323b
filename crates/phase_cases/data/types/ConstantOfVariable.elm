module ConstantOfVariable exposing (..)

f : a -> a
f x =
    1
