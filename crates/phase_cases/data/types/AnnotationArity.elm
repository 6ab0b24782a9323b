module AnnotationArity exposing (..)

f : Int
f x =
    x
